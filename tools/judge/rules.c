/* Applies the reasons, and counts them. */
#include "judge.h"
#include <stdio.h>
#include <stdlib.h>
#include <string.h>

/* An opcode byte of a row, or a range of them. */
struct where {
    struct rule *rule;
    int table, map, first, last;
    unsigned columns, needs, forbids;    /* bits: its columns; the prefixes that must be there, and those that must not */
    unsigned long long modrms[4];        /* bits */
};

enum { REFUSED, OTHERWISE, CHANGED, TABLES };
static struct rule *const rules[] = {refused, read_otherwise, changed};
/* Those of all rows, as rows.py writes them. */
static const struct where rows[] = {
#include "rows.h"
};

static bool holds(const struct where *where, const struct code *code)
{
    const bool is_any = code->p66 || code->p67 || code->lock || code->segment || code->rex;
    const unsigned has = code->p66 | code->p67 << 1 | has_w(code) << 2 | (code->rex >> 2 & 1) << 3 | is_any << 4;
    const unsigned long long *modrms = where->modrms;
    if (!(where->columns >> code->column & 1) || (where->needs & ~has) || (where->forbids & has)) return false;
    if (code->modrm < 0) return (modrms[0] & modrms[1] & modrms[2] & modrms[3]) == ~0ull;
    return modrms[code->modrm >> 6] >> (code->modrm & 63) & 1;
}

/* The next row of a table that holds, or NULL, after one or from the first one on. */
static const struct where *next(int table, const struct code *code, const struct where *after)
{
    for (const struct where *at = after ? after + 1 : rows; at < rows + sizeof rows / sizeof *rows; at++)
        if (at->table == table && at->map == code->map && at->first <= code->opcode && code->opcode <= at->last && holds(at, code)) return at;
    return NULL;
}

/* The code as which a row is read. */
static struct code other_code(const struct code *code, const char *words)
{
    struct code other = *code;
    const char *at;
    if (strstr(words, "no-66")) other.p66 = false;
    if (strstr(words, "no-repeat")) other.repeat = 0;
    if ((at = strstr(words, "opcode:")) != NULL) other.opcode = (int)strtol(at + 7, NULL, 16);
    if ((at = strstr(words, "modrm:")) != NULL) other.modrm = (int)strtol(at + 6, NULL, 16);
    if ((at = strstr(words, "reg:")) != NULL) other.modrm = (other.modrm & 0xc7) | (at[4] - '0') << 3;
    return other;
}

static bool read_other(const ZydisDecoder *decoder, const struct code *code, const struct code *other, struct reading *reading, ZyanStatus *status)
{
    unsigned char bytes[32];
    size_t front, left = spell(other, bytes, &front);
    if (!decode(decoder, bytes, left, reading, status)) return false;
    read_as_here(reading);
    reading->length = reading->length - front + code->front;
    if (reading->length <= LONGEST) return true;
    *status = ZYDIS_STATUS_INSTRUCTION_TOO_LONG;
    return false;
}

static void apply_changes(const struct code *code, struct reading *reading)
{
    char before[512], after[512];
    for (const struct where *at = NULL; (at = next(CHANGED, code, at)) != NULL;) {
        reading_text(0, reading, before, sizeof before);
        change(code, reading, at->rule->words);
        reading_text(0, reading, after, sizeof after);
        if (strcmp(before, after) != 0) at->rule->count++;
    }
}

/* LOCK is looked at last here: where zydis refuses it, what it answers without it decides. */
static ZyanStatus status_without_lock(const ZydisDecoder *decoder, const struct code *code, struct reading *reading)
{
    struct code other = *code;
    ZyanStatus status = ZYDIS_STATUS_ILLEGAL_LOCK;
    other.lock = false;
    return read_other(decoder, code, &other, reading, &status) ? ZYDIS_STATUS_ILLEGAL_LOCK : status;
}

/* Whether bytes that are cut off are the beginning of an instruction, by trying what could follow. */
static bool is_open(const ZydisDecoder *decoder, const struct code *code, size_t count)
{
    struct code front = *code;
    unsigned char bytes[64];
    struct reading reading;
    ZyanStatus status;
    size_t ignored;
    front.left = count;
    front.lock = false;
    if (count == code->front) front.modrm = -1;
    for (int fill = 0; fill < 256; fill++) {
        size_t left = spell(&front, bytes, &ignored);
        memset(bytes + left, fill, 16);
        if (decode(decoder, bytes, left + 16, &reading, &status) && reading.read.length > left) return true;
    }
    return false;
}

static void allow(struct reading *reading, const char *error)
{
    int at = 0;
    while (reading->refusals[at]) at++;
    reading->refusals[at] = error;
}

/* The errors that may be at bytes that zydis refuses: it says neither whether the opcode or an operand is at fault, nor how many bytes are read before
 * that is known; the processor says how many at the limit of 15 bytes (tools/processor). `other` is the code as which zydis was asked to read it, or
 * NULL where the row is refused here whatever zydis answers. */
static void refuse(const ZydisDecoder *decoder, const struct code *code, const struct code *other, ZyanStatus status, struct reading *reading)
{
    size_t count = code->left < LONGEST ? code->left : LONGEST;
    const char *open = count == LONGEST ? TooLong : ExhaustedInput;
    bool is_cut = status == ZYDIS_STATUS_NO_MORE_DATA || status == ZYDIS_STATUS_INSTRUCTION_TOO_LONG;
    bool is_vex = code->map == 0 && (code->opcode == 0xc4 || code->opcode == 0xc5 || code->opcode == 0x62);
    bool is_3dnow = code->map == 1 && code->opcode == 0x0f, is_xop = code->map == 0 && code->opcode == 0x8f && (code->modrm >> 3 & 7) != 0;
    if (code->opcode < 0 || code->front > LONGEST) { allow(reading, open); return; }
    if (is_vex) { allow(reading, code->p66 || code->lock || code->rex ? InvalidPrefixes : IncompleteDecoder); return; }
    if (other && (is_cut || is_3dnow || count == code->front) && is_open(decoder, other, count)) { allow(reading, open); return; }
    if (count < code->front + MOST_AFTER_OPCODE) allow(reading, open);
    if (status == ZYDIS_STATUS_ILLEGAL_LOCK) allow(reading, InvalidPrefixes);
    else if (is_xop) allow(reading, IncompleteDecoder);
    else { allow(reading, InvalidOpcode); allow(reading, InvalidOperand); }
}

/* The line that is expected at some bytes. */
void expect(const ZydisDecoder *decoder, const struct code *code, struct reading *reading)
{
    ZyanStatus status;
    struct code other = *code;
    bool is_read = decode(decoder, code->bytes, code->left, reading, &status);
    const struct where *where = next(REFUSED, code, NULL);
    if (where) {
        if (is_read) where->rule->count++;
        refuse(decoder, code, NULL, ZYDIS_STATUS_DECODING_ERROR, reading);
        return;
    }
    if (is_read) read_as_here(reading);
    if ((where = next(OTHERWISE, code, NULL)) != NULL) {
        bool was_read = is_read;
        ZydisMnemonic was = reading->read.mnemonic;
        other = other_code(code, where->rule->words);
        is_read = read_other(decoder, code, &other, reading, &status);
        if (is_read && (!was_read || was != reading->read.mnemonic)) where->rule->count++;
    }
    if (is_read) { apply_changes(code, reading); return; }
    if (status == ZYDIS_STATUS_ILLEGAL_LOCK) status = status_without_lock(decoder, &other, reading);
    refuse(decoder, code, &other, status, reading);
}

void print_reasons(void)
{
    for (int k = 0; k < TABLES; k++)
        for (const struct rule *rule = rules[k]; rule->reason != NULL; rule++)
            if (rule->count > 0) printf("reason\t%zu\t%s\n", rule->count, rule->reason);
}
