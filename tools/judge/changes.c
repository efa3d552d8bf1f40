/* Changes to a reading, as the tables of reasons.c write them. */
#include "judge.h"
#include <err.h>
#include <stdio.h>
#include <stdlib.h>
#include <string.h>

static bool is(const char *word, const char *name)
{
    return strcmp(word, name) == 0;
}

static int bytes_of(const struct code *code, const char *word)
{
    static const char *const widths[] = {"b", "w", "d", "q", "v", "vq", "vd", "dq", "x"};
    const int bytes[] = {1, 2, 4, 8, v_bytes(code), code->p66 ? 2 : 8, !has_w(code) && code->p66 ? 2 : 4, has_w(code) ? 8 : 4, 16};
    for (int at = 0; at < 9; at++)
        if (is(word, widths[at])) return bytes[at];
    errx(2, "no width: %s", word);
}

static void widen(struct operand *operand, int bytes)
{
    static const ZydisRegisterClass classes[] = {[1] = ZYDIS_REGCLASS_GPR8, [2] = ZYDIS_REGCLASS_GPR16, [4] = ZYDIS_REGCLASS_GPR32,
        [8] = ZYDIS_REGCLASS_GPR64, [16] = ZYDIS_REGCLASS_XMM};
    if (operand->kind == REGISTER) operand->reg = ZydisRegisterEncode(classes[bytes], (ZyanU8)ZydisRegisterGetId(operand->reg));
}

/* The first operand that zydis doesn't show of those that a letter names: D and S are memory at rdi and rsi, A the accumulator. */
static struct operand hidden(const struct reading *reading, char letter)
{
    int number = letter == 'D' ? 7 : letter == 'S' ? 6 : 0;
    for (int k = reading->read.operand_count_visible; k < reading->read.operand_count; k++) {
        const ZydisDecodedOperand *it = &reading->of[k];
        bool is_memory = it->type == ZYDIS_OPERAND_TYPE_MEMORY, is_register = it->type == ZYDIS_OPERAND_TYPE_REGISTER;
        ZydisRegister reg = is_memory ? it->mem.base : it->reg.value;
        if ((letter == 'A' ? is_register : is_memory) && ZydisRegisterGetId(reg) == number)
            return (struct operand){.kind = is_memory ? MEMORY : REGISTER, .reg = reg};
    }
    return (struct operand){.kind = TEXT, .text = "?"};
}

static void put(struct reading *reading, int at, struct operand operand)
{
    if (reading->count == OPERANDS || at > reading->count) return;
    memmove(&reading->operands[at + 1], &reading->operands[at], (size_t)(reading->count - at) * sizeof operand);
    reading->operands[at] = operand;
    reading->count++;
}

static void set_size(const struct code *code, struct reading *reading, const char *word)
{
    if (is(word, "?")) reading->size = UNDECIDED;
    else if (is(word, "form")) reading->size = reading->read.operand_width == 8 ? 1 : v_bytes(code);
    else reading->size = *word >= '0' && *word <= '9' ? atoi(word) : bytes_of(code, word);
}

/* `1:w`: the register that operand 1 is has that width; `1:i8`: the immediate has that type; `1:rm`: the word register of rm and B. */
static void set_operand(const struct code *code, struct reading *reading, int at, const char *word)
{
    struct operand *operand = &reading->operands[at];
    if (at >= reading->count) return;
    if (is(word, "rm")) operand->reg = ZydisRegisterEncode(ZYDIS_REGCLASS_GPR16, (ZyanU8)((code->modrm & 7) | (code->rex & 1) << 3));
    else if (*word != 'i' && *word != 'u') widen(operand, bytes_of(code, word));
    else if (operand->kind == IMMEDIATE) {
        operand->is_signed = *word == 'i';
        operand->bits = atoi(word + 1);
    }
}

static void put_texts(struct reading *reading, char *rest)
{
    reading->count = 0;
    for (char *word; (word = strtok_r(rest, ",", &rest)) != NULL;) {
        struct operand operand = {.kind = TEXT};
        snprintf(operand.text, sizeof operand.text, "%s", word);
        put(reading, reading->count, operand);
    }
}

/* Base 101 of SIB at mod 00 is none, whatever B is. zydis 4.0.0 answers r13d under 67. */
static void take_base(const struct code *code, struct reading *reading)
{
    if ((code->modrm & 0xc7) != 4 || !(code->rex & 1)) return;
    for (int k = 0; k < reading->count; k++) {
        struct operand *operand = &reading->operands[k];
        if (operand->kind != MEMORY || operand->reg != ZYDIS_REGISTER_R13D || (code->bytes[code->front + 1] & 7) != 5) continue;
        operand->reg = ZYDIS_REGISTER_NONE;
        operand->value = reading->read.raw.disp.value;
    }
}

static void swap(struct reading *reading)
{
    if (reading->count != 2) return;
    put(reading, 0, reading->operands[1]);
    reading->count = 2;
}

/* `PFSQRT=PFRSQRT` is another name for one of the names at the row. */
static void set_name(struct reading *reading, char *word)
{
    char *other = strchr(word, '=');
    if (other != NULL) *other++ = '\0';
    if (other == NULL || is(word, reading->name)) snprintf(reading->name, sizeof reading->name, "%s", other != NULL ? other : word);
}

/* A name without the width at its end, as MOVS of MOVSB, and XSAVE of XSAVE64. */
static void take_width(struct reading *reading)
{
    size_t length = strlen(reading->name);
    char *end = &reading->name[length];
    if (length > 2 && is(end - 2, "64")) end[-2] = '\0';
    else if (length > 1 && strchr("BWDQ", end[-1])) end[-1] = '\0';
}

static void change_once(const struct code *code, struct reading *reading, char *word)
{
    const struct operand st0 = {.kind = REGISTER, .reg = ZYDIS_REGISTER_ST0};
    char *colon = strchr(word, ':'), *rest = colon != NULL ? colon + 1 : word + strlen(word);
    if (colon != NULL) *colon = '\0';
    if (is(word, "name")) set_name(reading, rest);
    else if (is(word, "size")) set_size(code, reading, rest);
    else if (is(word, "texts")) put_texts(reading, rest);
    else if (is(word, "none")) reading->count = 0;
    else if (is(word, "first")) reading->count = reading->count > 1 ? 1 : reading->count;
    else if (is(word, "st0-first")) put(reading, 0, st0);
    else if (is(word, "st0-last")) put(reading, reading->count, st0);
    else if (is(word, "no-base")) take_base(code, reading);
    else if (is(word, "no-width")) take_width(reading);
    else if (is(word, "swap")) swap(reading);
    else if (is(word, "hidden"))
        for (; *rest != '\0'; rest++) put(reading, reading->count, hidden(reading, *rest));
    else if (*word >= '0' && *word <= '4' && word[1] == '\0') set_operand(code, reading, *word - '0', rest);
    else errx(2, "no such change: %s", word);
}

void change(const struct code *code, struct reading *reading, const char *words)
{
    char text[256], *rest = text;
    snprintf(text, sizeof text, "%s", words);
    for (char *word; (word = strtok_r(rest, " ", &rest)) != NULL;) change_once(code, reading, word);
}
