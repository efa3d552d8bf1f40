/* Which registers a register form changes, how much of its destination, and on which ones the result depends, against the operands of the line. */
#include "processor.h"
#include <string.h>

enum { SETS = 6, ALL = 40 };        /* sets of registers that are tried; registers are bits: 0 to 15 general, 16 to 31 xmm, 32 to 39 mm */
#define BIT(number) (1ull << (number))
#define EACH (BIT(ALL) - 1)
#define ANY BIT(63)                 /* the result isn't that of registers alone */

/* What names read or write without an operand. */
static const struct effect {
    const char *names;
    uint64_t writes, reads;
} effects[] = {
    {"CMPXCHG ", BIT(RAX), BIT(RAX)},
    {"MUL IMUL DIV IDIV ", BIT(RAX) | BIT(RDX), BIT(RAX) | BIT(RDX)},      /* of one operand */
    {"PCMPESTRI PCMPISTRI ", BIT(RCX), BIT(RAX) | BIT(RDX)},
    {"PCMPESTRM PCMPISTRM ", BIT(16), BIT(RAX) | BIT(RDX)},
    {"BLENDVPS BLENDVPD PBLENDVB SHA256RNDS2 ", 0, BIT(16)},
    {"RDRAND RDSEED ", 0, ANY},
    {"XGETBV RDPKRU ", BIT(RAX) | BIT(RDX), BIT(RCX)},
    {"RDTSCP ", BIT(RAX) | BIT(RDX) | BIT(RCX), ANY},
};

static uint64_t random_number(uint64_t *seed)
{
    *seed = *seed * 6364136223846793005ull + 1442695040888963407ull;
    return (*seed ^ *seed >> 29) * 2685821657736338717ull;
}

static void fill_registers(int set)
{
    static const uint64_t flags[SETS] = {0, 0x8d5, 0x80, 0x1, 0x44, 0};
    uint64_t seed = 88172645463325252ull + (uint64_t)set * 1234567, number;
    int shift = set == 3 ? 61 : set == 4 ? 59 : 0;                                      /* small numbers, for the counts of shifts */
    before.flags = flags[set];
    for (int k = 0; k < 16; k++) {
        before.gpr[k] = random_number(&seed) >> (set == 2 ? 20 : 0);
        if (set == 3) before.gpr[k] = k & 1 ? 0x2b : 0x33;                              /* selectors, for LAR and LSL */
        if (set > 3) before.gpr[k] = set == 4 ? ~0ull << (k + 33) : k & 1 ? ~0ull : 0;  /* carries through all bits */
        for (int half = 0; half < 16; half += 8) memcpy(before.xmm[k] + half, (number = random_number(&seed) >> shift, &number), 8);
        if (k < 8) memcpy(before.mm[k], (number = random_number(&seed) >> shift, &number), 8);
    }
    before.gpr[RSP] = (random_number(&seed) >> 20) & ~7ull;
}

static uint8_t *bytes_of(struct registers *of, int number) { return number < 16 ? (uint8_t *)&of->gpr[number] : number < 32 ? of->xmm[number - 16] : of->mm[number - 32]; }
static size_t size_of(int number) { return number >= 16 && number < 32 ? 16 : 8; }

/* The registers that aren't the same in two sets. */
static uint64_t unlike(struct registers *one, struct registers *other)
{
    uint64_t found = 0;
    for (int k = 0; k < ALL; k++) found |= memcmp(bytes_of(one, k), bytes_of(other, k), size_of(k)) ? BIT(k) : 0;
    return found;
}

static void complement(uint64_t set)
{
    for (int k = 0; k < ALL; k++)
        for (size_t at = 0; set & BIT(k) && at < size_of(k); at++) bytes_of(&before, k)[at] ^= 0xff;
}

static uint64_t bit_of(const struct operand *it)
{
    bool is_known = it->kind == REGISTER && (bits_of(it) || it->class == XMM || it->class == MM);
    return is_known ? BIT(it->number + (bits_of(it) ? 0 : it->class == XMM ? 16 : 32)) : 0;
}

static struct effect effect_of(const struct line *line)
{
    struct effect effect = {0};
    for (unsigned k = 0; k < sizeof effects / sizeof *effects; k++)
        if (is_named(line, effects[k].names) && (strcmp(line->name, "IMUL") || line->count == 1)) effect = effects[k];
    for (int k = 0; k < line->count; k++) effect.reads |= bit_of(&line->operands[k]);
    if (is_named(line, "XADD XCHG ")) effect.writes |= bit_of(&line->operands[1]);
    return effect;
}

/* The destination alone is changed, within its width; a write of 32 bits clears the upper half. */
static uint64_t check_changes(const struct test *it, const struct effect *effect)
{
    const struct operand *to = it->line.operands;
    uint64_t changed = unlike(&before, &after), other = changed & ~(effect->writes | bit_of(to)), bits = before.gpr[to->number & 15] ^ after.gpr[to->number & 15];
    if (other) tally("registers DIFFERS: %s changes another %s register | %s", it->line.name, other < BIT(16) ? "general" : other < BIT(32) ? "xmm" : "mm", row_of(&it->code));
    else tally(changed ? "registers agrees: those that are named" : "registers agrees: none is changed");
    if (!bits_of(to) || !(changed & ~effect->writes & bit_of(to))) return changed;
    bool is_beyond = to->class == GP8 ? bits >> 8 : to->class == GP8_HIGH ? bits & ~0xff00ull : to->class == GP16 ? bits >> 16 : to->class == GP32 && after.gpr[to->number] >> 32;
    if (is_beyond) tally("width DIFFERS: %s isn't of %d bits | %s", it->line.name, bits_of(to), row_of(&it->code));
    else tally("width agrees");
    return changed;
}

/* Whether the results change with some registers, in one set or in any. */
static bool depends(const struct test *it, uint64_t on, uint64_t results, int sets)
{
    for (int set = 0; set < sets; set++) {
        fill_registers(set);
        if (run(it->bytes, it->line.length).trap != TRAP_DB) continue;
        struct registers result = after;
        complement(on);
        bool has_run = run(it->bytes, it->line.length).trap == TRAP_DB;
        if (has_run && (((after.flags ^ result.flags) & 0x8d5) || (unlike(&after, &result) & results))) return true;
    }
    return false;
}

/* Each operand but the first matters, and what isn't named doesn't. */
static void check_sources(const struct test *it, const struct effect *effect, uint64_t changed)
{
    uint64_t named = effect->reads | BIT(RSP), first = bit_of(it->line.operands);
    if (effect->reads & ANY) return;
    if (depends(it, EACH & ~named, changed & (named | effect->writes), 1)) tally("sources DIFFERS: %s depends on another register | %s", it->line.name, row_of(&it->code));
    else tally("sources agrees: none is needed but those that are named");
    for (int k = 1; k < it->line.count && strcmp(it->line.name, "NOP"); k++) {
        uint64_t bit = bit_of(&it->line.operands[k]);
        if (bit && bit != first) tally("matters %s %d %s", depends(it, bit, changed & ~bit, SETS) ? "yes" : "no", k, it->line.name);
    }
}

void check_registers(const struct test *it)
{
    const struct code *code = &it->code;
    bool is_x87 = code->map == 0 && code->opcode >= 0xd8 && code->opcode <= 0xdf && strcmp(it->line.name, "FNSTSW"), has_run = false;
    struct outcome of = {0};
    uint64_t changed = 0;
    if (!it->line.length || may_fetch(code, false).most < it->line.length) { tally("registers undecided: refused, or not fetched whole"); return; }
    has_vectors = true;
    if (is_x87) { check_x87(it); return; }
    struct effect effect = effect_of(&it->line);
    for (int set = 0; set < SETS; set++) {
        fill_registers(set);
        of = run(it->bytes, it->line.length);
        set_example(it->bytes, it->line.length, it->text, &of);
        if (of.trap != TRAP_DB) continue;
        has_run = true;
        check_meaning(it, of);
        if (has_modrm(code->map, code->opcode)) changed |= check_changes(it, &effect);
    }
    if (!has_run) tally("registers undecided: %s", trap_name(of.trap));
    else if (has_modrm(code->map, code->opcode)) check_sources(it, &effect, changed);
}
