/* What an instruction leaves behind, by the words of its line alone: its name, its operands with their classes, its immediates. It knows the integer
 * instructions whose meaning is short (Intel SDM volume 2). Where registers, flags and place after a run are as here, then the name, the order and the
 * widths of the operands and the value of the immediate are what the processor has. */
#include "processor.h"
#include <string.h>

enum { CF = 1, PF = 4, AF = 0x10, ZF = 0x40, SF = 0x80, OF = 0x800, STATUS = CF | PF | AF | ZF | SF | OF };

/* The line, what is expected, and which flags are known. */
static const struct line *line;
static const struct operand *a, *b, *c;
static struct registers to;
static uint64_t decided, rip, x, y;     /* x and y: the first operand, and the second cut to its width */
static int bits;
static bool has_67;

static uint64_t cut(uint64_t value, int width) { return width == 64 ? value : value & ((1ull << width) - 1); }
static int64_t extend(uint64_t value, int width) { return (int64_t)(value << (64 - width)) >> (64 - width); }
static bool is(const char *name) { return !strcmp(line->name, name); }

static uint64_t get(const struct operand *it)
{
    if (it->kind == IMMEDIATE) return (uint64_t)it->value;
    return it->class == GP8_HIGH ? before.gpr[it->number] >> 8 & 0xff : cut(before.gpr[it->number], bits_of(it));
}

static bool set(enum register_class class, int number, uint64_t value)
{
    uint64_t *reg = &to.gpr[number];
    switch (class) {
    case GP8: *reg = (*reg & ~0xffull) | (value & 0xff); break;
    case GP8_HIGH: *reg = (*reg & ~0xff00ull) | (value & 0xff) << 8; break;
    case GP16: *reg = (*reg & ~0xffffull) | (value & 0xffff); break;
    case GP32: *reg = (uint32_t)value; break;
    default: *reg = value;
    }
    return true;
}

static bool put(const struct operand *it, uint64_t value) { return set(it->class, it->number, value); }

static bool set_flags(uint64_t flags, uint64_t known)
{
    to.flags = flags;
    return (decided = known) != 0;
}

/* Whether the condition that ends a name holds, or -1. */
static int condition(const char *word)
{
    static const char *const words[] = {"O", "B", "Z", "A", "S", "P", "L", "G", "NO", "NB", "NZ", "NA", "NS", "NP", "GE", "LE", "AE", "BE"};
    uint64_t f = before.flags;
    bool cf = f & CF, zf = f & ZF, sf = f & SF, of = f & OF, pf = f & PF;
    const bool values[] = {of, cf, zf, !cf && !zf, sf, pf, sf != of, !zf && sf == of, !of, !cf, !zf, cf || zf, !sf, !pf, sf == of, zf || sf != of, !cf, cf || zf};
    for (unsigned k = 0; k < sizeof words / sizeof *words; k++)
        if (!strcmp(word, words[k])) return values[k];
    return -1;
}

static uint64_t result_flags(uint64_t value)
{
    return (cut(value, bits) ? 0 : ZF) | (value >> (bits - 1) & 1 ? SF : 0) | (__builtin_parity((unsigned)value & 0xff) ? 0 : PF);
}

static bool without_operands(void)
{
    uint64_t rax = before.gpr[RAX], flags = before.flags & STATUS;
    if (is("CLC") || is("STC") || is("CMC")) return set_flags(is("CLC") ? flags & ~(uint64_t)CF : is("STC") ? flags | CF : flags ^ CF, STATUS);
    if (is("SAHF")) return set_flags((flags & OF) | (rax >> 8 & (STATUS & 0xff)), STATUS);
    if (is("LAHF")) return set(GP16, RAX, (rax & 0xff) | (flags & 0xd5) << 8 | 0x200);
    if (is("CBW")) return set(GP16, RAX, (uint64_t)extend(rax, 8));
    if (is("CWDE")) return set(GP32, RAX, (uint64_t)extend(rax, 16));
    if (is("CDQE")) return set(GP64, RAX, (uint64_t)extend(rax, 32));
    if (is("CWD")) return set(GP16, RDX, (uint64_t)(extend(rax, 16) >> 16));
    if (is("CDQ")) return set(GP32, RDX, (uint64_t)(extend(rax, 32) >> 32));
    return is("NOP") || (is("CQO") && set(GP64, RDX, (uint64_t)((int64_t)rax >> 63)));
}

static bool branches(void)
{
    uint64_t rcx = before.gpr[RCX], there = a->kind == IMMEDIATE ? CODE_END + (uint64_t)a->value : get(a);
    int holds = is("JMP") ? 1 : line->name[0] == 'J' ? condition(line->name + 1) : -1;
    if (line->count != 1) return false;
    if (is("JRCXZ") || is("JECXZ")) holds = !(line->name[1] == 'R' ? rcx : (uint32_t)rcx);
    if (is_named(line, "LOOP LOOPZ LOOPNZ ")) {
        to.gpr[RCX] = rcx = has_67 ? (uint32_t)(rcx - 1) : rcx - 1;
        holds = rcx && (!line->name[4] || (line->name[4] == 'Z') == !!(before.flags & ZF));
    }
    if (holds == 1) rip = there;
    return holds >= 0;
}

static bool moves(void)
{
    bool is_set = !strncmp(line->name, "SET", 3), is_cmov = !strncmp(line->name, "CMOV", 4);
    int holds = is_set || is_cmov ? condition(line->name + 3 + is_cmov) : -1;
    if (holds >= 0) return is_set ? bits == 8 && put(a, (uint64_t)holds) : put(a, holds ? get(b) : x);
    if (is("NOT")) return put(a, ~x);
    if (is("BSWAP")) return bits >= 32 && put(a, bits == 64 ? __builtin_bswap64(x) : __builtin_bswap32((uint32_t)x));
    if (line->count != 2) return false;
    if (is("MOV") || is("MOVZX")) return put(a, get(b));
    if (is("MOVSX") || is("MOVSXD")) return bits_of(b) && put(a, (uint64_t)extend(get(b), bits_of(b)));
    return is("XCHG") && bits_of(b) == bits && put(b, x) && put(a, get(b));
}

static bool sums(void)
{
    bool is_less = is_named(line, "SUB CMP SBB DEC NEG "), is_step = is("INC") || is("DEC"), carry = is_named(line, "ADC SBB ") && before.flags & CF;
    uint64_t p = is("NEG") ? 0 : x, q = is_step ? 1 : is("NEG") ? x : y;
    if (line->count != 2 - (is_step || is("NEG")) || (!is_less && !is_named(line, "ADD ADC INC XADD "))) return false;
    uint64_t r = cut(is_less ? p - q - carry : p + q + carry, bits), over = (is_less ? p ^ q : ~(p ^ q)) & (p ^ r);
    bool is_carried = is_less ? p < q || (p == q && carry) : r < p || (r == p && carry);
    if (is("XADD")) put(b, x);
    if (!is("CMP")) put(a, r);
    return set_flags(result_flags(r) | (over >> (bits - 1) & 1 ? OF : 0) | (is_step ? before.flags & CF : is_carried) | ((p ^ q ^ r) & AF), STATUS);
}

static bool products(void)
{
    uint64_t r = is("OR") ? x | y : is("XOR") ? x ^ y : x & y;
    if (line->count == 2 && is_named(line, "AND TEST OR XOR ")) return (is("TEST") || put(a, r)) && set_flags(result_flags(r), STATUS & ~AF);
    if (!is("IMUL") || line->count < 2) return false;
    __int128 all = (__int128)extend(line->count == 3 ? get(b) : x, bits) * extend(line->count == 3 ? get(c) : y, bits);
    return put(a, (uint64_t)all) && set_flags(all == extend((uint64_t)all, bits) ? 0 : CF | OF, CF | OF);
}

static bool shifts(void)
{
    bool is_double = is("SHLD") || is("SHRD"), is_left = is_named(line, "SHL SAL SHLD ROL ");
    uint64_t r = x, in = y;
    if (line->count != 2 + is_double || !is_named(line, "SHL SAL SHR SAR ROL ROR SHLD SHRD ")) return false;
    int count = (int)(get(is_double ? c : b) & (bits == 64 ? 63 : 31));
    if (is_double && count > bits) return false;
    for (decided = 0; count; count--) {     /* the bit that comes in: of the other operand, the one that goes out, the sign, or 0 */
        uint64_t bit = is_double ? (is_left ? in >> (bits - 1) : in) & 1 : is("ROL") ? r >> (bits - 1) : is("ROR") ? r & 1 : is("SAR") ? r >> (bits - 1) : 0;
        r = is_left ? cut(r << 1 | bit, bits) : r >> 1 | bit << (bits - 1);
        in = is_left ? cut(in << 1, bits) : in >> 1;
    }
    return put(a, r);
}

static bool single_bits(void)
{
    bool is_scan = is("BSF") || is("BSR");
    if (line->count != 2) return false;
    uint64_t bit = 1ull << (get(b) & (uint64_t)(bits - 1));
    char kind = line->name[2];
    if (is_named(line, "BT BTS BTR BTC ")) return (!kind || put(a, kind == 'S' ? x | bit : kind == 'R' ? x & ~bit : x ^ bit)) && set_flags(x & bit ? CF : 0, CF);
    if ((is_scan && !y) || !is_named(line, "TZCNT LZCNT POPCNT BSF BSR ")) return false;
    int first = y ? __builtin_ctzll(y) : bits, last = y ? 63 - __builtin_clzll(y) : -1;
    decided = 0;
    return put(a, (uint64_t)(is("POPCNT") ? __builtin_popcountll(y) : is("BSR") ? last : is("LZCNT") ? bits - 1 - last : first));
}

/* Works out what is left behind. False where the name isn't known here. */
static bool work_out(void)
{
    if (is("LEA")) return line->count == 2 && bits && put(a, address_of(b, has_67));
    for (int k = 0; k < line->count; k++)
        if (line->operands[k].kind == MEMORY || (line->operands[k].kind == REGISTER && !bits_of(&line->operands[k]))) return false;
    if (without_operands() || branches()) return true;
    if (!bits) return false;
    x = get(a);
    y = line->count > 1 ? cut(get(b), bits) : 0;
    return moves() || sums() || products() || shifts() || single_bits();
}

void check_meaning(const struct test *it, struct outcome of)
{
    line = &it->line;
    a = line->operands, b = a + 1, c = a + 2;
    to = before, decided = STATUS, rip = CODE_END;
    bits = bits_of(a), has_67 = it->code.p67;
    if (of.trap != TRAP_DB || !work_out()) return;
    const char *what = of.rip != rip ? "place" : memcmp(to.gpr, after.gpr, sizeof after.gpr) ? "registers" : (to.flags ^ after.flags) & decided ? "flags" : NULL;
    if (what) tally("meaning DIFFERS: %s of %s | %s", what, line->name, row_of(&it->code));
    else tally("meaning agrees");
}
