/* Where a page fault is, against the memory operands of the line and what names access without an operand; whether it is of a write, by the place of
 * the operand; and where the processor continues. */
#include "processor.h"

/* Memory that no operand names: offsets from a register. */
static const struct implied {
    const char *names;
    int reg, from, to;
} implied[] = {
    {"PUSH PUSHF CALL CALLF ENTER ", RSP, -8, -1},
    {"POP POPF RETURN RETF IRET IRETD IRETQ ", RSP, 0, 16},
    {"LEAVE ", RBP, 0, 7},
    {"MASKMOVQ MASKMOVDQU ", RDI, 0, 15},
    {"XLAT ", RBX, 0, 0},
};

/* Names that read their first operand before they write it, or don't write it. */
#define READ_FIRST "BT CMP TEST CMPS MOVS SCAS CALL CALLF JMP JMPF CLFLUSH CLFLUSHOPT CLWB DIV IDIV MUL IMUL FLDCW FLDENV FRSTOR FXRSTOR LDMXCSR PUSH POP " \
    "VERR VERW XRSTOR XRSTOR64 NOP OUTS PTWRITE "

static bool is_implied(const struct test *it, uint64_t address)
{
    for (unsigned k = 0; k < sizeof implied / sizeof *implied; k++) {
        const struct implied *at = &implied[k];
        uint64_t base = before.gpr[at->reg] + (at->reg == RBX ? (uint8_t)before.gpr[RAX] : 0);
        if (it->code.p67 && (at->reg == RDI || at->reg == RBX)) base = (uint32_t)base;
        int64_t off = (int64_t)(address - base);
        if (is_named(&it->line, at->names) && off >= at->from && off <= at->to) return true;
    }
    return false;
}

/* BT and its kind with a register go on from the address by that many bits, in units of their width. */
static bool is_bit_string(const struct test *it, int64_t off)
{
    const struct operand *index = &it->line.operands[1];
    int bits = bits_of(index);
    if (it->line.count != 2 || !bits || !is_named(&it->line, "BT BTS BTR BTC ")) return false;
    int64_t value = (int64_t)(before.gpr[index->number] << (64 - bits)) >> (64 - bits), there = (value >> __builtin_ctz((unsigned)bits)) * (bits / 8);
    return it->code.p67 ? (uint32_t)off == (uint32_t)there : off == there;
}

static void check_address(const struct test *it, const struct operand *memory, uint64_t address)
{
    for (; memory < it->line.operands + it->line.count; memory++) {
        int64_t off = (int64_t)(address - address_of(memory, it->code.p67));
        bool is_inside = it->line.size < 0 && off > 0 && off < 4096, is_string = off != 0 && is_bit_string(it, off);
        if (memory->kind != MEMORY || (off != 0 && !is_inside && !is_string)) continue;
        tally(is_string ? "address agrees: a bit string" : is_inside ? "address agrees: inside m?" : "address agrees");
        return;
    }
    if (is_named(&it->line, "PUSH POP CALL CALLF ") && is_implied(it, address)) tally("address agrees: the stack is first");
    else tally("address DIFFERS: %s%s%s", it->line.name, it->code.p67 ? " with 67" : "", it->code.segment ? " with a segment" : "");
}

void check_fault(const struct test *it, struct outcome of)
{
    const struct operand *memory = memory_of(&it->line);
    bool is_written = of.err & 2, is_first = memory == it->line.operands;
    if (of.err & 16) { check_target(it, of); return; }
    if (!memory) { tally("implied %s: %s", is_implied(it, of.cr2) ? "agrees" : "DIFFERS", it->line.name); return; }
    if (is_written == is_first || (is_first && is_named(&it->line, READ_FIRST))) tally("direction agrees");
    else tally("direction DIFFERS: %s is %s", it->line.name, is_written ? "written" : "read");
    check_address(it, memory, of.cr2);
}

/* A fault of fetching, or #UD elsewhere, says that the processor arrived without a trap: XBEGIN, or the kernel answered in its place (UMIP). */
void check_target(const struct test *it, struct outcome of)
{
    const struct operand *to = &it->line.operands[0];
    bool is_branch = it->line.name[0] == 'J' || is_named(&it->line, "LOOP LOOPZ LOOPNZ XBEGIN ");
    if (of.rip == CODE_END && is_named(&it->line, "SGDT SIDT SLDT STR SMSW ")) tally("outcome undecided: the kernel answers for %s", it->line.name);
    else if (of.rip == CODE_END) tally(is_branch ? "target agrees: not taken" : "outcome agrees: the next instruction");
    else if (is_branch && to->kind == IMMEDIATE && of.rip == CODE_END + (uint64_t)to->value) tally("target agrees: the immediate");
    else if (is_branch && to->kind == REGISTER && of.rip == before.gpr[to->number]) tally("target agrees: the register");
    else tally("target DIFFERS: %s", it->line.name);
}
