/* The segment that `show` prints, against the one whose base the processor adds to the address of a page fault. */
#include "processor.h"
#include <string.h>

/* The segment that a line says of its memory: nothing else of the text is read. MASKMOVQ and MASKMOVDQU name no memory, so there it is the last word. */
static const char *said_segment(const char *text)
{
    bool is_word = strstr(text, "maskmov") != NULL;
    const char *fs = strstr(text, is_word ? "fs " : "fs:"), *gs = strstr(text, is_word ? "gs " : "gs:");
    return !fs && !gs ? "none" : !gs || (fs && fs > gs) ? "fs" : "gs";
}

/* Rows of which another access faults first, at the stack or at rdi, and those that the kernel may answer in place of the processor (UMIP). */
static const char *blind_spot(const struct code *code)
{
    int reg = code->modrm >> 3 & 7;
    bool is_kernels = code->map == 1 && (code->opcode == 0 ? reg <= 1 : code->opcode == 1 && (reg <= 1 || reg == 4));
    bool is_second = code->map == 0 && (code->opcode == 0x8f || code->opcode == 0xa6 || code->opcode == 0xa7);
    return may_fetch(code, false).most < 15 ? "not fetched whole" : is_second ? "another access is first" : is_kernels ? "the kernel may answer" : NULL;
}

void check_segment(const struct test *it)
{
    const char *blind = blind_spot(&it->code), *said = said_segment(it->text);
    struct outcome plain, of;
    if (blind) { tally("segment undecided: %s", blind); return; }
    set_registers();
    int count = least_bytes(it->bytes, (int)it->code.front, &plain);
    if (plain.trap != TRAP_PF || (plain.err & 16) || strstr(it->text, "(bad")) { tally("segment undecided: no page fault"); return; }
    fs_base = 0x100000000000;
    gs_base = 0x080000000000;
    of = run(it->bytes, count);
    uint64_t off = of.cr2 - plain.cr2;
    const char *seen = off == fs_base ? "fs" : off == gs_base ? "gs" : off == 0 ? "none" : "another";
    fs_base = gs_base = 0;
    set_example(it->bytes, count, it->text, &of);
    if (of.trap != TRAP_PF) tally("segment undecided: another fault with a base");
    else if (!strcmp(said, seen)) tally("segment agrees: %s", said);
    else tally("segment DIFFERS: %s, the processor has %s%s | %s", said, seen, strchr(it->text, '[') ? "" : ", no operand", row_of(&it->code));
}
