/* mSIZE: the least distance from the beginning of an access to the end of a page at which nothing faults. The page after it isn't mapped. */
#include "processor.h"
#include <string.h>

/* Distances above 64 that areas of state have. */
static const int distances[] = {80, 94, 96, 108, 112, 128, 256, 384, 512, 528, 544, 576, 640, 832, 1024, 2048, 2560, 2696, 3072, 4096};
enum { NEAR = 67, DISTANCES = NEAR + sizeof distances / sizeof *distances };     /* 0 to 66, and those */
enum place { OPERAND, STACK_READ, STACK_WRITTEN };
enum result { NEVER = -1, ABSENT = -2, ELSEWHERE = -3 };

/* Sets the registers so that an access at rbx, rsi, rdi or an absolute address ends `distance` bytes after its beginning, or one of the stack. */
static void place_at(uint8_t *bytes, const struct code *code, int distance, enum place place)
{
    uint64_t at = DATA + 4096 - (uint64_t)distance, middle = DATA + 2048;
    memset(&before, 0, sizeof before);
    before.gpr[RCX] = 1;
    before.gpr[RSP] = before.gpr[RBP] = place == STACK_READ ? at : place == STACK_WRITTEN ? DATA + (uint64_t)distance : middle;
    before.gpr[RBX] = before.gpr[RSI] = before.gpr[RDI] = place == OPERAND ? at : middle;
    if (code->map == 0 && code->opcode >= 0xa0 && code->opcode <= 0xa3) memcpy(bytes + (int)code->front, &at, code->p67 ? 4 : 8);
}

static bool is_beside(uint64_t address, enum place place)
{
    return place == STACK_WRITTEN ? address >= DATA - 4096 && address < DATA : address >= DATA + 4096 && address < DATA + 8192;
}

/* The least distance without a fault, 0 where nothing is accessed, or a result. #GP may be of the alignment. */
static int access_size(const struct test *it, enum place place)
{
    uint8_t bytes[STRIDE];
    struct outcome of = {0};
    int result = NEVER;
    bool is_reached = false;
    memset((void *)DATA, 0, 4096);
    memcpy(bytes, it->bytes, STRIDE);
    for (int k = 0; k < DISTANCES && result == NEVER && (k < NEAR || is_reached); k++) {
        int distance = k < NEAR ? k : distances[k - NEAR];
        place_at(bytes, &it->code, distance, place);
        of = run(bytes, it->line.length);
        if (of.trap == TRAP_UD) result = ABSENT;
        else if (of.trap == TRAP_PF) result = (is_reached = is_beside(of.cr2, place)) ? NEVER : ELSEWHERE;
        else if (of.trap != TRAP_GP && of.trap != TRAP_SS) result = distance;
    }
    set_example(it->bytes, it->line.length, it->text, &of);
    return result;
}

static void check_access(const struct test *it, enum place place)
{
    const struct line *line = &it->line;
    const char *what = place == OPERAND ? "" : "the stack of ";
    int size = access_size(it, place);
    if (size == ABSENT || size == NEVER) tally("size undecided: %s", size == ABSENT ? "not here, #UD" : "#GP");
    else if (size == ELSEWHERE) tally("size DIFFERS: %s%s faults elsewhere", what, line->name);
    else if (line->size < 0) tally("size agrees: m?, %s is %d%s", line->name, size, it->code.p66 ? " with 66" : "");
    else if (size == line->size) tally(place == OPERAND ? "size agrees" : "size agrees: the stack");
    else tally("size DIFFERS: %s%s m%d, the processor %d | %s", what, line->name, line->size, size, row_of(&it->code));
}

void check_size(const struct test *it)
{
    const struct line *line = &it->line;
    const struct operand *memory = memory_of(line);
    bool is_read = is_named(line, "POP POPF RETURN LEAVE ");
    if (!line->length) return;
    if (may_fetch(&it->code, true).most < line->length) { tally("size undecided: not fetched whole"); return; }
    if (is_named(line, "SGDT SIDT SLDT STR SMSW ")) { tally("size undecided: the kernel may answer"); return; }
    if (memory && is_named(line, "BT BTS BTR BTC ") && line->operands[1].number > RDX) return;      /* a bit string needs a small register */
    if (memory) check_access(it, OPERAND);
    if (is_read || is_named(line, "PUSH PUSHF CALL ENTER ")) check_access(it, is_read ? STACK_READ : STACK_WRITTEN);
}
