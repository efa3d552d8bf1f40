/* How long an encoding is, and whether there is one: the processor wants the line's bytes and no more, and raises #UD where the line is a refusal. */
#include "processor.h"
#include <stdlib.h>
#include <string.h>

void set_registers(void)
{
    memset(&before, 0, sizeof before);
    for (int k = 0; k < 16; k++) before.gpr[k] = ((uint64_t)(k + 1) << 36) + (uint64_t)(k + 1) * 0x01a1c440;
}

/* 3DNow and SSE4a: a processor without them refuses their opcode bytes before it reads the rest. */
static bool is_amds(const struct code *code)
{
    return code->map == 1 && (code->opcode == 0x0f || (code->opcode == 0x78 && (code->p66 || code->repeat == 0xf2)));
}

/* The 16th byte is one too many: 15 bytes are too few, and 20 are #GP. */
static void check_too_long(const struct test *it)
{
    struct outcome of;
    bool is_open = least_bytes(it->bytes, 15, &of) == 16, is_unclear = of.trap == TRAP_GP && !has_twin(it->bytes);
    of = run(it->bytes, 20);
    set_example(it->bytes, 20, it->text, &of);
    if (is_open && of.trap == TRAP_GP) tally("refusal agrees: too long");
    else if (is_amds(&it->code) && of.trap == TRAP_UD) tally("refusal undecided: too long, 3DNow or SSE4a isn't here");
    else if (is_unclear && of.trap == TRAP_GP) tally("refusal undecided: too long, #GP at 15 bytes, and no prefix comes again");
    else tally("refusal DIFFERS: too long, %s", trap_name(of.trap));
}

/* Worked lines of bytes that end before the instruction does say after how many that is. */
static void check_refusal(const struct test *it)
{
    const char *error = it->line.error;
    struct limit limit = may_fetch(&it->code, false);
    struct outcome of;
    bool is_cut = !strncmp(error, ExhaustedInput " after ", sizeof ExhaustedInput " after " - 1);
    if (!strcmp(error, TooLong)) { check_too_long(it); return; }
    if (limit.most < 15 && !is_cut) { tally("refusal undecided: not fetched whole, %s", limit.why); return; }
    int count = is_cut ? atoi(error + sizeof ExhaustedInput " after " - 1) : least_bytes(it->bytes, (int)it->code.front, &of);
    if (is_cut) of = run(it->bytes, count);
    set_example(it->bytes, count, it->text, &of);
    if (is_cut) tally("refusal %s: exhausted input, %s", wants_more(of, count) ? "agrees" : of.trap == TRAP_UD ? "undecided" : "DIFFERS", trap_name(of.trap));
    else if (count == 16) tally("refusal undecided: %s, the processor wants a 16th byte", error);
    else if (of.trap == TRAP_UD) tally("refusal agrees: %s", error);
    else tally("refusal DIFFERS: %s, %s | %s%s", error, trap_name(of.trap), row_of(&it->code), it->code.lock ? " with LOCK" : "");
}

/* Whether the processor wants more than some of the line's bytes. */
static void check_part(const struct test *it, int count, const char *what)
{
    struct outcome of = run(it->bytes, count);
    set_example(it->bytes, count, it->text, &of);
    if (wants_more(of, count)) tally("length agrees: %s", what);
    else tally("length DIFFERS: %d of %d bytes end with %s | %s %s", count, it->line.length, trap_name(of.trap), it->line.name, row_of(&it->code));
}

static void check_outcome(const struct test *it, struct outcome of)
{
    if (of.trap == TRAP_PF) check_fault(it, of);
    else if (of.trap == TRAP_DB || of.trap == TRAP_UD) {
        check_meaning(it, of);
        check_target(it, of);
    } else tally("outcome undecided: %s", trap_name(of.trap));
}

void check_line(const struct test *it, bool with_all_cuts)
{
    int length = it->line.length, count = length;
    struct limit limit = may_fetch(&it->code, false);
    set_registers();
    if (!length) { check_refusal(it); return; }
    if (limit.most < length) {
        tally("name cut %s: %s", it->line.name, limit.why);
        if (limit.most > 0 && length > 1) check_part(it, limit.most < length - 1 ? limit.most : length - 1, "of what isn't fetched whole");
        return;
    }
    struct outcome of = run(it->bytes, length), cut;
    struct registers left = after;
    bool is_short = wants_more(of, length) || (length == 15 && of.trap == TRAP_GP), is_absent = of.trap == TRAP_UD && of.rip == CODE_END - (uint64_t)length;
    if (is_short) count = least_bytes(it->bytes, length, &of);
    is_short = count > length;
    while (!is_short && count > 1 && !wants_more(cut = run(it->bytes, count - 1), count - 1)) count--;
    for (int part = length - 2; with_all_cuts && count == length && part > 0; part--) check_part(it, part, "cut shorter");
    set_example(it->bytes, length, it->text, &of);
    tally("name %s %s", is_absent ? "absent" : "run", it->line.name);
    if (is_absent) tally("absent %s | %s", it->line.name, row_of(&it->code));
    if (is_amds(&it->code) && is_absent) tally("length undecided: 3DNow or SSE4a isn't here");
    else if (count != length) tally("length DIFFERS: the processor has %+d | %s %s", count - length, it->line.name, row_of(&it->code));
    else tally(is_absent ? "length agrees: not here, #UD" : "length agrees");
    after = left;
    if (!is_absent && count == length) check_outcome(it, of);
}
