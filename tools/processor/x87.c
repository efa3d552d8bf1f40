/* The stack of x87 after a register form, by the name and the operands of the line. */
#include "processor.h"
#include <string.h>

/* What names do with their operands x and y: an arithmetic sign, `x` to exchange, `=` to load y, `?` to compare into the flags, `~` to change the sign,
 * `|` to clear it, `.` for nothing; and how many registers they pop. All flags are clear, so FCMOVNB and its kind move, and FCMOVB doesn't. */
static const struct operation {
    const char *names;
    char sign;
    int pops;
} operations[] = {
    {"FADD ", '+', 0}, {"FADDP ", '+', 1}, {"FMUL ", '*', 0}, {"FMULP ", '*', 1}, {"FSUB ", '-', 0}, {"FSUBP ", '-', 1}, {"FSUBR ", 'r', 0}, {"FSUBRP ", 'r', 1},
    {"FDIV ", '/', 0}, {"FDIVP ", '/', 1}, {"FDIVR ", 'd', 0}, {"FDIVRP ", 'd', 1}, {"FXCH ", 'x', 0}, {"FST FCMOVNB FCMOVNE FCMOVNBE FCMOVNU ", '=', 0},
    {"FSTP FSTPNCE ", '=', 1}, {"FCOM FUCOM FNOP FFREE FCMOVB FCMOVE FCMOVBE FCMOVU ", '.', 0}, {"FCOMP FUCOMP ", '.', 1}, {"FCOMPP FUCOMPP ", '.', 2},
    {"FCOMI FUCOMI ", '?', 0}, {"FCOMIP FUCOMIP ", '?', 1}, {"FCHS ", '~', 0}, {"FABS ", '|', 0}};

static void operate(char sign, long double *x, long double *y)
{
    long double a = *x, b = *y;
    *x = sign == '+' ? a + b : sign == '*' ? a * b : sign == '-' ? a - b : sign == 'r' ? b - a : sign == '/' ? a / b : sign == 'd' ? b / a
        : sign == '=' || sign == 'x' ? b : sign == '~' ? -a : sign == '|' && a < 0 ? -a : a;
    if (sign == 'x') *y = a;
}

void check_x87(const struct test *it)
{
    static const long double values[8] = {1.5L, -2.25L, 3.0L, 0.75L, -5.0L, 6.5L, 7.0L, -0.125L};
    const struct operation *by = NULL;
    long double expected[10] = {0}, found = 0;
    int x = it->line.count ? it->line.operands[0].number : 0, y = it->line.count > 1 ? it->line.operands[1].number : 0;
    for (unsigned k = 0; k < sizeof operations / sizeof *operations; k++)
        if (is_named(&it->line, operations[k].names)) by = &operations[k];
    if (!by || it->code.modrm < 0xc0 || it->code.run > 0) { tally("x87 undecided: not known here"); return; }
    memset(&before, 0, sizeof before);
    for (int k = 0; k < 8; k++) memcpy(before.mm[k], &values[k], 10);
    is_x87_full = true;
    struct outcome of = run(it->bytes, it->line.length);
    is_x87_full = false;
    set_example(it->bytes, it->line.length, it->text, &of);
    memcpy(expected, values, sizeof values);
    operate(by->sign, &expected[x], &expected[y]);
    bool is_same = by->sign != '?' || (after.flags & 0x45) == (values[x] < values[y] ? 1u : values[x] == values[y] ? 0x40u : 0u);
    for (int k = 0; k + by->pops < 8; k++) {
        memcpy(&found, after.mm[k], 10);
        is_same &= found == expected[k + by->pops];
    }
    if (of.trap != TRAP_DB) tally("x87 undecided: %s", trap_name(of.trap));
    else if (is_same) tally("x87 agrees");
    else tally("x87 DIFFERS: %s | %s", it->line.name, row_of(&it->code));
}
