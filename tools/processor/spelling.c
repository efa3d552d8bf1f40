/* What the libraries say of an address. A line is one of `x86 fields`, one of `x86 tighten` and one of examples/addresses with tabs between: the parts of
 * an encoding, how short it could be, and its addresses by `Operand::address` with the bytes of the shortest spelling. */
#include "processor.h"
#include <stdio.h>
#include <stdlib.h>
#include <string.h>

enum { ESCAPE = 1, OPCODE, MODRM, SIB, DISPLACEMENT, IMMEDIATE_PART, PARTS = 8 };     /* the columns of `fields` */

static int read_hex(const char *text, uint8_t *bytes)
{
    int count = 0;
    for (unsigned byte; count < 15 && sscanf(text + 2 * count, "%2x", &byte) == 1; count++) bytes[count] = (uint8_t)byte;
    return count;
}

/* The lengths of the parts, whose bytes together must be those of the encoding. */
static bool read_parts(const struct test *it, int length, int lengths[PARTS])
{
    char text[512], *part;
    uint8_t bytes[30];
    int total = 0;
    snprintf(text, sizeof text, "%.*s", (int)strcspn(it->text, "\t"), it->text);
    strtok(text, " ");
    strtok(NULL, " ");
    for (int k = 0; k < PARTS; k++) {
        if ((part = strtok(NULL, " ")) == NULL || total > 15) return false;
        total += lengths[k] = *part == '-' ? 0 : read_hex(part, bytes + total);
    }
    return total == length && lengths[OPCODE] == 1 && lengths[MODRM] == 1 && lengths[SIB] <= 1 && !memcmp(bytes, it->bytes, (size_t)total);
}

/* A bit of a byte of the displacement moves the address by its place, and one of the immediate leaves it. */
static void check_parts(const struct test *it, const int lengths[PARTS], int length, uint64_t address)
{
    uint8_t bytes[15];
    int at = 0;
    for (int k = 0; k < DISPLACEMENT; k++) at += lengths[k];
    for (int k = 0; k < lengths[DISPLACEMENT] + lengths[IMMEDIATE_PART]; k++) {
        memcpy(bytes, it->bytes, (size_t)length);
        bytes[at + k] ^= 1;
        struct outcome of = run(bytes, length);
        int64_t moved = (int64_t)(of.cr2 - address), wanted = k < lengths[DISPLACEMENT] ? 1ll << 8 * k : 0;
        if (it->code.p67) moved = (int32_t)moved, wanted = (int32_t)wanted;
        bool is_so = of.trap == TRAP_PF && !(of.err & 16) && (moved == wanted || moved == -wanted);
        tally("fields %s: a byte of %s", is_so ? "agrees" : "DIFFERS", wanted ? "a displacement" : "an immediate");
    }
}

/* The shortest spelling has as many bytes as `tighten` says, the processor wants no other number, and it has the same address. */
static void check_shortest(const char *text, const char *printed, int length, uint64_t address)
{
    const char *equals = strchr(printed, '=');
    uint8_t bytes[30];
    struct outcome of;
    int count = equals ? read_hex(equals + 1, memset(bytes, 0x90, sizeof bytes)) : length, least = atoi(strchr(strchr(text, ' ') + 1, ' '));
    if (count != least || least > length) tally("tighten DIFFERS: %d bytes, the spelling has %d", least, count);
    else if (!equals) tally("tighten agrees: there is no other spelling");
    else if (least_bytes(bytes, 1, &of) != least) tally("tighten DIFFERS: another length");
    else if (of.trap != TRAP_PF || of.cr2 != address) tally("tighten DIFFERS: another address");
    else tally("tighten agrees: %s", least < length ? "shorter" : "none is shorter");
}

void check_spelling(const struct test *it)
{
    int lengths[PARTS], length = atoi(it->text + strcspn(it->text, " "));
    const char *least = strchr(it->text, '\t'), *printed = least ? strchr(least + 1, '\t') : NULL, *at = printed ? strchr(printed, '@') : NULL;
    set_registers();
    if (!at || length < 1 || length > 15 || !read_parts(it, length, lengths)) { tally("fields DIFFERS: the parts aren't the encoding"); return; }
    struct outcome of = run(it->bytes, length);
    set_example(it->bytes, length, it->text, &of);
    if (of.trap != TRAP_PF || wants_more(of, length)) { tally("fields DIFFERS: no page fault"); return; }
    tally("Operand::address %s", strtoull(at + 1, NULL, 16) == of.cr2 ? "agrees" : "DIFFERS");
    check_parts(it, lengths, length, of.cr2);
    check_shortest(least, printed, length, of.cr2);
}
