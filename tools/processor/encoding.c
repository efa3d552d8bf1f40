/* What an encoding is made of, as far as it must be known here: Intel SDM volume 2, section 2.1 and the opcode maps of appendix A. */
#include "processor.h"
#include <stdio.h>
#include <string.h>

bool has_modrm(int map, int opcode)
{
    /* A bit for each opcode byte of a row of 16: of the one-byte map, and of 0F. */
    static const uint16_t with[2][16] = {
        {0x0f0f, 0x0f0f, 0x0f0f, 0x0f0f, 0, 0, 0x0a0c, 0, 0xffff, 0, 0, 0, 0x00f3, 0xff0f, 0, 0xc0c0},
        {0xa40f, 0xffff, 0xffff, 0, 0xffff, 0xffff, 0xffff, 0xff7f, 0, 0xffff, 0xf8f8, 0xffff, 0x00ff, 0xffff, 0xffff, 0xffff}};
    return map > 1 || (with[map][opcode >> 4] >> (opcode & 15) & 1);
}

const char *row_of(const struct code *code)
{
    static const char *const maps[] = {"", "0f ", "0f38 ", "0f3a "};
    static char name[64];
    const char *repeat = code->repeat == 0xf2 ? "f2 " : code->repeat ? "f3 " : "";
    int at = snprintf(name, sizeof name, "%s%s%02x", repeat, maps[code->map], code->opcode);
    if (has_modrm(code->map, code->opcode)) at += snprintf(name + at, sizeof name - (size_t)at, " /%d %s", code->modrm >> 3 & 7, code->modrm >= 0xc0 ? "reg" : "mem");
    snprintf(name + at, sizeof name - (size_t)at, "%s%s%s%s", code->p66 ? " with 66" : "", code->rex & 8 ? " with W" : "", code->rex & 4 ? " with R" : "",
        code->rex & 1 ? " with B" : "");
    return name;
}

/* What isn't fetched whole: opcode bytes of a map, reg fields as bits (0: any), the form (`m`, `r`, 0: any), whether only where memory is mapped, and
 * whether the opcode byte may be fetched, and ModRM not. */
static const struct caution {
    int map;
    const char *opcodes;
    unsigned regs;
    char form;
    bool with_data, has_opcode;
    const char *why;
} cautions[] = {
    {0, "\xcc\xf1", 0, 0, false, false, "a trap of debuggers"},
    {0, "\xcd", 0, 0, false, true, "it enters the kernel"},
    {1, "\x05\x34", 0, 0, false, false, "it enters the kernel"},
    {1, "\x07\x35", 0, 0, false, false, "it leaves the kernel"},
    {0, "\x62\xc4\xc5", 0, 0, false, false, "VEX and EVEX"},
    {0, "\x8e", 0, 0, false, true, "it loads a segment register"},
    {1, "\xa1\xa9", 0, 0, false, false, "it loads a segment register"},
    {1, "\xb2\xb4\xb5", 0, 0, false, true, "it loads a segment register"},
    {1, "\x37\xaa", 0, 0, false, false, "SMX, or system management"},
    {1, "\xc7", 0xc0, 'm', false, true, "VMX"},
    {1, "\x78\x79", 0, 0, false, true, "VMX"},
    {2, "\x80\x81", 0, 0, false, true, "VMX"},
    {1, "\x01", 0xaf, 'r', false, true, "a call of a hypervisor, or a system register"},
    {1, "\x01", 0x0c, 'm', true, true, "a system register"},
    {0, "\xca\xcb\xcf", 0, 0, true, false, "a far branch"},
    {0, "\xff", 0x28, 0, true, true, "a far branch"},
    {0, "\xd9", 0x30, 'm', true, true, "it loads a state"},
    {0, "\xdd", 0x10, 'm', true, true, "it loads a state"},
    {1, "\xae", 0x22, 'm', true, true, "it loads a state"},
    {1, "\xc7", 0xfd, 'm', true, true, "it loads a state"},
};

/* Of these rows what is no danger: EXTRQ and INSERTQ; XGETBV, XEND, XTEST, RDPKRU, SWAPGS and RDTSCP. */
static bool is_harmless(const struct code *code)
{
    if (code->map != 1) return false;
    if (code->opcode == 0x78 || code->opcode == 0x79) return code->p66 || code->repeat == 0xf2;
    return code->opcode == 0x01 && !code->repeat && code->modrm && strchr("\xd0\xd5\xd6\xee\xf8\xf9", code->modrm);
}

/* The one decision of what is fetched whole. */
struct limit may_fetch(const struct code *code, bool has_data)
{
    unsigned reg = 1u << (code->modrm >> 3 & 7);
    for (unsigned k = 0; k < sizeof cautions / sizeof *cautions && code->front < 15; k++) {
        const struct caution *at = &cautions[k];
        bool is_there = at->map == code->map && code->opcode && strchr(at->opcodes, code->opcode) && (has_data || !at->with_data);
        if (!is_there || (at->regs && !(at->regs & reg)) || (at->form && (at->form == 'm') != (code->modrm < 0xc0)) || is_harmless(code)) continue;
        return (struct limit){(int)code->front - 1 + at->has_opcode, at->why};
    }
    return (struct limit){15, NULL};
}
