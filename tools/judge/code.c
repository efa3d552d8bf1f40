/* The head of an encoding. */
#include "code.h"
#include <string.h>

bool is_prefix(int byte)
{
    static const unsigned char legacy[] = {0x66, 0x67, 0xf0, 0xf2, 0xf3, 0x26, 0x2e, 0x36, 0x3e, 0x64, 0x65};
    return (byte & 0xf0) == 0x40 || memchr(legacy, byte, sizeof legacy) != NULL;
}

struct code code_of(const unsigned char *bytes, size_t left)
{
    struct code code = {.bytes = bytes, .left = left, .opcode = -1, .modrm = -1};
    size_t at = 0;
    for (; at < left && is_prefix(bytes[at]); at++) {
        int byte = bytes[at];
        code.rex = (byte & 0xf0) == 0x40 ? byte : 0;
        if (byte == 0x66) code.p66 = true;
        if (byte == 0x67) code.p67 = true;
        if (byte == 0xf0) code.lock = true;
        if (byte == 0xf2 || byte == 0xf3) code.repeat = byte;
        if (byte == 0x64 || byte == 0x65) code.segment = byte;
    }
    code.run = at;
    if (at < left && bytes[at] == 0x0f) {
        code.map = 1;
        at++;
        if (at < left && (bytes[at] == 0x38 || bytes[at] == 0x3a)) code.map = bytes[at++] == 0x38 ? 2 : 3;
    }
    if (at < left) code.opcode = bytes[at++];
    code.front = at;
    if (at < left) code.modrm = bytes[at];
    code.column = code.repeat == 0xf2 ? F2 : code.repeat == 0xf3 ? F3 : code.p66 ? P66 : PLAIN;
    return code;
}

bool has_w(const struct code *code)
{
    return code->rex & 8;
}

/* The class v in bytes. Where 66 chooses the operation in map 0F38, and at 0F AE, it doesn't choose a size. */
int v_bytes(const struct code *code)
{
    bool cleared = code->column == P66
        && (code->map == 2 ? code->opcode != 0xf0 && code->opcode != 0xf1 : code->map == 1 && code->opcode == 0xae);
    return has_w(code) ? 8 : code->p66 && !cleared ? 2 : 4;
}

/* Writes the encoding with one prefix of each kind, and with the opcode byte and the ModRM of `code`. `front` is how many bytes come before
 * ModRM. Answers how many bytes were written, which go as far as those of `code`, to 30 at most. */
size_t spell(const struct code *code, unsigned char *out, size_t *front)
{
    size_t at = 0;
    if (code->lock) out[at++] = 0xf0;
    if (code->segment) out[at++] = (unsigned char)code->segment;
    if (code->p67) out[at++] = 0x67;
    if (code->p66) out[at++] = 0x66;
    if (code->repeat) out[at++] = (unsigned char)code->repeat;
    if (code->rex) out[at++] = (unsigned char)code->rex;
    for (size_t k = code->run; k + 1 < code->front; k++) out[at++] = code->bytes[k];
    out[at++] = (unsigned char)code->opcode;
    *front = at;
    if (code->modrm >= 0) out[at++] = (unsigned char)code->modrm;
    for (size_t k = code->front + 1; k < code->left && at < 30; k++) out[at++] = code->bytes[k];
    return at;
}
