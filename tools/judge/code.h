/* The head of an encoding, read here and by no other decoder: the run of prefixes, the escape, the opcode byte and ModRM. */
#ifndef CODE_H
#define CODE_H

#include <stdbool.h>
#include <stddef.h>

enum { MAPS = 4 };
enum column { PLAIN, P66, F3, F2, COLUMNS };

struct code {
    const unsigned char *bytes;
    size_t left;          /* how many bytes there are */
    size_t run;           /* how many of them are prefixes */
    bool p66, p67, lock;  /* 66, 67 and F0 are in the run */
    int repeat, segment;  /* the last of F2 and F3, the last of 64 and 65, or 0 */
    int rex;              /* the REX byte at the end of the run, or 0 */
    int map;              /* 0, 0F, 0F38, 0F3A */
    int opcode, modrm;    /* -1 where the bytes end before */
    size_t front;         /* how many bytes there are up to the opcode byte, that one included */
    enum column column;
};

struct code code_of(const unsigned char *bytes, size_t left);
bool is_prefix(int byte);
bool has_w(const struct code *code);
int v_bytes(const struct code *code);
size_t spell(const struct code *code, unsigned char *out, size_t *front);

#endif
