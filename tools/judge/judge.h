/* What the files of the judge share. docs/COMPARED.md says what the judge does. */
#ifndef JUDGE_H
#define JUDGE_H

#include "code.h"
#include <Zydis/Zydis.h>

enum { OPERANDS = 5, LONGEST = 15, MOST_AFTER_OPCODE = 7 };      /* ModRM, SIB, a displacement, and a byte */
struct operand {
    enum { REGISTER, MEMORY, IMMEDIATE, TEXT } kind;
    ZydisRegister reg;               /* REGISTER; the base of MEMORY */
    ZydisRegister index;
    int scale;
    long long value;                 /* the displacement, or the immediate */
    bool is_signed;
    int bits;                        /* the width of an immediate, or of an absolute address */
    char text[8];
};

/* A line of the listing, as it is expected. */
struct reading {
    const char *refusals[4];         /* why it may be refused: the errors that may be there, and NULL; none where it is an instruction */
    const char *refusal;             /* the one of them that the line has, or NULL */
    size_t length;
    char name[32];
    int count, size;                 /* operands; bytes of memory, or UNDECIDED */
    struct operand operands[OPERANDS];
    ZydisDecodedInstruction read;    /* what zydis answers */
    ZydisDecodedOperand of[ZYDIS_MAX_OPERAND_COUNT];
};

enum { UNDECIDED = 63 };

bool decode(const ZydisDecoder *decoder, const unsigned char *bytes, size_t left, struct reading *reading, ZyanStatus *status);
void read_as_here(struct reading *reading);
int reading_text(size_t place, const struct reading *reading, char *text, size_t room);
void expect(const ZydisDecoder *decoder, const struct code *code, struct reading *reading);
void print_reasons(void);
void change(const struct code *code, struct reading *reading, const char *words);

/* The tables of reasons. rows.py says what a row has. */
struct rule {
    const char *reason, *rows, *words;
    size_t count;                    /* how often it changed something */
};

extern struct rule refused[], read_otherwise[], changed[];

#endif
