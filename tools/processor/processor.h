/* What the files of the processor's judge share. docs/COMPARED.md says what it does. Each check counts, by words whose first one is its name, what
 * `agrees`, what is `undecided`, and what `DIFFERS`. */
#ifndef PROCESSOR_H
#define PROCESSOR_H

#include "../judge/code.h"
#include <stdint.h>

enum { RAX, RCX, RDX, RBX, RSP, RBP, RSI, RDI, RIP = 16, NO_REGISTER = -1 };    /* as in encodings */
enum { TRAP_DE = 0, TRAP_DB = 1, TRAP_UD = 6, TRAP_SS = 12, TRAP_GP = 13, TRAP_PF = 14 };
enum { STRIDE = 48 };                   /* bytes of a case: its encoding, a tail that serves as displacement and immediate, and NOPs */
#define CHUNK 600000u                   /* numbers of one run of `x86 sweep`, whose text is below its 64 MiB */
#define CODE_END 0x200000001000ull      /* the first byte that can't be fetched: the place after an instruction */
#define DATA 0x70000000ull              /* a page for data, where it is wanted, with none beside it; addresses of 32 bits reach it */

/* engine.c, probe.c */
struct registers {
    uint64_t gpr[16], flags;
    uint8_t xmm[16][16], mm[8][16];     /* mm: the registers of x87, of which the first 8 bytes are mm0 to mm7 */
};
struct outcome {
    int trap, err;                      /* the number of the exception, and the error code of a page fault */
    uint64_t rip, cr2;                  /* where it was raised, and the address of a page fault */
};
extern struct registers before, after;  /* what the next run begins with, and what the last one left: xmm and mm where has_vectors is set */
extern bool has_vectors, is_x87_full;   /* is_x87_full: all registers of x87 hold something */
extern uint64_t fs_base, gs_base, runs;
void start_engine(bool with_data);      /* from here on the process may read, write and exit, and nothing else */
struct outcome run(const uint8_t *bytes, int count);
int least_bytes(const uint8_t *bytes, int from, struct outcome *of);    /* with how many of 15 the processor wants no more; or 16 */
bool has_twin(const uint8_t *bytes);    /* whether the first prefix comes again, so that it isn't needed */
bool wants_more(struct outcome of, int count);
const char *trap_name(int trap);
bool probe(void);

/* line.c: a line of `x86 sweep` */
enum register_class { NO_CLASS, GP8, GP8_HIGH, GP16, GP32, GP64, XMM, MM, ST, SEGMENT, CONTROL, DEBUG };
struct operand {
    enum { NO_OPERAND, REGISTER, IMMEDIATE, MEMORY } kind;
    enum register_class class;          /* of a register; of memory that of its base or index; ah, ch, dh and bh are GP8_HIGH 0 to 3 */
    int number, index, scale;           /* the number of a register; of memory its base */
    int absolute;                       /* the bits of an absolute address, or 0 */
    int64_t value;                      /* of an immediate; of memory the displacement */
};
struct line {
    int length, count, size;            /* length 0: refused; how many operands; size -1: m? */
    char error[48], name[24];
    struct operand operands[4];
};
bool read_line(const char *text, struct line *it);
bool is_named(const struct line *it, const char *names);    /* whether the name is one of these, each with a blank after it */
const struct operand *memory_of(const struct line *it);     /* the first memory operand, or NULL */
int bits_of(const struct operand *it);                      /* of a general register, or 0 */
uint64_t address_of(const struct operand *it, bool has_67); /* of memory, with the registers of `before` */

/* tally.c */
void set_example(const uint8_t *bytes, int count, const char *text, const struct outcome *of);      /* of what is counted next */
void tally(const char *format, ...) __attribute__((format(printf, 1, 2)));
void print_tally(void);

/* cases.c: the case of a number, with how many bytes before its NOPs, 0 where there is none; false where the numbers of the kind end */
bool case_at(const char *kind, uint32_t number, uint8_t bytes[STRIDE], int *count);

/* encoding.c */
struct limit {
    int most;                           /* how many bytes may be fetched: 15 where the encoding may run whole, else too few for that */
    const char *why;
};
struct limit may_fetch(const struct code *code, bool has_data);
bool has_modrm(int map, int opcode);
const char *row_of(const struct code *code);                /* such as "f3 0f 7e /1 reg with W" */

/* The checks, of a case and its line. */
struct test {
    const uint8_t *bytes;
    struct code code;
    struct line line;
    const char *text;
};
void set_registers(void);                                   /* far addresses, where nothing is mapped */
void check_line(const struct test *it, bool with_all_cuts); /* length.c: length, refusal, and what the outcome shows */
void check_fault(const struct test *it, struct outcome of); /* address.c: address, implied, direction */
void check_target(const struct test *it, struct outcome of);
void check_segment(const struct test *it);                  /* segment.c */
void check_spelling(const struct test *it);                 /* spelling.c: fields, tighten, Operand::address */
void check_size(const struct test *it);                     /* size.c */
void check_registers(const struct test *it);                /* registers.c: registers, width, sources */
void check_x87(const struct test *it);                      /* x87.c */
void check_meaning(const struct test *it, struct outcome of);   /* meaning.c: place, registers and flags after a run */

#endif
