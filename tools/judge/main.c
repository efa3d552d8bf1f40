/* judge RAW < LINES: holds the lines of the program's `sweep` over the bytes of the file RAW against what zydis answers in the mode of 64 bits with
 * default settings. At each place the line is worked out from zydis's answer and the reasons of reasons.c, and must be the program's line, byte for
 * byte. It prints, with tabs between:
 *
 *     unexplained PLACE BYTES | LINE | EXPECTED      for the first twenty lines that differ
 *     reason COUNT REASON                            for each rule that changed something
 *     counts LINES ACCEPTED REFUSED UNEXPLAINED
 */
#include "judge.h"
#include <err.h>
#include <stdio.h>
#include <stdlib.h>
#include <string.h>

enum { REPORTS = 20, MOST = 1 << 25 };      /* lines; bytes of RAW */
static size_t unexplained;

static void report(const unsigned char *bytes, size_t count, size_t at, const char *line, ssize_t length, const char *expected)
{
    if (unexplained++ >= REPORTS) return;
    printf("unexplained\t%zu ", at);
    for (size_t k = at; k < count && k < at + LONGEST; k++) printf("%02x", bytes[k]);
    printf(" | ");
    for (ssize_t k = 0; k < length; k++) putchar(line[k] >= ' ' && line[k] <= '~' ? line[k] : '?');
    printf(" | %.*s\n", (int)strcspn(expected, "\n"), expected);
}

/* Holds the lines of standard input against what is expected over some bytes. A line of a later place means that one is missing, and one of an
 * earlier place is one too many. */
static void judge(const unsigned char *bytes, size_t count)
{
    static struct reading reading;
    size_t at = 0, lines = 0, refusals = 0, room = 0;
    char *line = NULL, text[512];
    ssize_t length = getline(&line, &room, stdin);
    ZydisDecoder decoder;
    ZydisDecoderInit(&decoder, ZYDIS_MACHINE_MODE_LONG_64, ZYDIS_STACK_WIDTH_64);
    while (at < count) {
        struct code code = code_of(bytes + at, count - at);
        int size, error = 0;
        bool is_same;
        memset(reading.refusals, 0, sizeof reading.refusals);
        reading.refusal = NULL;
        expect(&decoder, &code, &reading);
        do {
            reading.refusal = reading.refusals[error];
            size = reading_text(at, &reading, text, sizeof text);
            is_same = length == size && memcmp(line, text, (size_t)size) == 0;
        } while (!is_same && reading.refusal && reading.refusals[++error]);
        size_t place = length > 0 ? strtoull(line, NULL, 10) : count, next = at + (reading.refusal ? 1 : reading.length);
        lines++;
        refusals += reading.refusal != NULL;
        if (!is_same) report(bytes, count, at, line, length, text);
        if (place >= at) at = next;
        if (place < next) length = getline(&line, &room, stdin);
    }
    for (; length > 0; length = getline(&line, &room, stdin)) report(bytes, count, count, line, length, "");
    print_reasons();
    printf("counts\t%zu\t%zu\t%zu\t%zu\n", lines, lines - refusals, refusals, unexplained);
    free(line);
}

int main(int argc, char **argv)
{
    static unsigned char bytes[MOST + 1];
    FILE *file = argc == 2 ? fopen(argv[1], "rb") : NULL;
    size_t count = file != NULL ? fread(bytes, 1, sizeof bytes, file) : 0;
    if (argc != 2) errx(2, "usage: judge RAW < LINES");
    if (file == NULL || ferror(file)) err(2, "%s", argv[1]);
    if (count > MOST) errx(2, "%s has more than %d bytes", argv[1], MOST);
    judge(bytes, count);
    return 0;
}
