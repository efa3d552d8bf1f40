/* Holds lines of the program against the processor that this runs on.
 *
 *     processor probe                           whether it can be done here: its name; status 0, or 77 and why not
 *     processor cases KIND CHUNK >RAW           the cases of a chunk of a kind; status 3 where there is no such chunk
 *     processor judge KIND RAW <LINES           counts of what agrees, is undecided or differs (tally.c), of the lines of these cases
 *
 * LINES are those of `x86 sweep` over RAW; for `segments` those of `show`; for `spellings` those that spelling.c says. */
#include "processor.h"
#include <err.h>
#include <stdio.h>
#include <stdlib.h>
#include <string.h>
#include <unistd.h>

enum { NO_CHUNK = 3, NOT_HERE = 77 };

static int write_cases(const char *kind, uint32_t chunk)
{
    uint8_t bytes[STRIDE];
    uint32_t number = chunk * CHUNK, end = number + CHUNK;
    int count;
    if (!case_at(kind, number, bytes, &count)) return NO_CHUNK;
    for (; number < end && case_at(kind, number, bytes, &count); number++)
        if (count > 0 && fwrite(bytes, strcmp(kind, "spellings") ? STRIDE : (size_t)count, 1, stdout) != 1) return 2;
    return 0;
}

static uint8_t *contents(const char *path, size_t *count)
{
    FILE *file = fopen(path, "rb");
    uint8_t *bytes = malloc((STRIDE + 1) * (size_t)CHUNK);
    *count = file && bytes ? fread(bytes, 1, STRIDE * (size_t)CHUNK, file) : 0;
    if (!*count || fclose(file)) err(2, "%s", path);
    return bytes;
}

static void judge_line(const char *kind, struct test *it)
{
    tally("cases");
    if (!strcmp(kind, "spellings")) check_spelling(it);
    else if (!strcmp(kind, "segments")) check_segment(it);
    else if (!read_line(it->text, &it->line)) tally("line DIFFERS: it isn't read");
    else if (!strcmp(kind, "sizes")) check_size(it);
    else if (!strcmp(kind, "registers")) check_registers(it);
    else check_line(it, !strcmp(kind, "random") || !strcmp(kind, "prefixes"));
}

/* A line is of each case, at its place: of `spellings` at the end of the one before, else at each STRIDE. */
static int judge(const char *kind, const char *path)
{
    static char buffer[1 << 16], line[512], *end;
    size_t count, next = 0, place = 0;
    uint8_t *bytes = contents(path, &count);
    setvbuf(stdin, buffer, _IOFBF, sizeof buffer);
    start_engine(!strcmp(kind, "sizes"));
    while (next < count && place <= next && fgets(line, sizeof line, stdin)) {
        place = strtoull(line, &end, strcmp(kind, "segments") ? 10 : 16);
        line[strcspn(line, "\n")] = '\0';
        set_example(bytes + next, 15, line, NULL);
        if (place != next) continue;
        struct test it = {.bytes = bytes + place, .code = code_of(bytes + place, STRIDE), .text = line};
        judge_line(kind, &it);
        next += strcmp(kind, "spellings") ? STRIDE : strtoull(end, NULL, 10);
    }
    if (next != count) tally("line DIFFERS: none is at a case");
    print_tally();
    printf("%llu\truns\t\n", (unsigned long long)runs);
    return 0;
}

int main(int count, char **words)
{
    static char buffer[1 << 16];
    int status = 2;
    setvbuf(stdout, buffer, _IOFBF, sizeof buffer);
    if (count == 2 && !strcmp(words[1], "probe")) status = probe() ? 0 : NOT_HERE;
    else if (count == 4 && !strcmp(words[1], "cases")) status = write_cases(words[2], (uint32_t)strtoul(words[3], NULL, 10));
    else if (count == 4 && !strcmp(words[1], "judge")) status = judge(words[2], words[3]);
    else fprintf(stderr, "usage: processor probe | cases KIND CHUNK >RAW | judge KIND RAW <LINES\n");
    _exit(fflush(stdout) ? 2 : status);     /* `exit` would make a call that the filter forbids */
}
