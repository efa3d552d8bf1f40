/* Counts by words, with an example of each, printed as COUNT, WORDS and EXAMPLE with tabs between. */
#include "processor.h"
#include <err.h>
#include <stdarg.h>
#include <stdio.h>
#include <string.h>

enum { SLOTS = 65536 };
static struct slot { char words[112], example[176]; uint64_t count; } slots[SLOTS];
static int used;

/* What an example is made of is written only for the first of its words. */
static struct example { const uint8_t *bytes; int count; const char *text; struct outcome of; } last;

void set_example(const uint8_t *bytes, int count, const char *text, const struct outcome *of)
{
    last = (struct example){bytes, count < 24 ? count : 24, text, of ? *of : (struct outcome){.trap = -1}};
}

static void write_example(char to[176])
{
    for (int k = 0; k < last.count; k++) to += sprintf(to, "%02x", last.bytes[k]);
    to += sprintf(to, " | %.60s", last.text ? last.text : "");
    if (last.of.trap < 0) return;
    sprintf(to, " | %s at %+lld, address %llx", trap_name(last.of.trap), (long long)(last.of.rip - CODE_END), (unsigned long long)last.of.cr2);
}

void tally(const char *format, ...)
{
    char words[112];
    uint32_t hash = 2166136261u;
    va_list values;
    va_start(values, format);
    vsnprintf(words, sizeof words, format, values);
    va_end(values);
    for (const char *at = words; *at; at++) hash = (hash ^ (uint8_t)*at) * 16777619u;
    struct slot *slot = &slots[hash % SLOTS];
    while (slot->count && strcmp(slot->words, words)) slot = slot + 1 < slots + SLOTS ? slot + 1 : slots;
    if (slot->count++) return;
    if (++used > SLOTS - 16) errx(2, "there are too many words to count");
    write_example(slot->example);
    strcpy(slot->words, words);
}

void print_tally(void)
{
    for (int k = 0; k < SLOTS; k++)
        if (slots[k].count) printf("%llu\t%s\t%s\n", (unsigned long long)slots[k].count, slots[k].words, slots[k].example);
}
