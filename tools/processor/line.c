/* The lines of `x86 sweep`, read back. */
#include "processor.h"
#include <stdio.h>
#include <stdlib.h>
#include <string.h>

/* The registers that have words of their own; those with numbers are `FORMS`. */
static const struct { const char *word; enum register_class class; int number; } words[] = {
    {"al", GP8, 0}, {"cl", GP8, 1}, {"dl", GP8, 2}, {"bl", GP8, 3}, {"spl", GP8, 4}, {"bpl", GP8, 5}, {"sil", GP8, 6}, {"dil", GP8, 7},
    {"ah", GP8_HIGH, 0}, {"ch", GP8_HIGH, 1}, {"dh", GP8_HIGH, 2}, {"bh", GP8_HIGH, 3},
    {"ax", GP16, 0}, {"cx", GP16, 1}, {"dx", GP16, 2}, {"bx", GP16, 3}, {"sp", GP16, 4}, {"bp", GP16, 5}, {"si", GP16, 6}, {"di", GP16, 7}, {"ip", GP16, RIP},
    {"es", SEGMENT, 0}, {"cs", SEGMENT, 1}, {"ss", SEGMENT, 2}, {"ds", SEGMENT, 3}, {"fs", SEGMENT, 4}, {"gs", SEGMENT, 5}};
static const struct { const char *form; enum register_class class; } forms[] = {
    {"xmm%d%n", XMM}, {"mm%d%n", MM}, {"st(%d)%n", ST}, {"cr%d%n", CONTROL}, {"dr%d%n", DEBUG}, {"r%d%n", GP64}, {"r%dd%n", GP32}, {"r%dw%n", GP16}, {"r%db%n", GP8}};

static bool read_register(const char *text, struct operand *it)
{
    bool is_wide = (text[0] == 'r' || text[0] == 'e') && text[1] > '9' && text[2];
    it->kind = REGISTER;
    for (unsigned k = 0; k < sizeof words / sizeof *words; k++) {
        if (strcmp(text + is_wide, words[k].word)) continue;
        it->class = !is_wide ? words[k].class : text[0] == 'r' ? GP64 : GP32;
        it->number = words[k].number;
        return true;
    }
    for (unsigned k = 0; k < sizeof forms / sizeof *forms; k++) {
        int end = 0;
        it->class = forms[k].class;
        if (sscanf(text, forms[k].form, &it->number, &end) == 1 && end > 0 && !text[end]) return true;
    }
    return false;
}

/* `[abs32:8]`, or parts as `+8`, `-8`, `rbx`, `+rcx*4`. */
static bool read_memory(char *text, struct operand *it)
{
    char word[8];
    *it = (struct operand){.kind = MEMORY, .number = NO_REGISTER, .index = NO_REGISTER, .scale = 1};
    if (sscanf(text, "[abs%d:", &it->absolute) == 1) {
        it->value = (int64_t)strtoull(text + 7, NULL, 10);
        return true;
    }
    for (text++; *text && *text != ']'; text += strcspn(text, "+-]")) {
        struct operand found = {0};
        bool is_negative = *text == '-', is_number = sscanf(text, "%*[+-]%1[0-9]", word) == 1;
        if (is_number) it->value = strtoll(text + 1, NULL, 10) * (is_negative ? -1 : 1);
        text += *text == '+' || is_negative;
        if (is_number) continue;
        if (sscanf(text, "%7[a-z0-9]", word) != 1 || !read_register(word, &found)) return false;
        it->class = found.class;
        bool is_index = sscanf(text + strlen(word), "*%d", &it->scale) == 1;
        *(is_index ? &it->index : &it->number) = found.number;
    }
    return true;
}

bool read_line(const char *text, struct line *it)
{
    char copy[256], *at = copy, *size, *end;
    *it = (struct line){0};
    snprintf(copy, sizeof copy, "%s", text);
    at += strspn(at, "0123456789");
    if (at == copy || *at != ' ') return false;
    if (!strncmp(++at, "error: ", 7)) return snprintf(it->error, sizeof it->error, "%s", at + 7) > 0;
    it->length = (int)strtol(at, &at, 10);
    size = strrchr(at, ' ');
    if (*at != ' ' || it->length < 1 || size == at || size[1] != 'm') return false;
    it->size = size[2] == '?' ? -1 : atoi(size + 2);
    *size = '\0';
    end = strchr(++at, ' ');
    if (end) *end++ = '\0';
    snprintf(it->name, sizeof it->name, "%s", at);
    for (at = end; at; at = end) {
        end = strstr(at, ", ");
        if (end) { *end = '\0'; end += 2; }
        char *colon = strchr(at, ':');
        if (it->count == 4) return false;
        struct operand *operand = &it->operands[it->count++];
        *operand = (struct operand){.kind = IMMEDIATE, .value = colon ? strtoll(colon + 1, NULL, 10) : 0};
        if (*at == '[' ? !read_memory(at, operand) : !colon && !read_register(at, operand)) return false;
    }
    return true;
}

bool is_named(const struct line *it, const char *names)
{
    size_t length = strlen(it->name);
    for (const char *at = names; length > 0 && (at = strstr(at, it->name)) != NULL; at++)
        if ((at == names || at[-1] == ' ') && at[length] == ' ') return true;
    return false;
}

const struct operand *memory_of(const struct line *it)
{
    for (int k = 0; k < it->count; k++)
        if (it->operands[k].kind == MEMORY) return &it->operands[k];
    return NULL;
}

int bits_of(const struct operand *it)
{
    static const int bits[DEBUG + 1] = {[GP8] = 8, [GP8_HIGH] = 8, [GP16] = 16, [GP32] = 32, [GP64] = 64};
    return it->kind == REGISTER ? bits[it->class] : 0;
}

uint64_t address_of(const struct operand *it, bool has_67)
{
    uint64_t address = (uint64_t)it->value;
    if (it->absolute == 64) return address;
    if (it->absolute == 32) return has_67 ? (uint32_t)address : (uint64_t)(int64_t)(int32_t)address;
    if (it->number == RIP) address += CODE_END;
    else if (it->number >= 0) address += before.gpr[it->number];
    if (it->index >= 0) address += before.gpr[it->index] * (uint64_t)it->scale;
    return it->class == GP32 ? (uint32_t)address : address;
}
