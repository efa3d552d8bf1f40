/* The encodings that are tried, by number. */
#include "processor.h"
#include <string.h>

/* Runs of prefixes. */
static const char *const row_runs[] = {"", "\x66", "\xf2", "\xf3", "\x67", "\x48", "\x40", "\x41", "\x42", "\x44", "\x4f", "\x66\x48", "\xf3\x48", "\xf2\x48",
    "\x66\xf2", "\x66\xf3", "\xf2\x66", "\xf3\x66", "\xf2\xf3", "\xf3\xf2", "\xf0", "\xf0\x48", "\xf0\x66", "\xf0\xf2", "\xf3\xf0", "\x2e", "\x36", "\x3e", "\x26",
    "\x64", "\x65", "\x67\x48", "\x67\x41", "\x67\x42", "\x67\x47", "\x66\x67", "\x66\x44", "\x66\x41", "\x48\x66", "\x48\x40", "\x40\x48", "\x4f\x2e",
    "\x67\xf3", "\x66\x4f", "\xf3\x47", "\xf2\x4d", "\x66\xf3\x48", "\x66\xf2\x48", "\xf0\x67\x4f", "\x64\x67\x66\x4a", NULL};
static const char *const size_runs[] = {"", "\x66", "\xf2", "\xf3", "\x48", "\x66\x48", "\xf2\x48", "\xf3\x48", "\x67", "\x66\xf2", "\x66\xf3", "\xf2\x66", "\xf3\x66",
    "\xf2\xf3", "\xf3\xf2", "\x66\xf2\xf3", "\xf3\xf2\x66", "\x48\x66", "\x48\xf2", "\x48\x40", "\x40\x48", "\x48\x2e", "\x66\xf2\x48", "\x66\xf3\x48", "\x66\x67\x48",
    "\x65", "\xf0", "\xf0\x66", NULL};
static const char *const register_runs[] = {"", "\x66", "\xf2", "\xf3", "\x40", "\x41", "\x42", "\x44", "\x45", "\x48", "\x4d", "\x66\x48", "\x66\x45", "\xf2\x4d",
    "\xf3\x45", "\xf3\x4d", "\x66\x4d", "\x66\xf2", "\x66\xf3", NULL};
static const char *const segment_runs[] = {"\x64", "\x65", "\x64\x65", "\x65\x64", "\x65\x2e", "\x2e\x65", "\x64\x3e", "\x3e\x64", "\x65\x36", "\x36\x65", "\x64\x26",
    "\x26\x64", "\x2e", "\x3e", "\x36", "\x26", "\x65\x67", "\x66\x64", "\x65\x48", "\x48\x65", "\xf3\x65", "\x64\xf2", "\x65\x2e\x64", "\x64\x2e\x65\x36", "", NULL};

static uint8_t *out;        /* the case that is being written */
static int at;

static uint32_t mix(uint32_t x)
{
    x = (x ^ x >> 16) * 0x7feb352du;
    x = (x ^ x >> 15) * 0x846ca68bu;
    return x ^ x >> 16;
}

static void put_byte(int byte) { out[at++] = (uint8_t)byte; }
static void put(const char *bytes, size_t count) { memcpy(out + at, bytes, count); at += (int)count; }
static void put_text(const char *bytes) { put(bytes, strlen(bytes)); }
static bool is_absolute(int map, int opcode) { return map == 0 && opcode >= 0xa0 && opcode <= 0xa3; }

/* Whether an opcode byte is one, and not a prefix, an escape, VEX or EVEX. */
static bool is_opcode(int map, int opcode)
{
    return map == 0 ? !is_prefix(opcode) && opcode != 0x0f && opcode != 0xc4 && opcode != 0xc5 && opcode != 0x62 : map > 1 || (opcode != 0x38 && opcode != 0x3a);
}

static void put_opcode(int map, int opcode)
{
    put_text((const char *[]){"", "\x0f", "\x0f\x38", "\x0f\x3a"}[map]);
    put_byte(opcode);
}

/* A displacement and an immediate: an absolute address that is canonical, or numbers with and without a sign. */
static void put_tail(bool has_address, bool is_negative)
{
    put(has_address ? "\x33\x22\x11\x30\x12\0\0\x66\x77\x08\x12\x34" : is_negative ? "\xc0\xcc\xdd\x91\xc0\xb6\xa7\xf8\x92\xb4\xc6\xd8"
        : "\x40\x33\x22\x11\x40\x66\x77\x08\x12\x34\x56\x78", 12);
}

/* Kinds that go through all runs of prefixes, maps, opcode bytes, and what comes after them. */
enum after { EACH_MODRM, MEMORY_AT_RBX, REGISTER_FORM, SOME_PLACES };
static const struct rows {
    const char *name, *const *runs;
    uint32_t seconds, step;         /* how many cases an opcode byte with ModRM has; one in `step` is enough without */
    enum after after;
} kinds[] = {
    {"rows", row_runs, 304, 19, EACH_MODRM},            /* and those with SIB twice */
    {"sizes", size_runs, 8, 8, MEMORY_AT_RBX},          /* with each reg */
    {"registers", register_runs, 64, 64, REGISTER_FORM},
    {"segments", segment_runs, 32, 32, SOME_PLACES},    /* each reg with memory at rbx, rbp and rsp, and with rcx */
};

/* What is after the opcode byte. `second` is the number of the case among those of the opcode, `hash` is by its own number. */
static void put_after(enum after after, bool has_second, bool has_address, uint32_t second, uint32_t hash)
{
    const char *place = (const char *[]){"\x03", "\x45", "\x04\x24", "\xc1"}[second % 4];
    int modrm = second < 256 ? (int)second : (int)((second - 256) % 24 / 8 * 64 + (second - 256) % 8 * 8 + 4);
    switch (after) {
    case EACH_MODRM:
        put_byte(modrm);
        if (has_second && modrm < 0xc0 && (modrm & 7) == 4) put_byte(hash >> 8 & 0xff);
        put_tail(has_address, hash & 1);
        break;
    case MEMORY_AT_RBX:
        if (has_second) put_byte((int)second << 3 | 3);
        put("\0\0\0\0\0\0\0\0\0\0\0\0", has_address ? 8 : 12);
        break;
    case REGISTER_FORM:
        if (has_second) put_byte((int)second | 0xc0);
        put_byte("\x05\x35\xf5\x85"[second & 3]);
        put("\x33\xa2\x91\x15\x66\x77\x08\x12\x34\x56", 10);
        break;
    case SOME_PLACES:
        if (has_second) { put_byte(place[0] | (int)(second / 4) << 3); put_text(place + 1); }
        put_tail(has_address, false);
    }
}

static bool row_case(const struct rows *kind, uint32_t number)
{
    uint32_t second = number % kind->seconds, rest = number / kind->seconds, run = 0;
    int opcode = (int)(rest % 256), map = (int)(rest / 256 % 4);
    while (kind->runs[run] && run < rest / 1024) run++;
    if (!kind->runs[run]) return false;
    if (!is_opcode(map, opcode) || (!has_modrm(map, opcode) && second % kind->step)) return true;
    put_text(kind->runs[run]);
    put_opcode(map, opcode);
    put_after(kind->after, has_modrm(map, opcode), is_absolute(map, opcode), second, mix(number));
    return true;
}

/* Five opcodes, each ModRM with memory, each SIB, each REX and none, 67, and three segments. Of `spellings` the encoding alone, without a tail, with
 * displacements that may have another length; none of rip is in the page of the code. */
static bool address_case(uint32_t number, bool is_spelling)
{
    static const char *const displacements[] = {"\0\0\0\0", "\x40\0\0\0", "\xc0\xff\xff\xff", "\x40\x33\x22\x11"};
    uint32_t shape = number % 789, rest = number / 789, rex = rest % 17, opcode = rest / 34 % 5, hash = mix(number);
    int plain = (int)(shape / 7 * 64 + shape % 7 + (shape % 7 > 3)), modrm = shape < 21 ? plain : (int)((shape - 21) / 256 * 64 + 4), sib = (int)((shape - 21) % 256);
    bool is_long = modrm >> 6 == 2 || (modrm >> 6 == 0 && ((modrm & 7) == 5 || (shape >= 21 && (sib & 7) == 5)));
    if (rest / 170 >= 2) return false;
    if (rest / 170 == 1) put_byte(hash & 4 ? 0x64 : hash & 8 ? 0x65 : 0x36);
    if (rest / 17 % 2) put_byte(0x67);
    if (rex) put_byte(0x40 + (int)rex - 1);
    put_text((const char *[]){"\x8b", "\x02", "\x0f\x10", "\x0f\x38\x1c", "\x80"}[opcode]);
    put_byte(modrm | (opcode == 4 ? 7 : (int)(hash >> 20 & 7)) << 3);
    if (shape >= 21) put_byte(sib);
    if (!is_spelling) { put_tail(false, hash & 1); return true; }
    put(displacements[(modrm & 0xc7) == 5 ? hash & 1 : hash & 3], is_long ? 4 : (size_t)modrm >> 6);
    if (opcode == 4) put_byte(0x85);
    return true;
}

/* Random runs of 0 to 15 prefixes before some encodings, for lengths at the limit. */
static bool prefix_case(uint32_t number)
{
    static const uint8_t some[18] = "\x66\x67\xf2\xf3\x2e\x36\x3e\x26\x64\x65\x66\x48\x40\x41\x44\x42\x4f\xf0";
    static const char *const ends[] = {"\x90", "\x01\xd8", "\x01\x18", "\x8b\x45", "\x81\xc3", "\x81\x84\x24", "\xb8", "\xe9", "\xeb", "\x0f\x58\x03", "\x0f\x38\x1c\xc1",
        "\x0f\x3a\x0f\xc1", "\xc7\x05", "\x0f\x84", "\x50", "\xa4", "\xaf", "\x06", "\x0f\x04", "\xf6\xc3", "\xf7", "\xa0", "\xc8", "\x0f\x0b", "\xd8\xc1", "\x0f\xba\xe3",
        "\x0f\x1f\x80", "\x63\x03", "\x8d\x44\x88", "\x0f\xb8\xc3", "\x0f\xbc\xc3", "\x0f\x1e\xfa", "\xff\x33", "\xff\xe3", "\x8f\x03", "\x87\x03", "\x0f\xc7\x0b", "\x68", "\x6a",
        "\xe8", "\x0f\x0f\x03"};
    uint32_t hash = mix(number * 2 + 1), other = mix(hash + 77);
    const char *end = ends[other % (sizeof ends / sizeof *ends)];
    for (uint32_t k = 0; k < hash % 16; k++) {
        uint32_t chance = mix(other + k);
        put_byte((hash >> 4 & 3) == 0 ? 0x66 : (hash >> 4 & 3) == 1 ? some[chance % 11] : some[chance % sizeof some]);
    }
    put_text(end);
    put_tail(is_absolute(0, (uint8_t)end[0]), hash >> 8 & 1);
    return number < CHUNK;
}

/* Random bytes of each map after 0 to 5 random prefixes. */
static bool random_case(uint32_t number)
{
    static const uint8_t prefixes[] = {0x66, 0x67, 0xf2, 0xf3, 0x2e, 0x65, 0x48, 0x41, 0x4f, 0x44, 0x42, 0x36};
    uint32_t hash = mix(number ^ 0x5eed5eed), other = mix(hash + 99);
    int map = (int)(hash >> 8 & 3), opcode = (int)(hash >> 16 & 0xff);
    for (uint32_t k = hash % 6; k > 0; k--) put_byte(prefixes[mix(other + k) % sizeof prefixes]);
    if (map == 1 && hash >> 24 & 1) map = 0;
    put_opcode(map, is_opcode(map, opcode) ? opcode : 0x03);
    for (uint32_t k = 0; k < 12; k++) put_byte((int)(mix(other ^ (k * 7919 + 1)) & 0xff));
    return number < 2 * CHUNK;
}

bool case_at(const char *kind, uint32_t number, uint8_t bytes[STRIDE], int *count)
{
    bool is_there = false;
    out = memset(bytes, 0x90, STRIDE);
    at = 0;
    for (unsigned k = 0; k < sizeof kinds / sizeof *kinds; k++)
        if (!strcmp(kind, kinds[k].name)) is_there = row_case(&kinds[k], number);
    if (!strcmp(kind, "prefixes")) is_there = prefix_case(number);
    if (!strcmp(kind, "random")) is_there = random_case(number);
    if (!strcmp(kind, "addresses") || !strcmp(kind, "spellings")) is_there = address_case(number, kind[0] == 's');
    *count = at;
    return is_there;
}
