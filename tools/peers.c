/* Another decoder, to measure the program beside it: distorm3 with -DDISTORM, else zydis.
 *
 *     peers version
 *     peers sweep < TEXT    of hex text what the program's `sweep` does: PLACE LENGTH and the text of each instruction, a line each
 *     peers decode N < RAW  decodes bytes from beginning to end, N times; prints how many instructions and refusals these are together
 */
#include <stdint.h>
#include <stdio.h>
#include <stdlib.h>
#include <string.h>

#ifdef DISTORM
#define SUPPORT_64BIT_OFFSET
#include <distorm3/distorm.h>
static void init(void) {}
static void version(void)
{
    unsigned v = distorm_version();
    printf("distorm3 %u.%u.%u\n", v >> 16, v >> 8 & 255, v & 255);
}
static _CodeInfo code_at(const uint8_t *bytes, size_t count)
{
    _CodeInfo code;
    memset(&code, 0, sizeof code);
    code.code = bytes;
    code.codeLen = (int)count;
    code.dt = Decode64Bits;
    code.features = DF_NONE;
    return code;
}
static size_t one(const uint8_t *bytes, size_t count, char *text, size_t size)
{
    _CodeInfo code = code_at(bytes, count > 64 ? 64 : count);
    _DInst read[2];
    unsigned used = 0;
    distorm_decompose(&code, read, 1, &used);
    if (!used || read[0].flags == FLAG_NOT_DECODABLE) return 0;
    _DecodedInst shown;
    distorm_format(&code, &read[0], &shown);
    snprintf(text, size, "%s %s", (char *)shown.mnemonic.p, (char *)shown.operands.p);
    return read[0].size;
}
static size_t decode(const uint8_t *bytes, size_t count)
{
    static _DInst batch[1024];
    _CodeInfo code = code_at(bytes, count);
    size_t decoded = 0;
    while (code.codeLen > 0) {
        unsigned used = 0;
        _DecodeResult result = distorm_decompose(&code, batch, 1024, &used);
        decoded += used;
        if (result == DECRES_SUCCESS || used == 0) break;
        unsigned by = (unsigned)(code.nextOffset - code.codeOffset);
        code.code += by;
        code.codeLen -= (int)by;
        code.codeOffset = code.nextOffset;
    }
    return decoded;
}
#else
#include <Zydis/Zydis.h>
static ZydisDecoder decoder;
static ZydisFormatter formatter;
static void init(void)
{
    ZydisDecoderInit(&decoder, ZYDIS_MACHINE_MODE_LONG_64, ZYDIS_STACK_WIDTH_64);
    ZydisFormatterInit(&formatter, ZYDIS_FORMATTER_STYLE_INTEL);
}
static void version(void)
{
    ZyanU64 v = ZydisGetVersion();
    printf("zydis %d.%d.%d\n", (int)ZYDIS_VERSION_MAJOR(v), (int)ZYDIS_VERSION_MINOR(v), (int)ZYDIS_VERSION_PATCH(v));
}
static ZydisDecodedInstruction read;
static ZydisDecodedOperand operands[ZYDIS_MAX_OPERAND_COUNT];
static size_t one(const uint8_t *bytes, size_t count, char *text, size_t size)
{
    if (!ZYAN_SUCCESS(ZydisDecoderDecodeFull(&decoder, bytes, count, &read, operands))) return 0;
    ZydisFormatterFormatInstruction(&formatter, &read, operands, read.operand_count_visible, text, size, 0, ZYAN_NULL);
    return read.length;
}
static size_t decode(const uint8_t *bytes, size_t count)
{
    size_t decoded = 0;
    for (size_t at = 0; at < count; decoded++)
        at += ZYAN_SUCCESS(ZydisDecoderDecodeFull(&decoder, bytes + at, count - at, &read, operands)) ? read.length : 1;
    return decoded;
}
#endif

static int digit(uint8_t c)
{
    return c >= '0' && c <= '9' ? c - '0' : c >= 'a' && c <= 'f' ? c - 'a' + 10 : c >= 'A' && c <= 'F' ? c - 'A' + 10 : -1;
}

/* The bytes of hex text, in place. */
static size_t read_hex(uint8_t *text, size_t count)
{
    size_t made = 0;
    for (size_t at = 0; at + 1 < count;)
        if (digit(text[at]) < 0) at++;
        else { text[made++] = (uint8_t)(digit(text[at]) * 16 + digit(text[at + 1])); at += 2; }
    return made;
}

/* Digits by hand, since printf would take most of the time. */
static char *number(char *end, size_t value)
{
    do *--end = (char)('0' + value % 10); while (value /= 10);
    return end;
}

int main(int argc, char **argv)
{
    static uint8_t bytes[1 << 26];
    size_t count = argc == 2 && strcmp(argv[1], "version") == 0 ? 0 : fread(bytes, 1, sizeof bytes, stdin);
    init();
    if (argc == 2 && strcmp(argv[1], "version") == 0) version();
    else if (argc == 2 && strcmp(argv[1], "sweep") == 0) {
        static char gathered[1 << 16];
        setvbuf(stdout, gathered, _IOFBF, sizeof gathered);
        count = read_hex(bytes, count);
        for (size_t at = 0; at < count;) {
            char text[512] = "error", front[48], *end = front + sizeof front;
            size_t length = one(bytes + at, count - at, text, sizeof text);
            if (length == 0) length = 1;
            *--end = ' ';
            end = number(end, length);
            *--end = ' ';
            end = number(end, at);
            fwrite_unlocked(end, 1, (size_t)(front + sizeof front - end), stdout);
            fwrite_unlocked(text, 1, strlen(text), stdout);
            putc_unlocked('\n', stdout);
            at += length;
        }
    } else if (argc == 3 && strcmp(argv[1], "decode") == 0) {
        size_t decoded = 0;
        for (int passes = atoi(argv[2]); passes > 0; passes--) decoded += decode(bytes, count);
        printf("%zu\n", decoded);
    } else return 2;
    return 0;
}
