/* What zydis answers, as a line of the program. */
#include "judge.h"
#include <ctype.h>
#include <stdio.h>
#include <string.h>

bool decode(const ZydisDecoder *decoder, const unsigned char *bytes, size_t left, struct reading *reading, ZyanStatus *status)
{
    *status = ZydisDecoderDecodeFull(decoder, bytes, left, &reading->read, reading->of);
    return ZYAN_SUCCESS(*status);
}

static struct operand operand_of(const ZydisDecodedInstruction *read, const ZydisDecodedOperand *operand)
{
    const ZydisDecodedOperandMem *mem = &operand->mem;
    switch (operand->type) {
    case ZYDIS_OPERAND_TYPE_REGISTER: return (struct operand){.kind = REGISTER, .reg = operand->reg.value};
    case ZYDIS_OPERAND_TYPE_MEMORY:
        return (struct operand){.kind = MEMORY, .reg = mem->base, .index = mem->index, .scale = mem->scale, .value = mem->disp.value,
            .bits = read->raw.disp.size == 64 ? 64 : 32};
    default:
        return (struct operand){.kind = IMMEDIATE, .value = operand->imm.value.s, .is_signed = operand->imm.is_signed, .bits = operand->size};
    }
}

/* The bytes of memory: those of the memory operand that is shown, else of the one that isn't, else of a register form the operand size. */
static int size_of(const struct reading *reading)
{
    for (int shown = 1; shown >= 0; shown--)
        for (int k = 0; k < reading->read.operand_count; k++) {
            const ZydisDecodedOperand *operand = &reading->of[k];
            if (operand->type == ZYDIS_OPERAND_TYPE_MEMORY && (operand->visibility != ZYDIS_OPERAND_VISIBILITY_HIDDEN) == shown)
                return operand->size / 8;
        }
    return 0;
}

void read_as_here(struct reading *reading)
{
    const char *name = ZydisMnemonicGetString(reading->read.mnemonic);
    for (size_t at = 0; at <= strlen(name); at++) reading->name[at] = (char)toupper(name[at]);
    reading->refusal = NULL;
    reading->length = reading->read.length;
    reading->count = reading->read.operand_count_visible;
    for (int k = 0; k < reading->count; k++) reading->operands[k] = operand_of(&reading->read, &reading->of[k]);
    reading->size = size_of(reading);
}

static int put_register(char *text, size_t room, ZydisRegister reg)
{
    const char *name = ZydisRegisterGetString(reg);
    return strncmp(name, "st", 2) == 0 ? snprintf(text, room, "st(%s)", name + 2) : snprintf(text, room, "%s", name);
}

static int put_memory(char *text, size_t room, const struct operand *operand)
{
    if (!operand->reg && !operand->index)
        return operand->bits == 64 ? snprintf(text, room, "[abs64:%llu]", (unsigned long long)operand->value)
                                   : snprintf(text, room, "[abs32:%u]", (unsigned)operand->value);
    int at = snprintf(text, room, "[%s", operand->reg ? ZydisRegisterGetString(operand->reg) : "");
    if (operand->index)
        at += snprintf(text + at, room - at, "%s%s*%d", operand->reg ? "+" : "", ZydisRegisterGetString(operand->index), operand->scale);
    if (operand->value != 0) at += snprintf(text + at, room - at, "%+lld", operand->value);
    return at + snprintf(text + at, room - at, "]");
}

static int put_immediate(char *text, size_t room, const struct operand *operand)
{
    int unused = 64 - operand->bits;
    unsigned long long value = (unsigned long long)operand->value << unused;
    return operand->is_signed ? snprintf(text, room, "i%d:%lld", operand->bits, (long long)value >> unused)
                              : snprintf(text, room, "u%d:%llu", operand->bits, value >> unused);
}

static int put_operand(char *text, size_t room, const struct operand *operand)
{
    switch (operand->kind) {
    case REGISTER: return put_register(text, room, operand->reg);
    case MEMORY: return put_memory(text, room, operand);
    case IMMEDIATE: return put_immediate(text, room, operand);
    default: return snprintf(text, room, "%s", operand->text);
    }
}

/* Writes the whole line, its end included, and answers its length. */
int reading_text(size_t place, const struct reading *reading, char *text, size_t room)
{
    if (reading->refusal) return snprintf(text, room, "%zu error: %s\n", place, reading->refusal);
    int at = snprintf(text, room, "%zu %zu %s", place, reading->length, reading->name);
    for (int k = 0; k < reading->count; k++) {
        at += snprintf(text + at, room - at, k == 0 ? " " : ", ");
        at += put_operand(text + at, room - at, &reading->operands[k]);
    }
    return at + (reading->size == UNDECIDED ? snprintf(text + at, room - at, " m?\n") : snprintf(text + at, room - at, " m%d\n", reading->size));
}
