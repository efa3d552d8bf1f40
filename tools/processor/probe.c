/* Whether the engine works here: a few encodings, of which every x86-64 processor does the same. An emulator, a kernel that doesn't deliver the
 * signals with their addresses, or a processor without the instructions for the bases of FS and GS fails here. */
#include "processor.h"
#include <cpuid.h>
#include <stdio.h>
#include <sys/auxv.h>

static const struct trial { const char *what, *bytes; int count, trap, place; uint64_t cr2; } trials[] = {
    {"NOP runs", "\x90", 1, TRAP_DB, 0, 0},
    {"ADD runs", "\x48\x01\xd8", 3, TRAP_DB, 0, 0},
    {"a REX alone is cut", "\x48", 1, TRAP_PF, -1, CODE_END},
    {"ADD without ModRM is cut", "\x48\x01", 2, TRAP_PF, -2, CODE_END},
    {"06 is refused", "\x06", 1, TRAP_UD, -1, 0},
    {"LOCK of a register is refused", "\xf0\x01\xd8", 3, TRAP_UD, -3, 0},
    {"a load faults at its address", "\x48\x8b\x03", 3, TRAP_PF, -3, 0x4006871100},
    {"a store faults at its address", "\x88\x45\x40", 3, TRAP_PF, -3, 0x6009ca99c0},
    {"a load of the kernel's half faults", "\x8a\x04\x25\x40\x33\x22\x91", 7, TRAP_PF, -7, 0xffffffff91223340},
    {"a branch arrives", "\xeb\x40", 2, TRAP_DB, 0x40, 0},
    {"15 bytes run", "\x66\x66\x66\x66\x66\x66\x66\x66\x66\x66\x66\x66\x66\x66\x90", 15, TRAP_DB, 0, 0},
    {"16 bytes don't", "\x66\x66\x66\x66\x66\x66\x66\x66\x66\x66\x66\x66\x66\x66\x66\x90", 16, TRAP_GP, -16, 0},
    {"HLT is privileged", "\xf4", 1, TRAP_GP, -1, 0},
    {"DIV overflows", "\xf7\xf0", 2, TRAP_DE, -2, 0},
};

bool probe(void)
{
    unsigned model[13] = {0}, version = 0, unused;
    bool works = true;
    for (unsigned *at = model; at < model + 12; at += 4) __get_cpuid(0x80000002 + (unsigned)(at - model) / 4, at, at + 1, at + 2, at + 3);
    __get_cpuid(1, &version, &unused, &unused, &unused);
    printf("%s (cpuid %x)\n", (char *)model, version);
    fflush(stdout);
    if (!(getauxval(AT_HWCAP2) & 2)) { printf("there are no instructions for the bases of FS and GS\n"); return false; }
    start_engine(false);
    set_registers();
    for (unsigned k = 0; k < sizeof trials / sizeof *trials; k++) {
        const struct trial *it = &trials[k];
        struct outcome of = run((const uint8_t *)it->bytes, it->count);
        if (of.trap == it->trap && of.cr2 == it->cr2 && of.rip == CODE_END + (uint64_t)it->place) continue;
        printf("not so here: %s (%s at %+lld)\n", it->what, trap_name(of.trap), (long long)(of.rip - CODE_END));
        works = false;
    }
    return works;
}
