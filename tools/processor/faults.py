"""The self-test of the processor's judge: faults that are planted into lines of cases, one kind at a time, each of which a check must see."""

import collections
import re

import processor
from sources import errors

ExhaustedInput, InvalidOpcode, InvalidOperand, _, TooLong, _ = errors().values()

# How many cases of the first chunk of a kind are looked through, and how many lines of a fault are judged.
CASES = {"rows": 150000, "addresses": 30000, "registers": 190000, "sizes": 36000, "segments": 50000, "spellings": 20000, "prefixes": 10000, "worked": 2000}
MOST = 300
CHECKS = set("length refusal address implied direction target meaning registers width sources x87 size segment fields tighten Operand::address".split())

# The kind, what is planted, and the pattern in the part of a line after the place, with what takes its place.
FAULTS = [
    ("rows", "a length too long", r"^2 (ADD \[)", r"3 \1"),
    ("rows", "a length too short", r"^6 (SUB \[)", r"5 \1"),
    ("prefixes", "a length at the limit", r"^15 ", "14 "),
    ("rows", "a refusal accepted", rf"^error: {InvalidOpcode}", "1 NOP m0"),
    ("prefixes", "too long accepted", rf"^error: {TooLong}", "15 NOP m0"),
    ("rows", "an instruction refused", r"^3 BT \[.*", f"error: {InvalidOpcode}"),
    ("rows", "8C without R refused", r"^2 MOV \[\w+\], es .*", f"error: {InvalidOperand}"),
    ("rows", "0F 0D with memory refused", r"^\d PREFETCHW .*", f"error: {InvalidOperand}"),
    ("worked", "a worked line: length", r"^3 (XOR|LEA|CMP|AND) ", r"4 \1 "),
    ("worked", "a worked line: exhausted input", rf"^error: {ExhaustedInput} after (\d+)", lambda m: f"error: {ExhaustedInput} after {int(m[1]) + 8}"),
    ("worked", "a worked line: address", r"\[rbp([-+]\d+)\]", r"[rsp\1]"),
    ("rows", "a base", r"\[rbx\]", "[rbp]"),
    ("rows", "a displacement's sign", r"\[rbp\+(\d+)\]", r"[rbp-\1]"),
    ("rows", "rip as an absolute address", r"\[rip\+(\d+)\]", r"[abs32:\1]"),
    ("rows", "operands exchanged: MOV", r"MOV \[(r..)\], (e..) ", r"MOV \2, [\1] "),
    ("rows", "a register in place of memory", r"ADD \[(r..)\],", r"ADD \1,"),
    ("rows", "a target's sign", r"JMP i8:(\d+)", r"JMP i8:-\1"),
    ("rows", "PUSH as POP", r" PUSH r", " POP r"),
    ("addresses", "a scale", r"\*4", "*2"),
    ("addresses", "an index", r"r12\*", "rsp*"),
    ("addresses", "base and index exchanged", r"\[rcx\+rdx\*2", "[rdx+rcx*2"),
    ("addresses", "an address of 32 bits as one of 64", r"\[r(\d+)d\]", r"[r\1]"),
    ("addresses", "the sign of an absolute address", r"\[abs32:24(\d+)\]", r"[abs32:14\1]"),
    ("addresses", "eip as rip", r"\[eip", "[rip"),
    ("sizes", "a size: ADD", r"(ADD \[rbx\], \w+) m4", r"\1 m8"),
    ("sizes", "a size: x87", r"(FLD st\(0\), \[rbx\]) m10", r"\1 m8"),
    ("sizes", "a size of the stack", r"(PUSH rax) m8", r"\1 m4"),
    ("sizes", "a size: MOVSXD with W", r"^3 (MOVSXD .*) m4", r"3 \1 m8"),
    ("sizes", "a size: CVTTPD2PI", r"(CVTTPD2PI .*) m16", r"\1 m8"),
    ("sizes", "a size of memory for LEA's neighbour", r"MOV (\w+), \[rbx\] m4", r"MOV \1, [rbx] m64"),
    ("registers", "a condition", " JB ", " JNA "),
    ("registers", "ADD as SUB", " ADD ", " SUB "),
    ("registers", "MOVZX as MOVSX", " MOVZX ", " MOVSX "),
    ("registers", "operands exchanged: MOV", r" MOV (e\w\w), (e\w\w) ", r" MOV \2, \1 "),
    ("registers", "operands exchanged: PXOR", r" PXOR (mm\d), (mm\d) ", r" PXOR \2, \1 "),
    ("registers", "ah as spl", " ah, ", " spl, "),
    ("registers", "a width", r" IMUL e(\w\w), e(\w\w) ", r" IMUL r\1, r\2 "),
    ("registers", "a width: MOVMSKPS", r" MOVMSKPS eax", " MOVMSKPS ax"),
    ("registers", "a source: MOVSXD with W", r"^3 MOVSXD (r\w\w), eax", r"3 MOVSXD \1, ecx"),
    ("registers", "an immediate's sign", r" ADD (\w+), i8:-11 ", r" ADD \1, u8:245 "),
    ("registers", "a destination: PADDB", " PADDB mm1, ", " PADDB mm2, "),
    ("registers", "a source: PADDB", r" PADDB mm1, mm3", " PADDB mm1, mm4"),
    ("registers", "a source: CVTSI2SD", r"(CVTSI2S[SD] xmm\d, )e[ad]x", r"\1ecx"),
    ("registers", "a source: PINSRW", r"(PINSRW x?mm\d, )e[ad]x", r"\1xmm0"),
    ("registers", "the source of MOVSX", " MOVSX eax, cl ", " MOVSX eax, ch "),
    ("registers", "the count of a shift", r" SAR (\w+), cl ", r" SAR \1, i8:1 "),
    ("registers", "x87: FADD as FSUB", " FADD ", " FSUB "),
    ("registers", "x87: a register", r" (FMUL st\(0\)), st\(1\)", r" \1, st(2)"),
    ("registers", "x87: FCOMP as FCOM", " FCOMP ", " FCOM "),
    ("segments", "fs as gs", "fs:", "gs:"),
    ("segments", "a segment left out", r"gs:\[rbp", "[rbp"),
    ("segments", "a segment that isn't added", r"es:\[rdi", "fs:[rdi"),
    ("segments", "a segment of XLAT", r"(xlat .*)gs:", r"\1ds:"),
    ("segments", "a segment of MASKMOVQ", "gs maskmovq", "maskmovq"),
    ("segments", "a segment that isn't there", "push +rax$", "push fs:[rax]"),
    ("spellings", "a part of another length", r"^(\d+ \S+ \S+ \S+ \S+ \S+) (\w+)(\w\w) -", r"\1 \2 \3"),
    ("spellings", "displacement and SIB exchanged", r"^(\d+ \S+ \S+ \S+ \S+) (\w\w) (\w\w) ", r"\1 \2\3 - "),
    ("spellings", "a least length", r"(\t\d+ \d+ )(\d+)\t", lambda m: f"{m[1]}{int(m[2]) - 1}\t"),
    ("spellings", "another shortest spelling", r"(=.*)40$", r"\g<1>41"),
    ("spellings", "an address", r"@(\w+)0\b", r"@\g<1>8"),
]


class Lines:
    """The first cases of a kind, each with what is after the place in its line."""

    def __init__(self, bench, kind):
        self.bench, self.kind, self.base, self.end = bench, kind, *((16, ":\t") if kind == "segments" else (10, " "))
        code, at, self.cases = bench.cases(kind, 0)[: CASES[kind] * processor.STRIDE], 0, []
        with bench.lines(kind, code) as text:
            for line in text:
                place, rest = line.decode().rstrip("\n").split(self.end, 1)
                if int(place, self.base) == at:
                    count = int(rest.split(" ", 1)[0]) if kind == "spellings" else processor.STRIDE
                    self.cases.append((code[at : at + count], rest))
                    at += count

    def judged(self, cases):
        """The words of what differs without a reason, of some cases."""
        at, lines, counts = 0, [], processor.Counts()
        for code, rest in cases:
            lines.append(f"{at:{'x' if self.base == 16 else 'd'}}{self.end}{rest}\n")
            at += len(code)
        (self.bench.work / "planted").write_text("".join(lines))
        self.bench.count(counts, self.kind, b"".join(code for code, _ in cases), open(self.bench.work / "planted", "rb"))
        counts.settle()
        return set(counts.reasons()[None])

    def seen(self, pattern, there):
        """How many lines have a fault, and by which checks it is seen."""
        changed = [(code, rest, re.sub(pattern, there, rest, count=1)) for code, rest in self.cases if re.search(pattern, rest)]
        some = [it for it in changed if it[1] != it[2]]
        some = some[:: max(1, len(some) // MOST)]
        words = self.judged([(code, rest) for code, _, rest in some]) - self.judged([(code, rest) for code, rest, _ in some])
        return len(some), sorted({it.split(" DIFFERS")[0] for it in words})


def self_test(bench):
    """Plants each kind of fault. Returns how many weren't seen, and how many checks saw none."""
    lines, checks, missed = {}, collections.Counter(), 0
    for kind, what, pattern, there in FAULTS:
        if kind == "spellings" and not bench.has_addresses():
            continue
        lines[kind] = lines.get(kind) or Lines(bench, kind)
        count, seen = lines[kind].seen(pattern, there)
        checks.update(seen)
        missed += not seen
        print(f"{kind}, {what}: {count} lines, {'seen by ' + ', '.join(seen) if seen else 'NOT SEEN'}", flush=True)
    blind = CHECKS - checks.keys()
    print(f"compare: {len(FAULTS) - missed} of {len(FAULTS)} kinds of faults are seen; by check: " + ", ".join(f"{check} {checks[check]}" for check in sorted(CHECKS)))
    return missed + len(blind)
