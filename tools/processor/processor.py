"""Holds the lines of the programs against the processor of this machine: main.c says how, docs/COMPARED.md what is compared.

A difference has a reason where a pattern of REASONS has its words, and the reason is a row of docs/DIFFERENCES.md that is marked by "**Processor:**".
Anything else that differs is unexplained.
"""

import collections
import itertools
import re
import subprocess
import sys
from pathlib import Path

import examples
import sources

HERE = Path(__file__).resolve().parent
TOP = HERE.parent.parent
NOT_TRIED, NO_CHUNK = 77, 3
STRIDE = 48
KINDS = ["worked", "addresses", "spellings", "prefixes", "sizes", "segments", "registers", "random", "rows"]
MARK = "**Processor:**"

# The rows of docs/DIFFERENCES.md that a processor contradicts, and the words of the differences.
REASONS = {
    "R and segment registers": rf"refusal DIFFERS: {sources.errors()['InvalidOperand']}, (ran|#PF) \| .*8c /[0-5] .*with R",
    "register form of 0F 0D": rf"refusal DIFFERS: {sources.errors()['InvalidOperand']}, ran \| .*0f 0d /. reg",
    "XABORT and XBEGIN": r"outcome DIFFERS: #UD of (XABORT|XBEGIN) \| .*c[67] /[1-6] reg",
    "a hint that has no name here": r"meaning DIFFERS: registers of XCHG \| f3 90",
    "66 and F3 before 0F C7": r"outcome DIFFERS: #UD of (RDRAND|RDSEED|VMCLEAR) \| f3 0f c7 .*with 66",
    "MOVSXD": r"meaning DIFFERS: registers of MOVSXD \| (?!.*with W)|size DIFFERS: MOVSXD m4, the processor 2 \| .*with 66",
    "8C": r"width DIFFERS: MOV isn't of 32 bits \| .*8c /. reg with 66",
    "0F BA": r"(meaning|size|width) DIFFERS: (registers of |flags of )?BT\w?\b.* \| (f. )?0f ba (.*with 66 with W|(?!.*with (66|W)))",
    "FNSTSW": r"registers DIFFERS: FNSTSW changes another general register .*with B",
    "CVTSS2SI and its neighbours": r"width DIFFERS: CVTT?S[SD]2SI isn't of 16 bits \| f. 0f 2[cd] .*with 66",
    "RDRAND and RDSEED": r"width DIFFERS: (RDRAND|RDSEED) isn't of 16 bits \| .*with 66 with W",
    "CRC32": r"size DIFFERS: CRC32 m4|width DIFFERS: CRC32 isn't of 16 bits \| .*with 66",
    "ADOX": r"(size|width) DIFFERS: ADOX .*with 66",
    "PEXTRB and its neighbours": r"width DIFFERS: (PEXTR[BWD]|EXTRACTPS) isn't of 16 bits \| 0f3a 1[4-7]",
    "PINSRB and its neighbours": r"sources DIFFERS: PINSR[BDQ] ",
    "PUSH and POP of a register": r"size DIFFERS: the stack of (PUSH|POP) m8, the processor 2 \| (f. )?5[0-9a-f]",
    "PUSH, PUSHF, ENTER and LEAVE under 66": r"size DIFFERS: the stack of (PUSHF?|POPF?|ENTER|LEAVE) m8, the processor 2 \| (f. )?(0f a|6|9|c)",
    "PUSH FF under 66 and W": r"size DIFFERS: (the stack of )?PUSH m2, the processor 8 \| .*ff /6 mem",
    "LEA": r"size DIFFERS: LEA m\d+, the processor 0",
    "0F 0D and 0F 18": r"size DIFFERS: (NOP|PREFETCH\w+) m64, the processor 0 \| .*0f (0d|18)",
    "CVTPS2PI and CVTTPS2PI": r"size DIFFERS: CVTT?PS2PI m16, the processor 8",
    "CVTSI2SS and CVTSI2SD under 66": r"size DIFFERS: CVTSI2S[SD] m2, the processor 4",
    "66 0F 6E": r"size DIFFERS: MOVD m2, the processor 4 \| .*0f 6e",
    "NOPs with memory": r"size DIFFERS: NOP m\d, the processor 0 \| .*0f 1[9a-f]",
    "a cache line": r"size DIFFERS: (CLFLUSH|CLFLUSHOPT|CLWB) m64, the processor 1",
}


def hold_rows():
    """Ends where a marked row of docs/DIFFERENCES.md lacks its pattern, or a pattern its row."""
    rows = {line.split(" | ")[0].removeprefix("| ") for line in (TOP / "docs" / "DIFFERENCES.md").read_text().splitlines() if line[:2] == "| " and MARK in line}
    for name in rows ^ REASONS.keys():
        sys.exit(f"compare: docs/DIFFERENCES.md or tools/processor/processor.py alone has the reason: {name}")


def worked():
    """The worked lines of the tests, as cases and lines."""
    cases, lines = bytearray(), []
    for path in sorted((TOP / "crates" / "uses" / "src" / "tests").glob("*_table.rt")):
        for code, words in re.findall(r'^(?:.*")?((?:[0-9a-f]{2} ?)+) => (\d+ [^|\n]*?)(?:";)?$', path.read_text(), re.M):
            code, (first, rest) = bytes.fromhex(code), words.split(" ", 1)
            rest = rest if rest[0].isdigit() else f"error: {sources.errors()[rest]}" + f" after {len(code)}" * (rest == "ExhaustedInput")
            lines.append(f"{len(cases)} {rest}\n")
            cases += code.ljust(STRIDE, b"\x90")
    return bytes(cases), "".join(lines).encode()


class Bench:
    """The judge and the programs, in a folder."""

    def __init__(self, work, programs):
        self.work, self.judge, (self.program, self.show), self.addresses = work, work / "processor", programs, None
        flags = "-O2 -Wall -fPIE -pie -fno-stack-protector -fcf-protection=none".split()
        subprocess.run(["cc", *flags, *sources.error_macros(), "-o", self.judge, *sorted(HERE.glob("*.c")), HERE.parent / "judge" / "code.c"], check=True)

    def has_addresses(self):
        self.addresses = self.addresses or examples.built("addresses", "x86_layout", self.work)
        return self.addresses is not None

    def cases(self, kind, chunk):
        """The bytes of the cases of a chunk, or None where there is none."""
        if kind == "worked":
            return worked()[0] if chunk == 0 else None
        made = subprocess.run([self.judge, "cases", kind, str(chunk)], stdout=subprocess.PIPE)
        if made.returncode not in (0, NO_CHUNK):
            sys.exit(f"compare: the cases of {kind} ended with status {made.returncode}")
        return made.stdout if made.returncode == 0 else None

    def spellings(self, code):
        """A line of `fields`, one of `tighten` and one of examples/addresses for each encoding, with tabs between."""
        listed = [subprocess.run([self.program, word], input=code.hex().encode(), stdout=subprocess.PIPE).stdout for word in ("fields", "tighten")]
        listed.append(subprocess.run([self.addresses], input=code, stdout=subprocess.PIPE).stdout)
        return b"".join(b"\t".join(it) + b"\n" for it in zip(*(text.splitlines() for text in listed)))

    def lines(self, kind, code):
        """The lines of the programs, as a file to read from."""
        if kind in ("worked", "spellings"):
            (self.work / "lines").write_bytes(worked()[1] if kind == "worked" else self.spellings(code))
            return open(self.work / "lines", "rb")
        (self.work / "text").write_text(code.hex())
        words = [self.show] if kind == "segments" else [self.program, "sweep"]
        return subprocess.Popen(words, stdin=open(self.work / "text", "rb"), stdout=subprocess.PIPE).stdout

    def count(self, counts, kind, code, lines):
        """Adds what the judge counts of some lines."""
        (self.work / "raw").write_bytes(code)
        with lines:
            ran = subprocess.run([self.judge, "judge", kind, self.work / "raw"], stdin=lines, stdout=subprocess.PIPE, text=True, errors="replace")
        if ran.returncode != 0:
            sys.exit(f"compare: the judge of {kind} ended with status {ran.returncode}")
        for line in ran.stdout.splitlines():
            counts.add(kind, *line.split("\t", 2))


class Counts:
    """What was counted by its words, with the shortest example, and the cases by kind."""

    def __init__(self):
        self.cases, self.all, self.examples, self.states = collections.Counter(), collections.Counter(), {}, collections.defaultdict(set)

    def add(self, kind, count, words, example):
        self.all[words] += int(count)
        self.cases[kind] += int(count) * (words == "cases")
        self.examples[words] = min(self.examples.get(words, example), example, key=len)
        state = re.fullmatch(r"name (\w+) (\w+)(?:: (.*))?", words)
        if state:
            self.states[f"not fetched whole: {state[3]}" if state[3] else state[1]].add(state[2])

    def settle(self):
        """Adds what can be said of all cases together: operands that never matter, and refusals of names that run."""
        for words in list(self.all):
            never, absent = re.fullmatch(r"matters no (\d) (\w+)", words), re.fullmatch(r"absent (\w+) \| (.*)", words)
            if never and f"matters yes {never[1]} {never[2]}" not in self.all:
                self.add("", self.all[words], f"sources DIFFERS: {never[2]} doesn't depend on operand {never[1]}", self.examples[words])
            if absent and absent[1] in self.states["run"]:
                self.add("", self.all[words], f"outcome DIFFERS: #UD of {absent[1]} | {absent[2]}", self.examples[words])

    def reasons(self):
        """What differs, by the name of its reason, or None."""
        found = collections.defaultdict(list)
        for words in sorted(it for it in self.all if " DIFFERS" in it):
            found[next((name for name, pattern in REASONS.items() if re.match(pattern, words)), None)].append(words)
        return found


def table(heads, rows):
    print("\n| " + " | ".join(heads) + " |\n" + "|---" * len(heads) + "|")
    for row in rows:
        print("| " + " | ".join(f"{it:,}" if isinstance(it, int) else it for it in row) + " |")


def print_names(states):
    """What became of each name of an opcode: in the first of these states that it has."""
    left = set(re.findall(r'codes "(\w+)"', (TOP / "crates" / "x86_opcodes" / "specs" / "Mnemonics.antt").read_text())) - {"Invalid"}
    rows = []
    for state in ["run", "absent", *sorted(states.keys() - {"run", "absent"})]:
        rows.append((state, len(left & states[state]), "" if state == "run" else " ".join(sorted(left & states[state]))))
        left -= states[state]
    table(["names", "count", ""], [*rows, ("in no case", len(left), " ".join(sorted(left)))])


def report(counts):
    """Prints what was counted, and returns how many kinds of differences are unexplained."""
    reasons, checks = counts.reasons(), collections.defaultdict(collections.Counter)
    rest = reasons.pop(None, [])
    for words, count in counts.all.items():
        found = re.match(r"(\S+) (agrees|undecided|DIFFERS)", words)
        if found:
            checks[found[1]][found[2] if found[2] != "DIFFERS" else "unexplained" if words in rest else "has a reason"] += count
    print(f"{counts.all['runs']:,} runs of {counts.cases.total():,} cases: " + ", ".join(f"{kind} {count:,}" for kind, count in counts.cases.items() if count))
    heads = ["agrees", "undecided", "has a reason", "unexplained"]
    table(["check", *heads], [(name, *(checks[name][it] for it in heads)) for name in sorted(checks)])
    table(["undecided", "count"], [(words, count) for words, count in counts.all.most_common() if " undecided" in words])
    table(["reason", "count", "the shortest example"],
          [(name, sum(counts.all[it] for it in found), min((counts.examples[it] for it in found), key=len)) for name, found in reasons.items()])
    print_names(counts.states)
    for words in rest:
        print(f"unexplained: {words}, {counts.all[words]:,} times: {counts.examples[words]}", file=sys.stderr)
    return len(rest)


def opened(work, programs):
    """The judge and the programs, or None with a line where this machine can't do it."""
    hold_rows()
    bench = Bench(work, programs)
    probe = subprocess.run([bench.judge, "probe"], stdout=subprocess.PIPE, stderr=subprocess.STDOUT, text=True, errors="replace")
    if probe.returncode == 0:
        print(probe.stdout, end="", flush=True)
        return bench
    print(f"compare: not tried here: the probe ended with status {probe.returncode}: {'; '.join(probe.stdout.splitlines())}", file=sys.stderr)
    return None


def main(bench, words):
    """Judges all chunks of all kinds, or one. Returns the status."""
    counts, is_whole = Counts(), True
    for kind in words[:1] or KINDS:
        if kind == "spellings" and not bench.has_addresses():
            print("compare: not tried here: spellings, since rt is missing, which builds examples/addresses", file=sys.stderr)
            is_whole = False
            continue
        for chunk in [int(words[1])] if words else itertools.count():
            code = bench.cases(kind, chunk)
            if code is None:
                break
            bench.count(counts, kind, code, bench.lines(kind, code))
    if not counts.cases:
        sys.exit(f"compare: there are no such cases; kinds are {' '.join(KINDS)}")
    counts.settle()
    return 1 if report(counts) else 0 if is_whole else NOT_TRIED
