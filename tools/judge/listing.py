"""Holds the lines of `show` against those of binutils' objdump 2.40, byte by byte but for the blanks before objdump's addresses.

At an address at which both begin a line the two must be the same, or differ by one of `REASONS`, which looks at the bytes. Each line of `show` must have
the next address and its own bytes, and an address that only one of the two has must be inside of lines that have a reason.
"""

import collections
import itertools
import random
import re
import subprocess
import sys

from sources import LEGACY, OBJDUMP, REX, objdump_version, print_row, skip

BASES = [0, 0x401000, 0xFFFFFFFF81000000]
HEADER = 7  # lines
LINE = re.compile(rb"([0-9a-f]{1,16}):\t((?:[0-9a-f]{2} ){1,15}) *\t(.+)\n")
LONE_REX = re.compile(rb"(?:rex(?:\.\w+)?\s*)+")
PREFIX = re.compile(rb"(?:data16|addr32|lock|repn?z|[c-gs]s|rex)\b")
NAMED_REX = re.compile(rb"(?:\w+ )*rex\b")
LONGEST, CASE = 15, 24  # bytes
MODRMS = [mod << 6 | reg << 3 | rm for reg in range(8) for mod, rm in [(0, 0), (0, 4), (0, 5), (1, 1), (2, 4), *((3, rm) for rm in range(8))]]
SIBS = bytes.fromhex("24 25 65 04 8d e4 20 60 2d")

# Bytes after the prefixes: of VEX, EVEX and XOP; of near branches; of rows that objdump refuses; of rows that `show` refuses; of MPX; of hints.
VECTOR = re.compile(rb"[\xc4\xc5\x62]|\x8f[^\x00-\x07\x40-\x47\x80-\x87\xc0-\xc7]", re.S)
NEAR = re.compile(rb"[\xe8\xe9]|\x0f[\x80-\x8f]|\xc7\xf8", re.S)
THEIR_ROWS = re.compile(rb"[\xd8-\xdf]|[\xc6\xc7][\xc0-\xff]|\x0f(?:[\x01\x09\x0d\x18\x20-\x23\xae\xb9\xbc\xbd\xff]|\x3a\xf0)", re.S)
OUR_ROWS = re.compile(rb"[\x8c\x8e\xd8-\xdf]|\x0f[\x01\x0d\x18\x1a-\x1f\x20-\x23\x37\x50\x78\xa6\xa7\xae\xb9\xc5\xc7\xd7\xf7\xff]|\x0f\x38\xfc|\x0f\x3a\xf0", re.S)
HINTS = re.compile(rb"\x0f[\x18\xc7\xd6]", re.S)
# Prefixes of which objdump loses none where it takes a REX before others as a line.
IN_ORDER = re.compile(rb"[@-O]*[^@-O]*[@-O]?", re.S)


def made(run):
    """Each opcode byte of each map with each of `MODRMS` after a run of prefixes, a SIB byte and a displacement by chance, and NOPs up to the next one."""
    chance, run, code = random.Random(run), bytes.fromhex(run.strip("-")), bytearray()
    for escape, opcode, modrm in itertools.product((b"", b"\x0f", b"\x0f\x38", b"\x0f\x3a"), range(256), MODRMS):
        sib = chance.choice([*SIBS, chance.randrange(256)])
        rest = bytes(chance.choice([0, 1, 5, 16, 17, 127, 128, 255, chance.randrange(256)]) for _ in range(8))
        code += (run + escape + bytes([opcode, modrm, sib]) + rest)[:LONGEST].ljust(CASE, b"\x90")
    return bytes(code)


class Pair:
    """A line of `show`, and the one of objdump at its address: the bytes and the text of each. `run` are the prefixes of the code there, and `rest`
    is what follows."""

    def __init__(self, code, ours, theirs):
        (self.own, self.text), (self.bytes, self.named) = ours, theirs
        self.rest = code.lstrip(LEGACY + REX)
        self.run = code[: len(code) - len(self.rest)]
        self.is_bad = b"(bad)" in self.named or self.named.startswith(b".byte")
        self.has_66, self.is_cut = 0x66 in self.run, len(code) < LONGEST and PREFIX.match(self.named)
        self.is_refused = self.is_cut or self.is_bad or 0xF0 in self.run or VECTOR.match(self.rest) or OUR_ROWS.match(self.rest)
        self.is_split = any(byte >> 4 == 4 for byte in self.run[:-1]) and NAMED_REX.match(self.named)
        self.is_lost = self.text == b"(bad)" or not IN_ORDER.fullmatch(self.run)
        self.is_spaced = self.own == self.bytes and self.text.split() == self.named.split()

    def is_hint(self):
        has_both = self.has_66 and not {0xF2, 0xF3}.isdisjoint(self.run)
        is_odd = has_both and HINTS.match(self.rest) or self.has_66 and self.rest[:2] == b"\x0f\x0f"
        is_tracked = b"notrack" in self.named and self.named.replace(b"notrack ", b"") == re.sub(rb"[fg]s:|notrack ", b"", self.text)
        return self.own == self.bytes and (is_odd or is_tracked or self.is_spaced and self.rest[:2] == b"\x0f\x18")


# The reasons, by their names in docs/USAGE.md, and where each holds.
REASONS = {
    "vex": lambda it: it.text == b"(vex)" and VECTOR.match(it.rest) and (it.is_bad or it.bytes == it.own),
    "refused": lambda it: it.text == b"(bad)" and len(it.own) == 1 and it.is_refused,
    "apart": lambda it: it.is_split and (it.is_lost or it.is_spaced),
    "near": lambda it: it.has_66 and NEAR.match(it.rest) and (len(it.own) == len(it.bytes) + 2 or b"xbeginw" in it.named),
    "wait": lambda it: it.rest[:1] == b"\x9b" and it.text.endswith(b"fwait") and (it.bytes.startswith(it.own) or NAMED_REX.match(it.named)),
    "rows": lambda it: it.is_bad and THEIR_ROWS.match(it.rest),
    "bounds": lambda it: it.rest[:2] in (b"\x0f\x1a", b"\x0f\x1b") and b"nop" in it.text and (it.is_bad or b"bnd" in it.named),
    "hints": Pair.is_hint,
}


class Judge:
    def __init__(self, code, base, theirs):
        self.code, self.base, self.theirs, self.counts, self.unlike = code, base, theirs, collections.Counter(), []
        self.at, self.free = 0, 0  # the ends of the lines so far, and of those that have a reason
        self.other = next(theirs, b"")

    def tell(self, what, *lines):
        self.unlike.append("\n    ".join([what, *(line.decode(errors="replace").rstrip("\n") for line in lines)]))

    def parsed(self, line):
        """The place, the bytes and the text of a line, or None."""
        form = LINE.fullmatch(line)
        return form and ((int(form[1], 16) - self.base) % 2**64, bytes.fromhex(form[2].decode()), form[3])

    def take(self):
        """The parts of objdump's next line, together with the next ones where it is a REX alone."""
        line, self.other = self.other, next(self.theirs, b"")
        place, own, text = self.parsed(line)
        while LONE_REX.fullmatch(text) and self.other:
            _, more, following = self.parsed(self.other)
            own, text, self.other = own + more, text + b" " + following, next(self.theirs, b"")
        return place, own, text, line

    def is_free(self, place, own):
        """Whether a line that only one has is inside of lines that have a reason, which then extend as far as it does."""
        is_inside = place < self.free
        if is_inside:
            self.free = max(self.free, place + len(own))
        return is_inside

    def skip(self, place):
        """Passes over the lines that objdump alone has before a place."""
        while self.other and self.parsed(self.other)[0] < place:
            there, own, _, line = self.take()
            self.counts["objdump alone"] += 1
            if not self.is_free(there, own):
                self.tell("objdump alone", line)

    def hold(self, line):
        at, parts = self.at, self.parsed(line)
        if not parts or parts[0] != at or parts[1] != self.code[at : at + len(parts[1])]:
            self.tell(f"not the line at {self.base + at & 2**64 - 1:x}", line)
        if not parts:
            return
        place, own, text = parts
        self.at = place + len(own)
        self.skip(place)
        if self.other and self.parsed(self.other)[0] == place:
            self.compare(place, line, own, text)
        else:
            self.counts["`show` alone"] += 1
            if not self.is_free(place, own):
                self.tell("`show` alone", line)

    def compare(self, place, line, own, text):
        """Compares a line with that of objdump at the same place."""
        self.counts["at both"] += 1
        is_same = line == self.other
        _, their_own, their_text, their_line = self.take()
        if is_same:
            return
        pair = Pair(self.code[place : place + LONGEST], (own, text), (their_own, their_text))
        why = next((name for name, holds in REASONS.items() if holds(pair)), None)
        self.counts[why] += 1
        if why is None:
            self.tell("another line", line, their_line)
        else:
            self.free = max(self.free, place + len(own), place + len(their_own))

    def hold_all(self, ours):
        for line in ours:
            self.counts["lines"] += 1
            if line == self.other:
                self.counts["at both"] += 1
                self.at += len(line.split(b"\t")[1].split())
                self.other = next(self.theirs, b"")
            else:
                self.hold(line)
        self.skip(2**64)
        if self.at != len(self.code):
            self.tell(f"the listing ends at {self.at:x}")


def held(ours, code, base, work):
    """The judge of the lines of `show` over some code, once it has them all."""
    (work / "raw").write_bytes(code)
    with subprocess.Popen([*OBJDUMP, "-z", f"--adjust-vma={base:#x}", work / "raw"], stdout=subprocess.PIPE) as dump:
        judge = Judge(code, base, (line.lstrip(b" ") for line in itertools.islice(dump.stdout, HEADER, None)))
        judge.hold_all(ours)
    return judge


def listed(words, code, work):
    """A program that lists some code."""
    (work / "text").write_text(code.hex())
    with open(work / "text", "rb") as text:
        return subprocess.Popen(words, stdin=text, stdout=subprocess.PIPE)


def is_of_version():
    if objdump_version() != "2.40":
        skip("the package binutils of version 2.40", "the lines of `show`")
    return objdump_version() == "2.40"


def main(show, pieces, work):
    """Compares the listings of pieces of code, each with its name, at four bases. Returns the status, which is 0 where objdump is of another version."""
    if not is_of_version():
        return 0
    heads, count = ["lines", "at both", "`show` alone", "objdump alone", *REASONS], 0
    print_row("code of", "base", *heads, "unexplained")
    print("|---|---|---|" + "---|" * len(heads))
    for name, code in pieces:
        for base in [*BASES, 2**64 - len(code)]:
            with listed([show, f"{base:x}"], code, work) as ours:
                judge = held(ours.stdout, code, base, work)
            if ours.returncode != 0:
                judge.tell(f"the program ended with status {ours.returncode}")
            print_row(name, f"{base:x}", *(judge.counts[it] for it in heads), len(judge.unlike))
            for what in judge.unlike[:20]:
                print(f"unexplained: {name}: {what}", file=sys.stderr)
            count += len(judge.unlike)
    return 1 if count else 0
