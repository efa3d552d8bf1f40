"""Tries the recipes of docs/USAGE.md over code that this project didn't write, and holds what they print against objdump and GNU as.

The code is of bash, from a line of objdump's listing on, at the address of a kernel. Each recipe must have some lines there, and each command of the
recipes is one of `CHECKS`, or prepares for one.
"""

import re
import subprocess
from pathlib import Path

from sources import dumped

FIRST, COUNT, LEAST = 1000, 3000, 40  # lines of objdump's listing; lines that a recipe must have
BASE = 0xFFFFFFFF81001234
LIBRARY = "/lib/x86_64-linux-gnu/libc.so.6"
SYMBOL = "getaddrinfo"
NAMES = {"mov": "MOV", "lea": "LEA", "call": "CALL", "push": "PUSH", "pop": "POP", "cmp": "CMP", "test": "TEST", "add": "ADD", "ret": "RETURN", "je": "JZ"}
DUMP = "-D -w -z -b binary -m i386:x86-64 -M intel".split()
BRANCH = re.compile(r"(?:j\w+|call|loop\w*) +0x(\w+)$")


def printed(command, folder):
    return subprocess.run(command, shell=True, cwd=folder, stdout=subprocess.PIPE, stderr=subprocess.DEVNULL, text=True, check=True).stdout


def least_lengths(lines, folder):
    """The length of each instruction as GNU as spells it, where it has memory that isn't at rip, and else its own. It takes 66 once, so `data16` counts
    apart, and it doesn't exchange a base and an index, one of which needs no displacement."""
    is_open = [bool(re.search(r"\[(?!rip|eip)", text)) for _, _, text in lines]
    swapped = [re.sub(r"\[(rbp|r13)\+(r\w+)\*1\+0x0\]", r"[\2+\1*1]", text.replace("data16 ", "")) for _, _, text in lines]
    parts = [f"1: {text}\n2: .pushsection .lengths; .byte 2b-1b; .popsection" for text, it in zip(swapped, is_open) if it]
    (folder / "least.s").write_text("\n".join([".intel_syntax noprefix", *parts, ""]))
    printed("as -W -o least.o least.s && objcopy -O binary -j .lengths --set-section-flags .lengths=alloc least.o lengths", folder)
    lengths = iter((folder / "lengths").read_bytes())
    return [next(lengths) + text.count("data16 ") if it else len(code) for (_, code, text), it in zip(lines, is_open)]


class Stranger:
    """A folder with the code, as `stranger.hex`, and objdump's lines of it."""

    def __init__(self, folder):
        self.folder = Path(folder)
        printed("objcopy -O binary -j .text /bin/bash whole", folder)
        lines = [*dumped(*DUMP, "whole", folder=folder)][FIRST : FIRST + COUNT]
        code = (self.folder / "whole").read_bytes()[lines[0][0] : lines[-1][0] + len(lines[-1][1])]
        (self.folder / "raw").write_bytes(code)
        (self.folder / "examples" / "stranger.hex").write_text(code.hex())
        self.lines = [*dumped(*DUMP, f"--adjust-vma={BASE:#x}", "raw", folder=folder)]

    def read(self, name):
        return (self.folder / name).read_text().splitlines()

    def places(self):
        return [f"{address - BASE} {len(code)}" for address, code, _ in self.lines]

    def parts(self, _):
        least = [str(length) for length in least_lengths(self.lines, self.folder)]
        bytes_of = [re.sub("[ -]", "", line) for line in self.read("parts")]
        same = [" ".join(line.split()[:2]) for line in self.read("lines")] == self.places() and bytes_of == [code.hex() for _, code, _ in self.lines]
        return len(least), same and self.read("least") == least

    def calls(self, said):
        return len(self.read("calls")), said == ["the same"]

    def function(self, said):
        there = printed(f"nm -DS {LIBRARY} | awk '$4 ~ /^{SYMBOL}@@/ {{ print $1, $2 }}'", self.folder).split()
        start, size = (int(it, 16) for it in there)
        listed = [*dumped("-d", "-w", "-M", "intel", f"--start-address={start}", f"--stop-address={start + size}", LIBRARY)]
        return len(listed), said == [text for _, _, text in listed]

    def targets(self, said):
        found = {it[1] for _, _, text in self.lines if (it := BRANCH.search(text))}
        if "join" in (self.folder / "last").read_text():
            found &= {f"{address:x}" for address, _, _ in self.lines}
        return len(found), said == sorted(found)

    def saved(self, said):
        lengths = [len(code) for _, code, _ in self.lines]
        return len(lengths), said == [str(sum(lengths) - sum(least_lengths(self.lines, self.folder)))]

    def counts(self, said):
        counted = dict(reversed(line.split()) for line in said)
        names = [text.split()[0].replace("movabs", "mov") for _, _, text in self.lines]
        return len(names), all(counted.get(ours, "0") == str(names.count(theirs)) for theirs, ours in NAMES.items())

    def files(self, _):
        lines = self.read("stranger.lines")
        return len(lines), [" ".join(line.split()[:2]) for line in lines] == self.places()


# What a command of the recipes has in it, and what holds its output; None where that is done with a later one.
CHECKS = {
    "x86 list < ": None,
    "x86 fields": None,
    "least": None,
    "paste": Stranger.parts,
    "objcopy": None,
    "> calls": None,
    "cmp - calls": Stranger.calls,
    "./dis": Stranger.function,
    "> shown": None,
    "tee branched": Stranger.targets,
    "join - branched": Stranger.targets,
    "n += $2": Stranger.saved,
    "sort -rn": Stranger.counts,
    "xargs": Stranger.files,
    "cat first": None,
}


def over_stranger(command):
    """A command of the page over the stranger's code."""
    command = re.sub(r"printf '[0-9a-f ]+'", "cat examples/stranger.hex", command)
    command = re.sub(r"examples/(?:count|function)\.hex", "examples/stranger.hex", command)
    command = re.sub(r" \| (?:head|tail|sed) -n \S+(?: \| expand \S+ \S+)?$", "", command).replace("./show > shown", f"./show {BASE:x} > shown")
    return command.replace(" labs ", f" {SYMBOL} ")


def tried(page, commands, run, folder):
    """Runs the commands of the recipes, and returns how many aren't right, or have no line in `CHECKS`."""
    stranger, wrong = Stranger(folder), 0
    for command in map(over_stranger, commands):
        said, _, status = run(command, folder)
        (stranger.folder / "last").write_text(command)
        checks = [check for text, check in CHECKS.items() if text in command]
        count, is_well = checks[-1](stranger, said.splitlines()) if checks and checks[-1] else (LEAST, True)
        if status != 0 or not checks or count < LEAST or not is_well:
            print(f"pages: {page}: over {count} lines of bash's code, status {status}, {'wrong' if checks else 'not tried'}: {command}")
            wrong += 1
    return wrong
