"""Listings that differ from those of a program, in one line or in all lines of a kind: `tools/compare --self-test` gives them to the judges."""

import random
import re

from sources import errors

ExhaustedInput, InvalidOpcode, _, InvalidPrefixes, TooLong, IncompleteDecoder = errors().values()

# The kind, and the pattern and the text that takes its place, in one of the lines with that pattern.
EDITS = [
    ("place higher by one", r"^(\d+) (?=\d+ MOV)", lambda m: f"{int(m[1]) + 1} "),
    ("length longer by one", r"^(\d+) (\d+) (?=MOV)", lambda m: f"{m[1]} {int(m[2]) + 1} "),
    ("name of the next arithmetic row", "ADD", "ADC"),
    ("name of the opposite condition", "JZ", "JNZ"),
    ("name NOP as PAUSE", "NOP", "PAUSE"),
    ("qword register with another number", "rcx(?=, r)", "r9"),
    ("extended register without its extension", "r8d", "eax"),
    ("x87 register with another number", r"st\([1-7]\)", "st(0)"),
    ("control register with another number", "cr0", "cr2"),
    ("base with another number", r"\[rbp", "[rbx"),
    ("index with another number", r"\+rcx\*", "+rdx*"),
    ("scale doubled", r"rcx\*4", "rcx*8"),
    ("displacement of 8 bits without its sign", r"-(\d+)\]", lambda m: f"+{256 - int(m[1])}]"),
    ("immediate without its sign", r"i8:-(\d+)", lambda m: f"i8:{256 - int(m[1])}"),
    ("size of a memory form", r"(\].*) m8$", r"\1 m4"),
    ("size that the processor decides", r"m\?$", "m64"),
    ("an operand missing", r"(IMUL [^,]*, [^,]*), \S+", r"\1"),
    ("operands exchanged", r"(MOV) (\S+), (r\S+)", r"\1 \3, \2"),
    ("instruction as refusal", r"^(\d+) \d+ NOP.*", rf"\1 error: {InvalidOpcode}"),
    ("instruction as the end", r"^(\d+) \d+ MOV.*", rf"\1 error: {ExhaustedInput}"),
    ("refusal as instruction", rf"^(\d+) error: {InvalidOpcode}", r"\1 1 NOP m0"),
    ("refusal of VEX as InvalidOpcode", IncompleteDecoder, InvalidOpcode),
    ("InvalidOpcode as the refusal of VEX", InvalidOpcode, IncompleteDecoder),
    ("InvalidPrefixes as InvalidOpcode", InvalidPrefixes, InvalidOpcode),
    ("InvalidOpcode as InvalidPrefixes", InvalidOpcode, InvalidPrefixes),
    ("TooLong as ExhaustedInput", TooLong, ExhaustedInput),
    ("ExhaustedInput as TooLong", ExhaustedInput, TooLong),
]

# As EDITS, of the lines of `show`.
SHOWN_EDITS = [
    ("address higher by one", r"^(\w+)(?=:\t.*\tmov)", lambda m: f"{int(m[1], 16) + 1:x}"),
    ("address of 32 bits", r"^f{8}(?=\w+:\t.*\tadd)", ""),
    ("address with a blank before it", r"^(?=\w+:\t.*\tsub)", " "),
    ("another byte", r"(?<=:\t)(\w\w) ", lambda m: f"{int(m[1], 16) ^ 1:02x} "),
    ("a byte left out", r"(?<=:\t)(\w\w) \w\w ", r"\1 "),
    ("a length that is longer", r"(?<=:\t)((?:\w\w ){3})   (?= *\tmov)", r"\g<1>90 "),
    ("a narrower column", r" \t(?=mov)", "\t"),
    ("a line without a text", r"\tcmp .*", ""),
    ("a text that is no line", r".*\ttest .*", "read fault"),
    ("another name", r"\tjne ", "\tje  "),
    ("another register", r"(?<=\tmov    )rax(?=,)", "rcx"),
    ("a register of another width", r"(?<=[ ,])eax$", "rax"),
    ("another size of memory", "DWORD PTR", "QWORD PTR"),
    ("a size left out", "QWORD PTR ", ""),
    ("another constant", r"(?<=,0x)(\w)", lambda m: f"{int(m[1], 16) ^ 1:x}"),
    ("a constant that isn't extended", "0xffffffffffffff", "0xff"),
    ("another sign of a displacement", r"-(?=0x\w+\])", "+"),
    ("a displacement of 0 left out", r"\+0x0(?=\])", ""),
    ("an index left out", r"\+r\w+\*1(?=[+\]-])", ""),
    ("a segment left out", "[fg]s:", ""),
    ("a word left out", "lock ", ""),
    ("a word more", r"\t(?=add )", "\trepz "),
    ("a REX word left out", r"rex\.\w+ ", ""),
    ("a target that is wrong past 2^32", r"(?<=\tcall   0x)(\w)(?=\w{8})", lambda m: f"{int(m[1], 16) ^ 1:x}"),
    ("a remark that is wrong past 2^32", r"(?<=# 0x)(\w)(?=\w{8})", lambda m: f"{int(m[1], 16) ^ 1:x}"),
    ("an instruction as (bad)", r"\tmov .*", "\t(bad)"),
    ("an instruction of a byte as (bad)", r"\tret$", "\t(bad)"),
    ("an instruction as (vex)", r"\tadd .*", "\t(vex)"),
    ("(bad) as an instruction", r"\t\(bad\)", "\tnop"),
    ("(vex) as (bad)", r"\t\(vex\)", "\t(bad)"),
]

# The kind, and what becomes of the list of all lines and the number of one in the middle.
MOVES = {
    "a line missing": lambda lines, at: lines[:at] + lines[at + 1 :],
    "the first line missing": lambda lines, at: lines[1:],
    "the last line missing": lambda lines, at: lines[:-1],
    "all lines missing": lambda lines, at: [],
    "the second half missing": lambda lines, at: lines[:at],
    "a line twice": lambda lines, at: lines[: at + 1] + lines[at:],
    "two lines exchanged": lambda lines, at: lines[:at] + [lines[at + 1], lines[at]] + lines[at + 2 :],
    "an empty line": lambda lines, at: lines[:at] + [""] + lines[at:],
    "two lines in one": lambda lines, at: lines[:at] + [lines[at] + lines[at + 1]] + lines[at + 2 :],
    "a line after the end": lambda lines, at: lines + ["999999999 1 NOP m0"],
    "the end of the text after the lines": lambda lines, at: lines + ["text error at 7"],
    "a byte 0 at the end of a line": lambda lines, at: lines[:at] + [lines[at] + "\0"] + lines[at + 1 :],
}

ENDS = {"the last line cut short": lambda text: text[:-4], "the last line without its end": lambda text: text[:-1]}


def any_byte(seed):
    def changed(lines, at):
        chance = random.Random(seed)
        at = chance.randrange(len(lines))
        place = chance.randrange(len(lines[at]))
        other = chance.choice([it for it in "0123456789abcdefimrx,:[]+-* " if it != lines[at][place]])
        return lines[:at] + [lines[at][:place] + other + lines[at][place + 1 :]] + lines[at + 1 :]

    return changed


def edit(pattern, text, third=2):
    """Changes one of the lines with a pattern: the first one, or that after one or two thirds of them."""

    def changed(lines, _):
        found = [at for at, line in enumerate(lines) if re.search(pattern, line)]
        if not found:
            return lines
        at = found[len(found) * third // 3]
        return lines[:at] + [re.sub(pattern, text, lines[at], count=1)] + lines[at + 1 :]

    return changed


KINDS = {kind: edit(pattern, text) for kind, pattern, text in EDITS}
KINDS |= MOVES
KINDS |= {f"any byte of any line as another one, {seed}": any_byte(seed) for seed in range(1, 11)}
KINDS |= dict.fromkeys(ENDS)

SHOWN = {f"show: {kind}": edit(pattern, text, third=0) for kind, pattern, text in SHOWN_EDITS}
SHOWN |= {f"show: {kind}": change for kind, change in MOVES.items()}


def planted(kind, text):
    """The text of a listing, changed as a kind of `KINDS`, for `sweep`, or of `SHOWN`, for `show`, says."""
    if kind in ENDS:
        return ENDS[kind](text)
    lines = text.split("\n")[:-1]
    return "".join(line + "\n" for line in (KINDS | SHOWN)[kind](lines, len(lines) // 2))
