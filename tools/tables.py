#!/usr/bin/env python3
"""Writes the tables that only repeat what eight lists say, so that a name, a form, a row or a command is edited in one place.

    python3 tools/tables.py            writes them
    python3 tools/tables.py --check    says which are not what it would write

The lists, which people edit:

    crates/x86_opcodes/specs/Mnemonics.antt    the opcodes, a line for each name
    crates/x86_forms/src/lib.rt                the forms, the variants of `Form`
    crates/x86_forms/specs/Rows.antt           the rows of each map, a line for each row
    crates/x86_regs/specs/Names.antt           the registers of each class
    crates/x86_operands/specs/Rows.antt        the rows of the plain forms, a line for each row
    crates/x86_groups/specs/Rows.antt          the rows of the groups, a line for each row
    crates/x86_objdump/specs/Text/Entries.antt    how `show` writes an operation, a line for each that isn't written as its name
    tools/commands.txt                         the commands, a line each: its words, and after two blanks what it does

tools/form_rows.py has the tables of rows, and which of them form, mod and reg alone choose; tools/byte_rows.py has the rows of opcode bytes without a
legacy prefix. The script writes the lines of data alone. It is proved that they are those of the lists, so a wrong entry is refused.
"""

import functools
import re
import sys
import textwrap

import byte_rows
import form_rows
from sources import CRATES, TOP, write

MAPS = ["One", "Of", "Of38", "Of3a"]
COLUMNS = ["Plain", "P66", "F3", "F2"]
PART = 128  # how many constants a table has: a proof over a table of texts takes time by the square of its length


def lines_of(path, first, last, pattern):
    """The lines of a file between two lines, each read by the pattern; comments are left out."""
    body = re.search(rf"^{first}\n(.*?)^{last}$", (CRATES / path).read_text(), re.M | re.S).group(1)
    for line in body.splitlines():
        if line.strip().startswith(("--", "//")):
            continue
        read = re.fullmatch(pattern, line)
        if read is None:
            sys.exit(f"tables.py: not read: {line}")
        yield read.groups()


@functools.cache
def numbers():
    """The number of each opcode by its name, as it is spelled, in their order."""
    lines = lines_of("x86_opcodes/specs/Mnemonics.antt", "all_names =", r"    \[\]", r'    is opcode\.(\w+) \(codes "\1"\) ∷')
    return {name: number for number, (name,) in enumerate(lines)}


@functools.cache
def forms():
    """The forms in the order of their ordinals, each with whether it carries a number."""
    lines = lines_of("x86_forms/src/lib.rt", r"pub enum Form \{", r"\}", r"    (\w+)(\(u8\))?,")
    return {form: bool(field) for form, field in lines}


@functools.cache
def ordinals():
    """How many forms, with all their numbers, come before each form."""
    ordinal, answer = 0, {}
    for form, carries in forms().items():
        answer[form] = ordinal
        ordinal += form_rows.CARRIED if carries else 1
    return answer


@functools.cache
def rows():
    """The rows of each map: the columns, the byte, the opcode, the form and the number that it carries."""
    pattern = r"    in_(\w+) 0x(..) opcode\.(\w+) \(?form\.(\w+)(?: ([0-7])\))? ∷"
    lines = {of: lines_of("x86_forms/specs/Rows.antt", f"rows_of_{of} =", r"    \[\]", pattern) for of in MAPS}
    return {of: [(columns, int(byte, 16), *names, int(number or 0)) for columns, byte, *names, number in lines[of]] for of in MAPS}


def registers():
    """The classes of registers in the order of the list, each with the names by number."""
    text = (CRATES / "x86_regs/specs/Names.antt").read_text()
    classes = re.findall(r"^names_of (\w+) = ((?:.|\n )*?) ∷ \[\]$", text, re.M)
    return [(of, [re.sub(r'codes "(.*)"|\[\]', r"\1", name) for name in re.split(r" ∷\s+", names)]) for of, names in classes]


def strangers():
    """The rows that have a name or a form that its list hasn't, a line for each."""
    known, ordinal = {*numbers()}, ordinals()
    for of, map_rows in rows().items():
        for _, byte, opcode, form, _ in map_rows:
            if opcode not in known:
                yield f"rows_of_{of} has opcode.{opcode} at 0x{byte:02X}, a name that specs/Mnemonics.antt of x86_opcodes hasn't"
            if form not in ordinal:
                yield f"rows_of_{of} has form.{form} at 0x{byte:02X}, a form that src/lib.rt of x86_forms hasn't"
    for function in (form_rows.PLAIN, form_rows.GROUPS):
        for form, form_has in form_rows.rows_of(function).items():
            if form not in {*ordinal, "f"}:
                yield f"{function} has form.{form}, a form that src/lib.rt of x86_forms hasn't"
            for opcode in sorted({opcode for row in form_has for opcode in row.opcodes()} - known - {"none"}):
                yield f"{function} has {opcode} at form.{form}, a name that specs/Mnemonics.antt of x86_opcodes hasn't"


def has_column(columns, column):
    return columns == "all" or column.lower() in columns.split("_")


# ---- The files: each as its text, with other data ----


def between(text, first, last, lines):
    """A text with these lines between a line and the next one of another form."""
    parts = re.split(rf"(?m)(^{first}\n)(?:.*\n)*?(?=^{last}$)", text, maxsplit=1)
    if len(parts) != 3:
        sys.exit(f"tables.py: no lines from {first} to {last}")
    return parts[0] + parts[1] + "".join(f"{line}\n" for line in lines) + parts[2]


def filled(text, tables, counts=None):
    """A text with these lines in its tables, and with the lengths of these. A table of one name is a line."""
    for name, lines in tables.items():
        if len(lines) == 1:
            text = re.sub(rf"(?m)^(pub.* {name}: .* = \[).*(\];)$", lambda found: found[1] + lines[0].strip().rstrip(",") + found[2], text)
        else:
            text = between(text, rf"pub.* {name}: .*\[", r"\];", lines)
        text = re.sub(rf"(?m)^(pub.* {name}: .*; )\d+(\] = )", rf"\g<1>{(counts or {}).get(name, len(lines))}\2", text)
    return text


def names_antt(text):
    values = [line for name, number in numbers().items() for line in (f"abbrev pub {name} : ℕ", f"{name} = {number}", "")]
    text = between(text, r"use Rattle\.std.*\n", "-- every opcode in the order of the numbers", values)
    return between(text, "every_opcode =", r"    \[\]", [f"    {name} ∷" for name in numbers()])


def names_rt(text):
    values = [line for name, number in numbers().items() for line in (f"    pub const {name}: Opcode = Opcode {{ number: {number} }};", "")]
    text = between(text, r"impl Opcode \{", "    /// How many names.*", values)
    text = re.sub(r"(?m)(COUNT: usize = )\d+;$", rf"\g<1>{len(numbers())};", text)
    for part in range(0, len(numbers()), PART):
        of = [*numbers()][part : part + PART]
        lines = textwrap.wrap(" ".join(of), 100, initial_indent="    ", subsequent_indent="    ")
        text = filled(text, {f"NAMED_{part // PART}": lines}, {f"NAMED_{part // PART}": len(of)})
    return text


def ordinals_antt(text):
    every = [(f"(form.{form} n)" if carries else f"form.{form}", ordinals()[form], carries) for form, carries in forms().items()]
    text = between(text, "unfoldable pub ordinal_of : .*", "", [f"ordinal_of {form} = {at}{' + n' if carries else ''}" for form, at, carries in every])
    first = [f"first_ordinal_of {form} = {at}" for form, at, _ in every]
    return between(text + "\n", "abbrev pub first_ordinal_of : .*", "", first).removesuffix("\n")


def ordinals_rt(text):
    numbers = [f"({number})" for number in range(form_rows.CARRIED)]
    text = filled(text, {"FORMS": [f"    Form::{form}{number}," for form, carries in forms().items() for number in (numbers if carries else [""])]})
    arms = [f"            Form::{form}{'(_)' if carries else ''} => {ordinals()[form]}," for form, carries in forms().items()]
    return between(text, r"        match \*self \{", r"        \}", arms)


def words_table(map_rows, column):
    """The words of a column by the byte, where the first of several rows counts: eight on a line, followed by the byte of the first."""
    words = [0] * 256
    for columns, byte, opcode, form, number in reversed(map_rows):
        if has_column(columns, column):
            words[byte] = 256 * numbers()[opcode] + 1 + ordinals()[form] + number
    return ["    " + ", ".join(f"0x{word:05x}" for word in words[byte : byte + 8]) + f", // {byte:02X}" for byte in range(0, 256, 8)]


def tables_rt(text):
    columns = [(f"{of}_{column}".upper(), of, column) for of in MAPS[1:] for column in COLUMNS]
    tables = {name: words_table(rows()[of], column) for name, of, column in [("ONE", "One", "Plain"), *columns]}
    return filled(text, tables, dict.fromkeys(tables, 256))


def name_lines(size, texts):
    return [f'    name!(b"{text:<{size}}", {len(text)}),' for text in texts]


def entries():
    """The text and the letters by which `show` writes each operation: those of its line in the list, else its name in lower case and dashes."""
    pattern = r'    row opcode\.(\w+) (?:\[\]|\(codes "([^"]+)"\)) \(codes "(.{6})"\) ∷'
    listed = {name: of for name, *of in lines_of("x86_objdump/specs/Text/Entries.antt", "rows =", r"    \[\]", pattern)}
    for name in numbers():
        spelled, letters = listed.get(name, (None, "-" * 6))
        text = spelled or name.lower()
        yield f'    entry!(b"{text:<16}", {len(text)}, b"{letters}"),'


def with_usage(text):
    words = [line.split("  ")[0] for line in (TOP / "tools" / "commands.txt").read_text().splitlines()]
    return re.sub(r'(?<="usage: ).*(?=")', " | ".join(words), text)


def rows_rt(text, function, more, counts=None):
    """A text with the rows of plain forms, or of groups, and more tables."""
    constants, tables = form_rows.tables(function, forms(), numbers())
    text = between(text, r"const ABSENT: .*\n", "/// The rows of all forms.*", [line for each in constants for line in (f"const {each}", "")])
    return filled(text, tables | more, counts)


def group_tables_rt(text):
    more = form_rows.cells(forms(), numbers())
    return rows_rt(text, form_rows.GROUPS, more, {"CELLS": len(more["CELLS"]) // 18})


WRITTEN = {
    "x86_opcodes/specs/Names.antt": names_antt,
    "x86_opcodes/src/names.rt": names_rt,
    "x86_forms/specs/Ordinals.antt": ordinals_antt,
    "x86_forms/src/ordinals.rt": ordinals_rt,
    "x86_forms/src/tables.rt": tables_rt,
    "x86_operands/src/tables.rt": lambda text: rows_rt(text, form_rows.PLAIN, {"HEADS": form_rows.heads(forms())}),
    "x86_groups/src/tables.rt": group_tables_rt,
    "x86_groups/src/byte_tables.rt": lambda text: filled(
        text, {of.upper(): byte_rows.byte_rows(rows()[of], ordinals(), numbers()) for of in MAPS[:2]}),
    "x86_text/src/mnemonics.rt": lambda text: filled(text, {"MNEMONICS": name_lines(16, numbers())}),
    "x86_text/src/registers.rt": lambda text: filled(text, {of.upper(): name_lines(8, texts) for of, texts in registers()}),
    "x86_text/src/sizes.rt": lambda text: filled(text, {"SIZES": name_lines(4, [f" m{'?' if it == form_rows.UNDECIDED else it}" for it in range(65)])}),
    "x86_objdump/src/text/tables.rt": lambda text: filled(text, {"ENTRIES": [*entries()]}),
    "x86_cli/src/commands/request.rt": with_usage,
    "x86_cli/specs/Commands/Process.antt": with_usage,
}


def written():
    if found := [*strangers()]:
        sys.exit("\n".join(f"tables.py: {line}" for line in found))
    return {CRATES / path: text_of((CRATES / path).read_text()) for path, text_of in WRITTEN.items()}


if __name__ == "__main__":
    write(written)
