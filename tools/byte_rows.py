"""The rows of opcode bytes without a legacy prefix, as the maps and the rows of their forms have them: for tools/tables.py, which writes them. A row
that form and mod alone choose has its operands, and the sizes that its operation decides. Of a group that has cells there is the number of its form."""

import functools
import re

from form_rows import GROUPED, PLAIN, SEARCHED, Template, head, name_of, rows_of
from sources import CRATES

NEXT = {"Bare": "Nothing", "Either": "Either", "Memory": "Chosen(Memory)", "Register": "Chosen(Register)"}  # what follows by the place of the row
BY_SEARCH = "other!(Chosen(Search))"


@functools.cache
def operation_sizes():
    """The sizes that an operation decides: those by its name, and that of every other operation."""
    text = (CRATES / "x86_operands" / "specs" / "Encodings.antt").read_text()
    answer = {}
    for size, rows, other in re.findall(r"^operation_size size\.(\w+) o =\s+first_size \(((?:.|\n)*?) ∷ \[\]\) size\.(\w+) o$", text, re.M):
        found = re.findall(r"\(((?:\w+ ∷ )+)\[\], size\.(\w+)\)", rows)
        answer[size] = {name: of for names, of in found for name in names.split(" ∷ ")[:-1]}, other
    return answer


def decided(size, opcode):
    """A size, or the one that the operation decides."""
    of, other = operation_sizes().get(size, ({}, size))
    return of.get(opcode, other)


def byte_row(opcode, form, carried, ordinal, number):
    if form in GROUPED - SEARCHED:
        return f"other!(Chosen(Cells({1 + ordinal})))"
    if head(form, 0).startswith("Search"):
        return BY_SEARCH
    row = rows_of(PLAIN)[form][0]
    sizes = " ".join(decided(size, opcode) for size in row.sizes)
    return f"direct!({NEXT[row.place]}; {number} {carried}; {Template(row.operands)}; {sizes})"


def byte_rows(map_rows, ordinals, numbers):
    """The rows of a map by the byte, without a mandatory prefix, where the first of several rows counts."""
    lines = [f"    {BY_SEARCH}, // {byte:02X}" for byte in range(256)]
    for columns, byte, opcode, form, carried in reversed(map_rows):
        if columns == "all" or "plain" in columns.split("_"):
            name = name_of(form) if opcode == "Invalid" else opcode
            lines[byte] = f"    {byte_row(opcode, form, carried, ordinals[form], numbers[opcode])}, // {byte:02X} {name}"
    return lines
