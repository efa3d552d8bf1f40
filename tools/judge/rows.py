"""The rows of reasons.c, as C has them. A row says at which bytes a reason holds:

    NP 66 F3 F2     the column; without one of these, all
    +66 -66 +67 +W -W +R +any   prefixes that must be there, or not be there (`any`: 66, 67, F0, FS, GS or a REX)
    rm0             ModRM's rm is 0
    0: 0F: 0F38: 0F3A:   the map of the opcode bytes after it
    8F 50-5F        opcode bytes; `/67` with such a reg field, `r` in the register form, `m` in memory form, `=FE` with that ModRM
    ;               other bytes at which it holds follow
"""

import re
import sys
from pathlib import Path

# The head of a table, or a rule's row.
RULE = re.compile(r'^struct rule (\w+)|^    \{"[^"]+", ((?:"[^"]*"\s*)+),', re.M)
OPCODE = re.compile(r"(\w\w)(?:-(\w\w))?(?:/([0-7]+))?([rm]?)(?:=(\w\w))?")
TABLES, MAPS, COLUMNS = ["refused", "read_otherwise", "changed"], ["0", "0F", "0F38", "0F3A"], ["NP", "66", "F3", "F2"]
PREFIXES = ["66", "67", "W", "R", "any"]
CONDITIONS = [*COLUMNS, "rm0", *(sign + prefix for sign in "+-" for prefix in PREFIXES)]


def bits(words, of):
    return sum(1 << of.index(word) for word in words if word in of)


def entry(table, number, conditions, of, opcode):
    """An opcode byte of a row, or a range of them, as a `struct where`."""
    first, last, regs, form, named = OPCODE.fullmatch(opcode).groups()
    needs, forbids = (bits([it[1:] for it in conditions if it[0] == sign], PREFIXES) for sign in "+-")
    modrms = [0] * 4
    for modrm in range(256):
        fits = str(modrm >> 3 & 7) in (regs or "01234567") and "mmmr"[modrm >> 6] in (form or "mr") and named in (None, f"{modrm:02X}")
        modrms[modrm >> 6] |= (fits and (modrm & 7 == 0 or "rm0" not in conditions)) << (modrm & 63)
    place = f"{TABLES.index(table)}, {MAPS.index(of)}, 0x{first}, 0x{last or first}"
    return f"{{&{table}[{number}], {place}, {bits(conditions, COLUMNS) or 15}, {needs}, {forbids}, {{{', '.join(map(hex, modrms))}}}}},\n"


def entries():
    for head, rows in RULE.findall((Path(__file__).parent / "reasons.c").read_text()):
        table, number = (head, -1) if head else (table, number + 1)
        for part in "".join(re.findall('"(.*)"', rows)).split(";") if rows else ():
            conditions, *maps = re.split(r"(\w+):", part)
            try:
                known = sorted(conditions.split(), key=CONDITIONS.index)
                yield from (entry(table, number, known, of, opcode) for of, opcodes in zip(maps[::2], maps[1::2]) for opcode in opcodes.split())
            except (AttributeError, ValueError):
                sys.exit(f"compare: tools/judge/reasons.c: not read: {part}")
