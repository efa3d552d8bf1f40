#!/usr/bin/env python3
"""Writes crates/uses/src/tests/shortest_table.rt: encodings with a memory operand, each with its shortest spellings.

It tries every mod, rm and SIB byte, every bit X and B of a live REX, every displacement of one byte, and the displacements of
four bytes that the encodings have. GNU objdump says which address each spells, so nothing here knows how an address is encoded.
The spellings of one address that have the fewest bytes are the shortest.

    tools/shortest.py           writes the table
    tools/shortest.py --check   says whether it is what would be written
"""
import itertools
import random
import re
import tempfile

from sources import TOP, dumped, write

TABLE = TOP / "crates/uses/src/tests/shortest_table.rt"
COUNT = 300
# What is before ModRM, after it and what is after the address: operations with one operand of memory.
OPERATIONS = [
    ("", "8b", ""), ("", "03", ""), ("66", "8b", ""), ("", "0fb6", ""), ("f3", "0f6f", ""), ("64", "8b", ""),
    ("", "83", "7f"), ("", "c7", "78563412"), ("66", "0f3800", ""), ("", "d9", ""), ("f0", "01", ""), ("66", "0f3a0f", "05"),
]
DISPLACEMENTS = [0, 1, -1, 0x10, 0x7F, -0x80, 0x80, -0x81, 0x1234, -0x8000_0000, 0x7FFF_FFFF]


def address_text(text):
    """What objdump prints of the address."""
    found = re.search(r"\[([^]]*)\]|ds:(0x[0-9a-f]+)", text)
    return found.group(1) or found.group(2)


def address(text, narrow):
    """How often each register counts, and the displacement."""
    counts, displacement = {}, 0
    for sign, term in re.findall(r"([+-]?)([^+-]+)", text):
        register, _, scale = term.partition("*")
        if register.startswith("0x"):
            displacement += int(register, 16) * (-1 if sign == "-" else 1)
        elif register not in ("riz", "eiz"):
            counts[register] = counts.get(register, 0) + int(scale or 1)
    return tuple(sorted(counts.items())), displacement % (1 << (32 if narrow else 64))


def disassembled(encodings):
    """A line of objdump for each encoding."""
    with tempfile.NamedTemporaryFile() as image:
        for encoding in encodings:
            image.write(encoding.ljust(16, b"\x90"))
        image.flush()
        lines = {place: text for place, _, text in dumped(*"-D -w -b binary -m i386:x86-64 -M intel -z".split(), image.name)}
    return [lines[16 * at] for at in range(len(encodings))]


def tails():
    """Every ModRM with reg 0, SIB and displacement; of four bytes, those of DISPLACEMENTS."""
    wide = [d.to_bytes(4, "little", signed=True) for d in DISPLACEMENTS]
    for mod, rm in itertools.product(range(3), range(8)):
        modrm = bytes([64 * mod + rm])
        for sib in [bytes([s]) for s in range(256)] if rm == 4 else [b""]:
            lone = mod == 0 and (sib[0] % 8 if sib else rm) == 5
            if mod == 1:
                ends = [bytes([d]) for d in range(256)]
            elif mod == 2 or lone:
                ends = wide
            else:
                ends = [b""]
            for end in ends:
                yield modrm + sib + end


def spellings(narrow, bits):
    """Of each address its shortest spellings: the bits X and B, and a tail."""
    spelled = [(xb, tail) for xb in bits for tail in tails()]
    head = b"\x67" if narrow else b""
    encodings = [head + (b"" if xb is None else bytes([0x40 + xb])) + b"\x8b" + tail for xb, tail in spelled]
    shortest, addresses = {}, {}
    for spelling, line in zip(spelled, disassembled(encodings)):
        place = address(address_text(line), narrow)
        addresses[spelling] = place
        best = shortest.setdefault(place, [])
        if best and len(best[0][1]) > len(spelling[1]):
            best.clear()
        if not best or len(best[0][1]) == len(spelling[1]):
            best.append(spelling)
    return addresses, shortest


def encoding(operation, narrow, rex, tail):
    """An operation with this address; `rex` is a REX byte or none."""
    prefixes, opcode, immediate = (bytes.fromhex(part) for part in operation)
    return (b"\x67" if narrow else b"") + prefixes + (b"" if rex is None else bytes([rex])) + opcode + tail + immediate


def chosen(addresses, shortest, narrow, count):
    """Encodings whose address isn't relative to rip, three of four of them with a shorter spelling."""
    random.seed(count + narrow)
    known = {(d & 0xFF).to_bytes(1, "little") for d in DISPLACEMENTS if -128 <= d < 128}
    places = [s for s in addresses if "ip" not in str(addresses[s]) and (s[1][0] < 0x40 or s[1][0] >= 0x80 or s[1][-1:] in known)]
    longer = [s for s in places if len(shortest[addresses[s]][0][1]) < len(s[1])]
    return random.sample(longer, count * 3 // 4) + random.sample(places, count - count * 3 // 4)


def rows():
    """The lines of the table."""
    for narrow, bits in itertools.product((False, True), ([None], [0, 1, 2, 3])):
        addresses, shortest = spellings(narrow, bits)
        for at, (xb, tail) in enumerate(chosen(addresses, shortest, narrow, COUNT // 4)):
            operation = OPERATIONS[at % len(OPERATIONS)]
            rex = 0x48 if at % 2 else 0x40
            spelled = [
                encoding(operation, narrow, None if x is None else rex + x, t).hex() for x, t in shortest[addresses[(xb, tail)]]
            ]
            start = encoding(operation, narrow, None if xb is None else rex + xb, tail).hex()
            yield f"{start} => {' | '.join(spelled)}"


def table():
    """The text of the file."""
    listed = "\n".join(rows())
    return (
        "//! Encodings with a memory operand, each with its shortest spellings, by GNU objdump; written by tools/shortest.py.\n"
        f'\npub const SPELLINGS: &str = "{listed}";\n'
    )


write(lambda: {TABLE: table()})
