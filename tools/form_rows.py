"""The rows of forms, as specs/Rows.antt of x86_operands and of x86_groups have them, the heads of forms and the cells of groups: for tools/tables.py,
which writes their tables. A row that is never reached, and a form whose rows leave a gap, are errors, which no proof finds. A row that is read at once
wherever the form, mod and reg have it is named in a head or a cell. The others are searched."""

import functools
import re
import sys
from dataclasses import dataclass
from itertools import product

from sources import CRATES

CARRIED = 8  # how many numbers a form with a field can carry
UNDECIDED = 63  # the size that means one that the processor decides
# the function from a form to its rows, and the crate that has it
PLAIN, GROUPS = "form_rows", "group_rows"
CRATE_OF = {PLAIN: "x86_operands", GROUPS: "x86_groups"}


def forms_of(file, definition, answer):
    """The forms for which a definition has this answer."""
    return {*re.findall(rf"^{definition} form\.(\w+) = {answer}$", (CRATES / file).read_text(), re.M)}


# the groups, those of which every mod is a register form, and those that have no cells
GROUPED = forms_of("x86_forms/specs/Groups.antt", "is_group", "true")
WITHOUT_MOD = forms_of("x86_groups/specs/Groups.antt", "group_modrm", "Registers")
SEARCHED = forms_of("x86_operands/specs/Forms.antt", "is_searched", "true")
# the marks that a row needs, and those that it is without: prefixes, and register 0 of the opcode byte
WHEN = {
    "Always": ((), ()),
    "NoPrefix": ((), ("66", "F2", "F3")),
    "NoRepeat": ((), ("F2", "F3")),
    "Only66": (("66",), ("F2", "F3")),
    "F2": (("F2",), ()),
    "F3": (("F3",), ()),
    "With66": (("66",), ()),
    "With67": (("67",), ()),
    "RexW": (("W",), ()),
    "RexR": (("R",), ()),
    "Register0": (("register 0",), ()),
}
# the words of a letter's definition, and their types
TYPE_OF = {"slot": "RegisterSlot", "class": "RegisterClass"}
# the letters that are the operand of reg or of rm, each with its width
MM = {"Gmm": ("G", "Mm"), "Emm": ("E", "Mm"), "Umm": ("E", "Mm"), "StRm": ("E", "St")}
# the last operands that are read at once
AT_ONCE = ("I8", "U8", "U16", "I32", "Iv", "Ivq", "Ip", "ConstantI8", "ConstantU8", "Implied")


@dataclass
class Row:
    text: str
    place: str
    reg: object  # a word, or a list of it and its numbers, as `rm`
    rm: object
    when: object  # a word, or Opcode with a name
    names: object  # None where a last byte names the operation
    operands: object
    sizes: list
    change: str  # of the answer's prefixes
    error: str  # None of a row that is read

    def marks(self):
        return WHEN[self.when] if isinstance(self.when, str) else ((f"opcode.{self.when[1]}",), ())

    def is_in(self, memory):
        return {"Memory": memory, "Register": not memory}.get(self.place, True)

    def is_at(self, reg):
        first, *last = [0, 7] if self.reg == "Any" else [int(number) for number in self.reg[1:]]
        return first <= reg <= (last or [first])[0]

    def is_named(self, reg, rm):
        at = {"by_reg": reg, "by_rm": rm}.get(self.names[0]) if self.named() else None
        return at is None or self.named()[at] != "none"

    def holds(self, memory, reg, rm, strict, marks):
        fits = self.rm == "Any" or (rm == 0 or not strict if self.rm == "ZeroIfStrict" else self.rm[1] == str(rm))
        needs, forbids = self.marks()
        prefixed = marks.issuperset(needs) and marks.isdisjoint(forbids)
        return self.is_in(memory) and fits and prefixed and self.is_at(reg) and self.is_named(reg, rm)

    def is_sure(self):
        """Whether the row is read at once wherever its place, reg and names are."""
        read = self.error is None and self.names is not None and self.change == "Keeps"
        return read and self.when == "Always" and self.rm == "Any" and Template(self.operands).is_plain()

    def named(self):
        """The opcodes in the place of a name, or `none`; nothing where the name is that of the opcode map."""
        return self.names[1:] if isinstance(self.names, list) else []

    def opcodes(self):
        return self.named() + (self.when[1:] if isinstance(self.when, list) else [])


def parsed(tokens):
    """The term of some tokens up to a closing parenthesis: a word, or a list of terms. One of an infix operator begins with that."""
    terms, operator = [], []
    while tokens and not operator and (token := tokens.pop(0)) != ")":
        if token in (",", "∷"):
            operator = [token, parsed(tokens)]
        else:
            terms.append(parsed(tokens) if token == "(" else token)
    left = terms[0] if len(terms) == 1 else terms
    return [operator[0], left, operator[1]] if operator else left


def term(text):
    return parsed(re.findall(r"[(),∷]|[^\s(),∷]+", text)) or text


@functools.cache
def words():
    """The words of specs/Words.antt for where a row is, for sizes and for rows: each as its arguments and the term that it means."""
    text = re.sub(r"\b(?:regs|rms|sizes)\.", "", (CRATES / "x86_operands" / "specs" / "Words.antt").read_text())
    found = re.findall(r"^abbrev pub (\w+) : (?:.*(?:Where|Size|TemplateRow)|Template)\n\1(.*?) =((?: .*\n|\n)(?: +.*\n)*)", text, re.M)
    sizes = {f"Bytes {count}": (["count"], size) for count, size in re.findall(r"\((\d+), (\w+)\)", text)}
    return sizes | {word: (names.split(), term(meant)) for word, names, meant in found if not re.search("record|λ", meant)}


def put(meant, arguments):
    """A term with these terms in place of some words."""
    return [put(each, arguments) for each in meant] if isinstance(meant, list) else arguments.get(meant, meant)


def reduced(of):
    """A term in which no word of specs/Words.antt is left."""
    head, *terms = of if isinstance(of, list) else [of]
    terms = [reduced(each) for each in terms]
    names, meant = words().get(f"Bytes {terms[0]}" if head == "Bytes" else head, ([], None))
    if meant and len(names) == len(terms):
        return reduced(put(meant, dict(zip(names, terms))))
    return [head, *terms] if terms else head


def listed(rows):
    """The terms of a list, or of a row alone."""
    return [rows[1], *listed(rows[2])] if rows[0] == "∷" else [rows] if rows != "[]" else []


def rows_in(text):
    """The rows of some text: a line each, or a word for all of a form."""
    for line in text.removesuffix("∷ []").split("∷"):
        for each in listed(reduced(term(line))):
            match each:
                case ["row", ["at", place, reg, rm], when, names, operands, [",", str() as memory, str() as register], change, verdict] if (
                    when[0] == "Opcode" or str(when) in WHEN
                ):
                    error = verdict[1] if isinstance(verdict, list) else None
                    yield Row(line.strip(), place, reg, rm, when, names if verdict == "Accepts" else None, operands, [memory, register], change, error)
                case _:
                    sys.exit(f"tables.py: not read: {line.strip()}")


@functools.cache
def rows_of(function):
    """The rows of each form, and under `f` those of a form that has no line, each checked."""
    text = re.sub(r"^ *--.*\n", "", (CRATES / CRATE_OF[function] / "specs" / "Rows.antt").read_text(), flags=re.M)
    found = re.findall(rf"^{function} (?:\(?form\.(\w+)(?: n\))?|f) =((?:[^\n]*\n)(?: .*\n)*)", text, re.M)
    return {form or "f": checked(function, form, [*rows_in(body.strip())]) for form, body in found}


def name_of(form):
    return re.sub(r"^(ModRM_0x|x87_)", "", form)


def states(rows):
    """The sets of marks that rows distinguish: of F2 and F3 one counts, and there is one opcode."""
    marks = sorted({mark for each in rows for part in each.marks() for mark in part})
    for bits in product([False, True], repeat=len(marks)):
        here = {mark for mark, bit in zip(marks, bits) if bit}
        if not {"F2", "F3"} <= here and sum(mark.startswith("opcode.") for mark in here) < 2:
            yield here


def first(rows, *where):
    """The place of the first row that holds, or None."""
    return next((at for at, each in enumerate(rows) if each.holds(*where)), None)


def reached(form, rows, choices=(False, True)):
    """The places of the rows that a ModRM byte reaches under some prefixes and choice, and None if none holds somewhere."""
    memory = [False] if form in WITHOUT_MOD else [False, True]
    return {first(rows, *where) for where in product(memory, range(8), range(8), choices, [*states(rows)])}


def checked(function, form, rows):
    """The rows of a form, if each is reached, there is always one, and all have a ModRM byte or none has."""
    name = f"{function.removesuffix('_rows')} {name_of(form)}"
    here = reached(form, rows)
    if unseen := [each.text for at, each in enumerate(rows) if at not in here]:
        sys.exit(f"tables.py: {name}: never reached: {unseen[0]}")
    if None in here:
        sys.exit(f"tables.py: {name} leaves a gap: end it with `otherwise`")
    if len({each.place == "Bare" for each in rows}) > 1:
        sys.exit(f"tables.py: {name} has rows with ModRM and rows without")
    return rows


@functools.cache
def letters():
    """The words for one operand, each with what it stands for."""
    text = (CRATES / "x86_operands" / "specs" / "Words.antt").read_text()
    return {word: [letter, *of.split()] for word, letter, of in re.findall(r"^(\w+) = encoding\.(\w+) (.+)$", text.replace("(pos 1)", "1"), re.M)}


def constant(word):
    return re.sub(r"(?<=[a-z])(?=[A-Z])", "_", word).upper()


def code(of):
    text = of if isinstance(of, str) else f"{of[0]}({', '.join(of[1:])})"
    return re.sub(r"(\w+)\.(?=\w)", lambda kind: f"{TYPE_OF[kind[1]]}::", text)


def letter(of):
    """An operand as the table has it."""
    if isinstance(of, str):
        return constant(of) if of in letters() else of
    slot = {"Z": "RegisterSlot::", "Implied": "RegisterSlot::", "At": "PointerSlot::"}.get(of[0], "")
    return code([of[0], slot + of[1], *of[2:], *["0"] * (of[0] == "Z")])


class Template:
    """The operands of a row: their order, the widths of reg and rm, and the last ones."""

    def __init__(self, operands):
        self.reg, self.of_opcode, self.rm, self.last, order = "B", False, None, [], []
        for operand in operands[1:] if isinstance(operands, list) else []:
            head, *of = letters().get(operand, [operand]) if isinstance(operand, str) else operand
            of = [each.removeprefix("width.") for each in of]
            if head in MM:
                head, *of = MM[head]
            if head in ("E", "U"):
                self.rm = of[0]
                order.append("E")
            elif head == "G" or head == "A" or (head == "Z" and of[0] == "Reg"):
                self.reg, self.of_opcode = of[-1], head == "Z"
                order.append("G" if head == "G" else "R")
            else:
                order.append("IX"[len(self.last)])
                self.last.append((head, letter(operand)))
        self.order = "_".join(order) or "NO"

    def is_plain(self):
        return len(self.last) < 2 and all(head in AT_ONCE for head, _ in self.last)

    def __str__(self):
        last, extra = [*(text for _, text in self.last), "ABSENT", "ABSENT"][:2]
        return f"{self.order} {self.reg} {str(self.of_opcode).lower()} {self.rm or 'B'} {last}, {extra}"


def names(each, numbers):
    listed = ", ".join("0" if name == "none" else str(numbers[name]) for name in each.named())
    return {"Name": f"Name({listed})", "by_reg": f"ByReg([{listed}])", "by_rm": f"ByRm([{listed}])"}.get(each.names[0], each.names)


def entry(each, numbers):
    """A row as the table has it."""
    when = each.when if isinstance(each.when, str) else f"Opcode({numbers[each.when[1]]})"
    at, operands, sizes = f"{each.place} Reg::{code(each.reg)}, Rm::{code(each.rm)}; {when}", Template(each.operands), " ".join(each.sizes)
    if each.error:
        return f"refused!({at}; {operands}; {each.error})"
    if each.names is None:
        return f"suffixed!({at}; {operands}; {sizes})"
    change = "" if each.change == "Keeps" else f"; {each.change}"
    return f"read!({at}; {names(each, numbers)}; {operands}; {sizes}{change})"


def noted(text, note):
    return f"{text}, // {note}" if note else f"{text},"


def placed(function, forms):
    """Where the rows of each form are in the table, the first and the one after the last; a form that has none has the first row."""
    every, place, answer = rows_of(function), 1, {}
    for form in forms:
        here = len(every.get(form, []))
        answer[form] = (place, place + here) if here else (0, 1)
        place += here
    return answer


def by_ordinal(forms, text_of):
    """A line of a table for each ordinal. `forms` has the forms in their order, each with whether it carries a number."""
    return [f"    {text_of(form)}, // {form}" for form, carries in forms.items() for _ in range(CARRIED if carries else 1)]


def tables(function, forms, numbers):
    """The constants of a table of rows, for operands that have a word; the rows of all forms, after that of a form that has none; and where the rows of
    each ordinal are."""
    every, spans = rows_of(function), placed(function, forms)
    operands = {text for each in every.values() for row in each for _, text in Template(row.operands).last}
    constants = [f"{constant(word)}: OperandEncoding = {code(of)};" for word, of in letters().items() if constant(word) in operands]
    rows = [noted(entry(every["f"][0], numbers), "")]
    for form, each in ((form, each) for form in forms for each in every.get(form, [])):
        rows.append(noted(entry(each, numbers), " ".join([name_of(form), *("-" if name == "none" else name for name in each.opcodes())])))
    return constants, {"ROWS": [f"    {row}" for row in rows], "SPANS": by_ordinal(forms, spans.get)}


# ---- Heads and cells ----


def head(form, first):
    """What follows the opcode byte, and the row."""
    if form in GROUPED:
        return "Search 0" if form in SEARCHED else "Cells 0"
    if form not in rows_of(PLAIN):
        sys.exit(f"tables.py: {form} has no rows in specs/Rows.antt of x86_operands")
    row = rows_of(PLAIN)[form][0]
    is_direct = row.is_sure() and row.reg == "Any" and row.names == "Own"
    return f"{'Nothing' if row.place == 'Bare' else 'Fields'} {first}" if is_direct else "Search 0"


def heads(forms):
    spans = placed(PLAIN, forms)
    return ["    head!(Search 0), // the number 0, which no form has", *by_ordinal(forms, lambda form: f"head!({head(form, spans[form][0])})")]


def cell(rows, first, memory, reg, numbers):
    """The row that is surely first, and its operation."""
    for at, row in enumerate(rows):
        if row.is_in(memory) and row.is_at(reg) and (row.is_named(reg, 0) or row.names[0] == "by_rm"):
            if not row.is_sure() or row.names == "Own":
                break
            if row.names[0] == "by_rm":
                return f"cell!({first + at} 0)", "by rm"
            name = row.named()[reg if row.names[0] == "by_reg" else 0]
            return f"cell!({first + at} {numbers[name]})", name
    return "cell!(0 0)", "-"


def cells(forms, numbers):
    """Where the cells of each form are, and the cells of each group that has some: of the memory forms by reg, then of the register forms."""
    spans, of = placed(GROUPS, forms), [form for form in forms if form in GROUPED - SEARCHED]
    places = {form: 1 + at for at, form in enumerate(of)}
    lines = ["    [", *["        cell!(0 0),"] * 16, "    ],"]
    for form in of:
        here = [cell(rows_of(GROUPS)[form], spans[form][0], memory, reg, numbers) for memory in (True, False) for reg in range(8)]
        lines += ["    [", *(f"        {noted(*each)}" for each in here), f"    ], // {name_of(form)}"]
    return {"CELLS_AT": ["    0, // the number 0, which no form has", *by_ordinal(forms, lambda form: places.get(form, 0))], "CELLS": lines}
