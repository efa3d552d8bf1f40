#!/usr/bin/env python3
"""calls.py: writes docs/CALLS.md from the sources, a line for each public call of a library: its signature, and the first sentence of its comment.

    python3 tools/calls.py             writes the page
    python3 tools/calls.py --check     the status is 1 where the page isn't what the script writes

Public is what another crate can name: a function of the root or of a public module, or one that these re-export; a method of such a type; and a call of
such a trait. Calls that implement a trait are the trait's. A law is a call that does nothing, whose contract is the law.
"""

import functools
import re
import sys
import textwrap

sys.dont_write_bytecode = True
from sources import CRATES, TOP, write

PAGE = TOP / "docs" / "CALLS.md"
HEADING = """\
# Calls

For people who look for a call. Each public call of each library is here with its signature and the first sentence of its
comment, which the source continues with conditions, units and an example. `python3 tools/calls.py` writes this page.
docs/GUIDE.md shows how the calls are used. A call of `laws` does nothing: its contract is a law, which a proof cites by
calling it.
"""
ITEM = re.compile(r"^(?P<indent> *)(?P<public>pub )?(?:final )?(?P<kind>fn|struct|enum|trait|impl|mod|use|macro_rules!)\b *(?P<rest>.*)$")
ENDS = re.compile(r"^\s*(?:requires|ensures|where)\b|[{;]\s*$")


def libraries():
    """The crates that another one uses, in the order of crates.txt. Programs and tests aren't used."""
    used = dict(re.findall(r"^(\w+):(.*)$", (TOP / "crates.txt").read_text(), re.M))
    return [name for name in used if any(name in below.split() for below in used.values())]


def comment_above(lines, number):
    """The comment of an item, without the attributes between."""
    found = []
    for line in reversed(lines[:number]):
        if line.lstrip().startswith("///"):
            found.insert(0, line.strip()[3:].strip())
        elif not line.lstrip().startswith("#["):
            break
    return found


def first_sentence(comment):
    paragraph = " ".join("\n".join(comment).split("\n\n")[0].split())
    return re.match(r"(?:.*?[.:](?= [A-Z0-9`(]|$))|.*", paragraph)[0].rstrip(":")


def signature(lines, number):
    """The text of a function up to its clauses and its body, in one line."""
    found = []
    for line in lines[number:]:
        if found and re.match(r"^\s*(?:requires|ensures|where)\b", line):
            break
        found.append(re.sub(r"\s*[{;]$", "", line).strip())
        if ENDS.search(line):
            break
    text = re.sub(r"^(?:pub )?(?:final )?fn ", "", " ".join(found))
    return re.sub(r",? \)", ")", re.sub(r"\( ", "(", text)).rstrip(" {")


class File:
    """A module: its modules, the names that it passes on, its functions, and the calls of its types and traits."""

    def __init__(self, path):
        text = path.read_text()
        self.lines = [re.sub(r"\s+$", "", line) for line in text.split("\n")]
        self.path = path
        self.modules = dict((name, bool(public)) for public, name in re.findall(r"^(pub )?mod (\w+);", text, re.M))
        self.passed = {}
        for target, names in re.findall(r"^pub use ([\w:]+?)(?:::\{([^}]*)\})?;", text, re.M):
            for name in re.split(r",\s*", names.strip().rstrip(",")) if names else [target.rsplit("::", 1)[1]]:
                whole = f"{target}::{name}" if names else target
                self.passed[name.strip()] = whole
        self.functions, self.types, self.calls = {}, set(), {}
        self.read_items()

    def read_items(self):
        owner, is_trait, is_of_trait = None, False, False
        for number, line in enumerate(self.lines):
            item = ITEM.match(line)
            if line == "}":
                owner = None
            if not item or item["kind"] in ("mod", "use", "macro_rules!"):
                continue
            name = re.match(r"\w*", item["rest"])[0]
            if item["kind"] == "impl":
                whole = re.sub(r"^<.*?>+ (?=\w)", "", item["rest"])
                is_of_trait, is_trait = " for " in whole, False
                owner = None if is_of_trait else re.match(r"\w*", whole)[0]
            elif item["kind"] in ("struct", "enum", "trait"):
                if item["public"]:
                    self.types.add(name)
                if item["kind"] == "trait":
                    owner, is_trait = name, True
            elif item["kind"] == "fn" and owner and (is_trait or item["public"]) and item["indent"] == "    ":
                self.calls.setdefault(owner, []).append((signature(self.lines, number), first_sentence(comment_above(self.lines, number))))
            elif item["kind"] == "fn" and item["public"] and not item["indent"]:
                self.functions[name] = (signature(self.lines, number), first_sentence(comment_above(self.lines, number)))


def module_file(crate, words):
    return CRATES / crate / "src" / (("/".join(words) or "lib") + ".rt")


@functools.cache
def public_items(crate):
    """The functions that another crate can name, each with its path, and the names of such types."""
    functions, types = {}, {}

    def read(words, shown):
        file = File(module_file(crate, words))
        for name, call in file.functions.items():
            functions.setdefault((tuple(words), name), (shown, call))
        for name in file.types:
            types.setdefault(name, shown)
        for name, whole in file.passed.items():
            first, *rest = [word for word in whole.split("::") if word != "crate"]
            if first in file.modules or (whole.startswith("crate::") and words):
                base = words if not whole.startswith("crate::") else []
                of = File(module_file(crate, [*base, first, *rest[:-1]]))
                if name in of.functions:
                    functions.setdefault((tuple([*base, first, *rest[:-1]]), name), (shown, of.functions[name]))
                if name in of.types:
                    types.setdefault(name, shown)
        for name, public in file.modules.items():
            if public:
                read([*words, name], [*shown, name])

    read([], [])
    return functions, types


def calls_of(crate):
    """The lines of a library: its functions, then the calls of its types and traits, then its laws."""
    functions, types = public_items(crate)
    lines, laws = [], []
    for shown, (text, sentence) in functions.values():
        line = ("::".join([*shown, text]), sentence)
        (laws if "laws" in shown else lines).append(line)
    of_types = []
    for path in sorted((CRATES / crate / "src").rglob("*.rt")):
        for owner, calls in File(path).calls.items():
            if owner in types and "laws" not in types[owner]:
                of_types += [("::".join([*types[owner], owner, text]), sentence) for text, sentence in calls]
    return [*sorted(lines), *sorted(of_types), *sorted(laws)]


def first_line(crate):
    """What the page of a crate says that it is."""
    page = (CRATES / crate / "README.md").read_text().split("\n\n")
    return " ".join(page[1].split())


def page():
    text = HEADING
    for crate in libraries():
        calls = calls_of(crate)
        if calls:
            text += f"\n## {crate}\n\n{textwrap.fill(first_line(crate), 120)}\n\n"
            text += "".join(f"- `{call}`{': ' + sentence if sentence else ''}\n" for call, sentence in calls)
    return text


if __name__ == "__main__":
    write(lambda: {PAGE: page()})
