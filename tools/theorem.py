#!/usr/bin/env python3
"""Holds docs/THEOREM.md and its index, docs/DEFINITIONS.md, against the sources, and writes what they have of these.

    python3 tools/theorem.py            writes the pages
    python3 tools/theorem.py --check    says whether the pages are what it would write

The pages are edited in place. Each block of code in THEOREM.md is of the definitions and functions that begin in it: the script writes them as they are
in the sources, of a law with all clauses, of another function with those that are there. So a new one is added by its first line. In DEFINITIONS.md it
writes the names in the lines `- [FILE](..): ..`: those of the file that a definition of the pages uses or a text names, and that THEOREM.md doesn't
show. A name that is new there is put into the last line of its file. `LAW.CLAUSE` is a law of which one clause counts. The rows of **Linked** have the
names that aren't shown, or `all` of a file. The index has where each name of both pages is. `Pages.check` says what the pages must have.
"""

import functools
import re
import sys

sys.dont_write_bytecode = True
from sources import CRATES, TOP, Missing, Module, anchor, indent, module, section, short, source_texts, uses, write

THEOREM, DEFINITIONS = PAGES = "docs/THEOREM.md", "docs/DEFINITIONS.md"
LISTED = re.compile(r"- \[(.*?)\]\(\.\./crates/.*?\): (.*)")
LINKED = re.compile(r"\| \[(.*?)\]\(\.\./crates/[^#]*?\) \| (all|`.*?`) \| .* \|")
INDEX = "| name | in | source |"
MOST = 400
# The longest line of code in THEOREM.md, which breaks longer ones of the sources.
WIDE = 136
# Where Notation says which fields have the name of a function.
TWICE = re.compile(r"Fields that have the name of a function: ([^.]*)\.")
# Words of the text that are no names of src/ or specs/.
OTHER = set("strict data record run rows x86 list main h p f e x y r c d n k s t m v w i l unfolding".split())


def block(path, names):
    """The definitions, with the heads of the modules that they are in."""
    file, out, inside = module(path), [], []
    for name in names:
        above = file.heads_above(file.spans[name][0])
        for head in above:
            if head not in inside:
                out += head
        inside = above
        out += file.text(name)
    return out


def wrapped(line):
    """A line of code, in two or more where it is long: broken where the fewest brackets are open, at an arrow, a product or the like."""
    if len(line) <= WIDE:
        return [line]
    depth, places = 0, []
    for at, letter in enumerate(line[:WIDE]):
        depth += (letter in "({") - (letter in ")}")
        if at > WIDE // 3 and (line[at - 1 : at + 1] in ("→ ", "; ") or re.match(r" (×|\+\+|&&|else|then) ", line[at:])):
            places.append((depth, -at))
        elif at > WIDE // 3 and line[at - 2 : at + 1] == ") (":
            places.append((depth - 0.5, -at))
    if not places:
        return [line]
    at = -min(places)[1]
    return [line[:at].rstrip(), *wrapped(" " * (indent(line) + 4) + line[at:].strip())]


def joined(lines):
    """The lines of a value, of which short ones are in one line as far as there is room."""
    out = []
    for line in lines:
        if out and line.endswith(";") and out[-1].endswith(";") and indent(line) == indent(out[-1]) and len(out[-1]) + len(line.strip()) < 114:
            out[-1] += " " + line.strip()
        else:
            out.append(line)
    return out


def owner(path, name):
    """The type whose method this is, or nothing."""
    above, *below = re.split(rf"^ +pub fn {name}\b", (CRATES / path).read_text(), maxsplit=1, flags=re.M)
    return re.findall(r"^impl(?:<.*?>)? (\w+)", above, re.M)[-1] + "::" if below else ""


def in_one_line(lines):
    """The lines of a function, whose arguments are in one line."""
    return re.sub(r"\(\n((?: +.*,\n)+) *\) ->", lambda found: "(" + " ".join(found[1].split()).rstrip(",") + ") ->", "\n".join(lines)).split("\n")


def item(path, name, shown=()):
    """The lines of a function of src/ without its body, with the clauses that are shown or all, or of another item whole."""
    lines = (CRATES / path).read_text().split("\n")
    starts = [at for at, line in enumerate(lines) if re.match(rf" *pub (?:fn|struct|enum|trait) {name}\b", line)]
    if len(starts) != 1:
        raise Missing(f"{path} has {len(starts)} items that are called {name}")
    first, margin = lines[starts[0]], indent(lines[starts[0]])
    ends = ("{", "{}") if "pub fn" in first else ("}",)
    end = next(at for at in range(starts[0] + 1, len(lines)) if lines[at].strip() in ends and indent(lines[at]) == margin)
    kept, keep = [], True
    for line in lines[starts[0] : end + ("pub fn" not in first)]:
        clause = re.match(r" *ensures (?:(\w+) )?\{", line)
        keep = not shown or clause[1] in shown if clause else keep
        kept += [line[margin:]] if keep else []
    return kept


@functools.cache
def homes():
    """The files of specs/ that define each name which others may use."""
    found = {}
    for of in map(module, map(short, source_texts("specs"))):
        for name in (name for name, (first, _) in of.spans.items() if re.search(r"\bpub\b", of.lines[first])):
            found.setdefault(name, []).append(of.path)
    return found


def function_files(name, clauses):
    """The files of src/ that have a function with these clauses."""
    found = [short(path) for path, text in source_texts("src").items() if re.search(rf"^ *pub fn {name}\b", text, re.M)]
    return [path for path in found if all(f"ensures {clause} {{" in "\n".join(item(path, name)) for clause in clauses)]


def shown_in(lines):
    """What begins in a block of code: a file with the names of definitions, or with a function and its clauses."""
    parts, firsts = [], {first: name for name, (first, _) in Module("", lines).spans.items()}
    for at, line in enumerate(lines):
        function = re.match(r"pub fn (\w+)", line)
        name = function[1] if function else firsts.get(at)
        if name is None:
            continue
        clauses = re.findall(r"^ *ensures (\w+) \{", "\n".join(lines[at + 1 :]).split("\npub ")[0], re.M) if function else None
        paths = function_files(name, clauses) if function else homes().get(name, [])
        if len(paths) != 1:
            raise Missing(f"{THEOREM} shows {name}, which {len(paths)} files define: {' '.join(paths)}")
        if not function and parts and parts[-1][0] == paths[0]:
            parts[-1][1].append(name)
        else:
            parts.append((paths[0], [name], () if "/laws" in paths[0] else clauses))
    return parts


class Part:
    """A part of a page: a line of it, or what is written of the sources, with the lines that are there now, a file, names in it and a link to the place."""

    def __init__(self, kind, lines, path="", names=(), link=""):
        self.kind, self.lines, self.path, self.names, self.link = kind, lines, path, list(names), link


def parts_of(page):
    """The parts of a page, and the headings by their links."""
    parts, headings, heading = [], {}, ""
    for line in (TOP / page).read_text().splitlines():
        heading = line.lstrip("# ") if line.startswith("#") else heading
        link = f"{page.split('/')[1]}#{anchor(heading)}"
        headings[link] = f"{page[5:-3]}: {heading}".replace("`", "")
        listed, linked = LISTED.fullmatch(line), LINKED.fullmatch(line)
        if line.startswith("    "):
            if parts[-1].kind != "code":
                parts.append(Part("code", [], link=link))
            parts[-1].lines.append(line[4:])
        elif line == INDEX or parts and parts[-1].kind == "index":
            parts.append(Part("index", [line]))
        elif listed or linked:
            found = listed or linked
            names = ["*"] if found[2] == "all" else re.findall(r"`(.*?)`", found[2])
            parts.append(Part("listed" if listed else "linked", [line], found[1], names, link))
        else:
            parts.append(Part("text", [line]))
    return parts, headings


class Pages:
    def __init__(self):
        read = {page: parts_of(page) for page in PAGES}
        self.parts = {page: parts for page, (parts, _) in read.items()}
        self.headings = read[THEOREM][1] | read[DEFINITIONS][1]
        every = [part for page in PAGES for part in self.parts[page]]
        self.listed = [part for part in every if part.kind == "listed" and part.path.endswith(".antt")]
        # Definitions, types, and members of traits and functions, each by its file and name, with a link to where it is shown.
        self.places, self.linked, self.types, self.members = {}, {}, {}, {}
        # The fields of shown records and structs, names of std, and what is used of the files of DEFINITIONS.md.
        self.fields, self.std, self.used = set(), set(), {part.path: set() for part in self.listed}
        todo = self.read(every)
        named = set(re.findall(r"`([\w\-]+)", "\n".join(line for part in every if part.kind == "text" for line in part.lines)))
        todo += [(part.path, name) for part in self.listed for name in part.names if name in named and name in module(part.path).spans]
        self.follow(todo)
        self.place()

    def read(self, every):
        """Notes what the pages have of the sources, and answers the definitions that this uses."""
        todo = []
        for part in every:
            part.shown = shown_in(part.lines) if part.kind == "code" else []
            for path, names, clauses in part.shown:
                if clauses is None:
                    self.places |= {(path, name): part.link for name in names}
                    todo += [(path, name) for name in names]
                else:
                    todo += self.read_item(path, names[0], clauses, part.link)
            if part.kind == "linked":
                self.linked |= {(part.path, name): part.link for name in part.names}
                for name in part.names if part.names != ["*"] else []:
                    module(part.path).text(name)
            elif part.kind == "listed" and part.path.endswith(".rt"):
                calls = (name.partition(".") for name in part.names)
                todo += [at for name, _, clause in calls for at in self.read_item(part.path, name, clause.split(), part.link)]
        return todo

    def read_item(self, path, name, clauses, link):
        """Notes an item of src/, and answers the definitions that its clauses use."""
        lines = item(path, name, clauses)
        kind = re.search(r"\bpub (\w+)", lines[0])[1]
        if kind == "fn":
            self.members.setdefault((path, owner(path, name) + name), link)
        else:
            self.types[path, name] = link
        if kind == "struct":
            self.fields |= set(re.findall(r"^    pub(?:\(\w+\))? (\w+):", "\n".join(lines), re.M))
        for member in re.findall(r"^    (?:ghost|fn) (\w+)", "\n".join(lines), re.M) if kind == "trait" else []:
            self.members.setdefault((path, f"{name}.{member}"), link)
        return self.note(uses(path, lines))

    def follow(self, todo):
        """Finds what the definitions use, until all is shown or linked."""
        seen, users = set(), {}
        while todo:
            path, name = key = todo.pop()
            if key in seen:
                continue
            seen.add(key)
            if key not in self.places:
                if key in self.linked or (path, "*") in self.linked:
                    self.places[key] = None
                    continue
                if path not in self.used:
                    raise Missing(f"{name} is neither shown nor linked: {path}, used by {users.get(key, 'a clause')}")
                self.used[path].add(name)
            if re.match(r" *(pub )?record ", module(path).text(name)[0]):
                self.fields |= {match[1] for line in module(path).text(name) if (match := re.match(r" +(?:pub )?(\w+) : ", line))}
            for other in (found := self.note(uses(path, block(path, [name])))):
                users.setdefault(other, name)
            todo += found

    def note(self, found):
        """The definitions among what was found; types and names of std are kept."""
        for at in found:
            if at[0] == "type":
                self.types.setdefault(at[1:], None)
            elif at[0] == "std":
                self.std.add(at[1])
        return [at[1:] for at in found if at[0] == "spec"]

    def place(self):
        """Puts each name that is used into the lines that have it, or into the last line of its file."""
        for part in self.listed:
            of = [other for other in self.listed if other.path == part.path]
            new = self.used[part.path] - {name for other in of for name in other.names} if part is of[-1] else set()
            part.names = [name for name in module(part.path).spans if name in self.used[part.path] and (name in part.names or name in new)]
            if not part.names:
                raise Missing(f"nothing uses what {part.path} defines: take its line out of {DEFINITIONS}")
            for name in part.names:
                self.places.setdefault((part.path, name), part.link)

    def index(self):
        """A row for each name: where it is shown, and its file and line."""
        rows = [INDEX, "|---|---|---|"]
        keys = {*self.places, *self.types, *self.members, *(key for key in self.linked if key[1] != "*")}
        for path, name in sorted(keys, key=lambda key: (key[1].lower(), key)):
            place = self.places.get((path, name)) or self.types.get((path, name)) or self.members.get((path, name))
            shown = f"[{self.headings[place]}]({place})" if place else "linked"
            rows.append(f"| `{name}` | {shown} | [{path}](../crates/{path}#L{line_of(path, name)}) |")
        return rows

    def written(self, part):
        """The lines of a part as the sources have them."""
        if part.kind == "listed":
            return [f"- [{part.path}](../crates/{part.path}): " + ", ".join(f"`{name}`" for name in part.names)]
        if part.kind == "index":
            return self.index() if part.lines == [INDEX] else []
        out = [] if part.kind == "code" else part.lines
        for path, names, clauses in part.shown:
            code = joined(block(path, names)) if clauses is None else in_one_line(item(path, names[0], clauses))
            out += [("    " + line).rstrip() for it in code for line in wrapped(it)]
        return out

    def text(self, page):
        return "\n".join(line for part in self.parts[page] for line in self.written(part)) + "\n"

    def names(self):
        whole = [path for path, name in self.linked if name == "*"]
        return {name for _, name in [*self.places, *self.types, *self.linked]} | {name for path in whole for name in module(path).spans}

    def check(self, texts):
        """A name that a definition or a clause uses is shown, linked, or explained in Notation, and has one definition."""
        for path, name in sorted({*self.places, *self.types}, key=lambda key: key[1]):
            others = {path, *homes().get(name, ()), *(at for at, other in [*self.places, *self.types] if other == name)}
            if len(others) > 1:
                raise Missing(f"{name} has two definitions: {' and '.join(sorted(others))}")
        notation = "".join(section(text, "Notation") for text in texts.values())
        self.check_fields(notation)
        explained = set(re.findall(r"[\w\-]+", "".join(re.findall(r"`[^`]*`", notation))))
        for name in sorted(self.std - explained):
            raise Missing(f"Notation doesn't explain {name}, a name of std")
        self.check_text(texts, explained)
        check_clauses({page: texts.get(page) or (TOP / page).read_text() for page in (THEOREM, "docs/PROVED.md", "README.md")})
        if (count := len(texts[THEOREM].splitlines())) > MOST:
            raise Missing(f"{THEOREM} has {count} lines, and may have {MOST}")

    def check_fields(self, notation):
        """A field that is shown has the name of a definition only where Notation says so."""
        said = set(re.findall(r"`(\w+)`", "".join(TWICE.findall(notation))))
        twice = self.fields & (self.names() | self.std)
        for name in sorted(twice - said):
            raise Missing(f"a field has the name of a definition, {name}, and Notation doesn't say so")
        for name in sorted(said - twice):
            raise Missing(f"Notation says that fields have the name of a function {name}, and none has")

    def check_text(self, texts, explained):
        known = self.names() | explained | OTHER | self.fields | fields_and_functions(texts)
        for page, text in texts.items():
            prose = "\n".join(line for line in text.splitlines() if not line.startswith("    "))
            for word in re.findall(r"`([A-Za-z_][\w\-]*)(?:`| )", prose):
                if word not in known and not re.fullmatch(r"[0-9a-f]{2}", word):
                    raise Missing(f"{page} has the name {word} in its text, which is neither shown nor linked")


def line_of(path, name):
    """The line of a file where a name is defined: a definition of specs/, a type, a function, or a member of a trait."""
    if path.endswith(".antt") and (found := module(path).spans.get(name)):
        return found[0] + 1
    word = re.escape(re.split(r"::|\.", name)[-1])
    lines = module(path).lines
    return next((at for at, line in enumerate(lines, 1) if re.search(rf"\b(?:fn|struct|enum|trait|type|ghost|const|static) {word}\b", line)), 1)


def fields_and_functions(texts):
    """The fields and cases of what the pages show, the functions of src/, and the crates."""
    code = "\n".join(line for text in texts.values() for line in text.splitlines() if line.startswith("    "))
    found = set(re.findall(r"(?:pub )?(\w+) ?: ", code)) | {path.name for path in CRATES.iterdir()}
    return found | {word for text in source_texts("src").values() for word in re.findall(r"(?:\b(?:fn|trait|struct|enum|const) |^    )(\w+)", text, re.M)}


def check_clauses(texts):
    """Each `call.clause` in a table of these pages is a clause of a function of that name."""
    of = {}
    for part in (part for text in source_texts("src").values() for part in re.split(r"\bfn (?=\w)", text)[1:]):
        head = re.split(r"^ *\{\}?$", part, maxsplit=1, flags=re.M)[0]
        of.setdefault(re.match(r"\w+", head)[0], set()).update(re.findall(r"^ *ensures (\w+) \{", head, re.M))
    for page, text in texts.items():
        table = "\n".join(line for line in text.splitlines() if line.startswith("|"))
        for call, clause in re.findall(r"`([a-z_]+)\.([a-z_]+)`", table):
            # `answers.accepted` is a field of the clause `answers`, and no function with clauses
            if clause not in (of.get(call) or ({clause} if page != THEOREM else ())):
                raise Missing(f"{page} names {call}.{clause}, and no call has that clause")


def written():
    pages = Pages()
    texts = {page: pages.text(page) for page in PAGES}
    pages.check(texts)
    return {TOP / page: text for page, text in texts.items()}


try:
    write(written)
except Missing as missing:
    sys.exit(f"theorem: {missing}")
