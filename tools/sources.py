"""What several scripts read: what the definitions of crates/ are called, where they are, and which names each of them uses; the worked lines; the
built programs; and the packages of tools."""

import functools
import itertools
import os
import re
import shutil
import subprocess
import sys
import tempfile
from pathlib import Path

TOP = Path(__file__).resolve().parent.parent
CRATES = TOP / "crates"
WORD = re.compile(r"(?<![\w.\-'])[A-Za-z_][\w\-']*(?:\.[A-Za-z_][\w\-']*)*")
KINDS = r"(?:abbrev|unfoldable|pub|record|data)"
# The first line of a definition: its kinds, its name, and its arguments or its type.
HEAD = re.compile(rf"( *)((?:{KINDS} )*)([A-Za-z_][\w\-']*)(?= :| [({{])")
# Variables: those of a type, and what the left side of an equation has, with the names of cases, which are of types that the definition names.
VARIABLES = re.compile(r"[({]([\w\-' ]+) : |λ ([^.]*)\.|\blet (\w+) =|^ *[\w\-']+ ([^=\n]*?) =(?: |$)", re.M)
KEYWORDS = set("abbrev unfoldable pub record data module where let in use as if then else λ _ Type fn ensures ghost impl trait type".split())


class Missing(Exception):
    """A name that the sources don't define as they should."""


# The programs, as the gate or a start left them, or those that two variables name; and the starts that build them.
PROGRAM = Path(os.environ.get("PROGRAM") or CRATES / "x86/out/x86").resolve()
SHOW = Path(os.environ.get("SHOW") or CRATES / "x86_show/out/x86_show").resolve()
STARTS = {PROGRAM: "./x86 list", SHOW: "./show"}


@functools.cache
def packages():
    """Debian's package of each tool that may be missing."""
    return dict(line.split() for line in (TOP / "tools" / "packages").read_text().splitlines())


def lacking(*tools):
    """The first of these tools that is missing, by its package or by what builds it; or None."""
    missing = next((tool for tool in tools if shutil.which(tool) is None), None)
    if missing in STARTS:
        return f"{missing} ({STARTS[missing]} </dev/null builds it)"
    return f"the package {packages()[missing]}" if missing in packages() else missing


def skip(lacks, what):
    """Says what isn't tried for want of something, which the gate counts."""
    print(f"{Path(sys.argv[0]).stem}: skipped, {lacks} is missing: {what}", file=sys.stderr)


def counted(command, given, *options):
    """A run of a command over an open file by callgrind, and the numbers of its report by their names."""
    with tempfile.NamedTemporaryFile() as out:
        words = ["valgrind", "--tool=callgrind", f"--callgrind-out-file={out.name}", *options, *command]
        ran = subprocess.run(words, stdin=given, capture_output=True, text=True, errors="replace")
    return ran, {name: int(count.replace(",", "")) for name, count in re.findall(r"(\w+): +([\d,]+)", ran.stderr)}


# The code whose changes make a figure older: all but the tests.
CODE = ["--", "crates/*/src/*.rt", ":!crates/uses/src/tests"]


def git(*words):
    """What git prints, or nothing without it."""
    return subprocess.run(["git", *words], cwd=TOP, capture_output=True, text=True).stdout.strip() if shutil.which("git") else ""


@functools.cache
def source_texts(*folders):
    """The text of each file of code, proofs or edits in these folders of the crates."""
    files = (path for folder in folders for path in CRATES.glob(f"*/{folder}/**/*") if path.suffix in (".rt", ".antt", ".edit"))
    return {path: path.read_text() for path in sorted(files)}


def short(path):
    return str(path.relative_to(CRATES))


@functools.cache
def errors():
    """The text of each error of a decode, by its name."""
    return dict(re.findall(r'^description_of (\w+) = codes "(.*)"$', (CRATES / "x86_fields/specs/Errors.antt").read_text(), re.M))


def error_macros():
    """The options by which a C compiler knows the errors by their names."""
    return [f'-D{name}="{text}"' for name, text in errors().items()]


def worked_lines():
    """The worked lines of the tests: an encoding in hex digits, and what is listed of it."""
    line = re.compile(r'^(?:.*")?((?:[0-9a-f]{2} ?)+) => (\d+ .*?)(?:";)?$', re.M)
    return [found for path in sorted((CRATES / "uses" / "src" / "tests").glob("*.rt")) for found in line.findall(path.read_text())]


LEGACY, REX = bytes.fromhex("66 67 f0 f2 f3 26 2e 36 3e 64 65"), bytes(range(0x40, 0x50))
ESCAPES = {b"\x0f\x38": "Of38", b"\x0f\x3a": "Of3a", b"\x0f": "Of", b"": "One"}


def parts_of(code):
    """The run of prefixes that some code begins with, its opcode map, and what is after the escape."""
    rest = code.lstrip(LEGACY + REX)
    escape = next(it for it in ESCAPES if rest.startswith(it))
    return code[: len(code) - len(rest)], ESCAPES[escape], rest[len(escape) :]


def code_of(path):
    """The section .text of an ELF file, or nothing."""
    with tempfile.TemporaryDirectory() as folder:
        raw = Path(folder) / "raw"
        subprocess.run(["objcopy", "-O", "binary", "-j", ".text", path, raw], stderr=subprocess.DEVNULL)
        return raw.read_bytes() if raw.exists() else b""


def print_row(*cells):
    """Prints the row of a table, a number with commas."""
    print("| " + " | ".join(f"{cell:,}" if isinstance(cell, int) else str(cell) for cell in cells) + " |", flush=True)


# What lists bytes.
OBJDUMP = "objdump -D -w -b binary -m i386:x86-64 -M intel".split()


@functools.cache
def objdump_version():
    return subprocess.run(["objdump", "--version"], stdout=subprocess.PIPE, text=True).stdout.split("\n")[0].split()[-1]


def dumped(*words, folder=None):
    """The lines of objdump, each as its address, its bytes and its text. Ends where objdump fails."""
    with subprocess.Popen(["objdump", *words], cwd=folder, stdout=subprocess.PIPE, text=True) as ran:
        for line in ran.stdout:
            if line.count("\t") == 2:
                address, code, text = line.split("\t")
                yield int(address.strip(" :"), 16), bytes.fromhex(code), text.strip()
    if ran.returncode != 0:
        sys.exit(f"objdump ended with status {ran.returncode}: {' '.join(map(str, words))}")


def write(texts_of):
    """Writes the texts that a call has for files, or with the word `--check` says which files have other texts. Ends the script."""
    is_check = sys.argv[1:] == ["--check"]
    if sys.argv[1:] and not is_check:
        sys.exit(sys.modules["__main__"].__doc__)
    texts = texts_of()
    other = [path for path, text in texts.items() if not path.is_file() or path.read_text() != text]
    for path in other:
        print(f"{path.relative_to(TOP)} isn't what {Path(sys.argv[0]).name} writes" if is_check else f"wrote {path.relative_to(TOP)}")
        if not is_check:
            path.write_text(texts[path])
    sys.exit(1 if is_check and other else 0)


def anchor(heading):
    """What a link names of a heading."""
    return re.sub(r"[^\w\- ]", "", heading.lower()).replace(" ", "-")


def section(text, heading):
    """What is below a heading, up to the next one, or nothing."""
    parts = re.split(rf"^## {heading}.*\n", text, maxsplit=1, flags=re.M)
    return parts[1].split("\n## ")[0] if len(parts) > 1 else ""


def reasons():
    """The names of the reasons for which zydis answers otherwise, in their order."""
    return dict.fromkeys(re.findall(r'^    \{"([^"]+)", "', (TOP / "tools" / "judge" / "reasons.c").read_text(), re.M))


def reasons_without_rows(of_show):
    """A sentence for each reason of a judge of tools/compare without a row in its section of a page, and for each row without a reason."""
    sections = ("docs/DIFFERENCES.md", "Other answers than zydis", reasons()), ("docs/USAGE.md", "The listing for people", of_show)
    for page, heading, names in sections:
        rows = re.findall(r"^\| (?!reason )([^|-][^|]*?) \|", section((TOP / page).read_text(), heading), re.M)
        yield from (f"{page}: a reason of tools/judge without a row, or a row without one: {name}" for name in sorted({*rows} ^ {*names}))


def indent(line):
    return len(line) - len(line.lstrip(" "))


def enclosing(lines, number):
    """The numbers of the lines that a line is in, the innermost first: each is indented less than all after it."""
    depth = indent(lines[number])
    for at in range(number - 1, -1, -1):
        if lines[at].strip() and not lines[at].lstrip().startswith("--") and indent(lines[at]) < depth:
            depth = indent(lines[at])
            yield at


def is_part(lines, number):
    """Whether a line is in a record or a data, which make it a field or a case."""
    return any(re.search(r"\b(record|data)\b", lines[at]) for at in itertools.islice(enclosing(lines, number), 1))


def module_file(words):
    """The file of a module of specs/ or of proofs/, or None for a library's."""
    return f"{'/'.join(words)}.antt" if (CRATES / words[0]).is_dir() else None


@functools.cache
def type_file(crate, name):
    """The file of src/ that has a type."""
    for path, text in source_texts("src").items():
        if CRATES / crate in path.parents and re.search(rf"^(?:pub(?:\([a-z]+\))? )?(?:struct|enum|trait|type) {name}\b", text, re.M):
            return short(path)
    raise Missing(f"{crate}/src has no type {name}")


class Module:
    """A file of specs/ or src/: what it imports, and what it defines, each with its lines."""

    def __init__(self, path, lines=None):
        self.path = path
        if lines is None and not (CRATES / path).is_file():
            raise Missing(f"there is no file {path}")
        self.lines = lines or (CRATES / path).read_text().split("\n")
        self.imports = {}
        self.passed_on = set()
        self.read_imports("\n".join(self.lines))
        self.spans = self.find_definitions() if lines or path.endswith(".antt") else {}
        # the data that each case is of
        bodies = ((name, self.lines[first + 1 : end]) for name, (first, end) in self.spans.items() if re.search(r"\bdata ", self.lines[first]))
        self.cases = {match[1]: name for name, lines in bodies for line in lines if (match := re.match(r" *(\w+) : ", line))}

    def read_imports(self, text):
        for kind, target, names, alias in re.findall(r"^(pub |ghost )?use Rattle\.([\w.]+?)(?:\.\{([^}]*)\}| as (\w+));?$", text, re.M):
            words = target.split(".")
            if alias:
                self.imports[alias] = (words, "*")
            for name in re.split(r",\s*", names.strip().rstrip(",")) if names else []:
                own, _, renamed = name.partition(" as ")
                self.imports[renamed or own] = (words, own)
                if kind == "pub ":
                    self.passed_on.add(own)

    def find_definitions(self):
        """The first line of each definition, and the one after its last."""
        spans = {}
        for number, line in enumerate(self.lines):
            head = HEAD.match(line)
            if not head or head[3] in KEYWORDS or not head[2] or is_part(self.lines, number):
                continue
            if head[3] in spans:
                raise Missing(f"{self.path} defines {head[3]} twice")
            end = number + 1
            while end < len(self.lines) and self.lines[end].strip() and self.continues(head, end):
                end += 1
            spans[head[3]] = (number, end)
        return spans

    def continues(self, head, number):
        """Whether a line belongs to the definition above it: it is indented more, closes it, says what it unfolds, is an equation of it, or a comment on
        such a line."""
        line = self.lines[number]
        if line.lstrip().startswith("--") and indent(line) == len(head[1]):
            return number + 1 < len(self.lines) and self.continues(head, number + 1)
        return indent(line) > len(head[1]) or line.strip() == "}" or re.match(rf" *(?:unfolding|{re.escape(head[3])})(?![\w\-'])", line)

    def heads_above(self, number):
        """The heads of the modules that a line is in, the outermost first."""
        heads = (at for at in enclosing(self.lines, number) if self.lines[at].lstrip().startswith("module _"))
        ends = ((at, next(end for end in range(at, number) if self.lines[end].endswith(" where"))) for at in heads)
        return [self.lines[at : end + 1] for at, end in ends][::-1]

    def text(self, name):
        if name not in self.spans:
            raise Missing(f"{self.path} doesn't define {name}")
        return self.lines[slice(*self.spans[name])]


@functools.cache
def module(path):
    return Module(path)


@functools.cache
def definition(path, name):
    """Where a name is defined that a module exports: in its file, or in one that it passes on."""
    file = module(path)
    name = file.cases.get(name, name)
    if name in file.spans:
        return path, name
    if name in file.passed_on:
        words, own = file.imports[name]
        return definition(module_file(words), own)
    raise Missing(f"{path} doesn't define {name}")


def resolved(path, word):
    """What a word of a file is: ('spec', file, name), ('type', file, name), ('std', name), or None for a variable."""
    first, _, rest = word.partition(".")
    file = module(path)
    if first in file.spans or first in file.cases:
        return "spec", path, file.cases.get(first, first)
    if first not in file.imports:
        return None
    words, own = file.imports[first]
    if not (CRATES / words[0]).is_dir():
        return "std", own
    if "declared" in words or "contracts" in words:
        name = words[-2] if words[-1].startswith("The") else own
        return ("type", type_file(words[0], name), name) if words[-1] != "TheConstants" else ("type", path, own)
    if own == "*":
        return ("spec", *definition(module_file(words), rest.split(".")[0])) if rest else None
    target = module_file(words)
    return resolved(target, own) if own in module(target).passed_on else ("spec", *definition(target, own))


def uses(path, lines):
    """What some lines of a file use: a definition, with the modules that it is in, or the clauses of a function."""
    text = re.sub(r"(^|\s)(?:--|//).*", r"\1", "\n".join(lines), flags=re.M)
    text = re.sub(r"(?<=[{;])\s*\w+ = ", " ", re.sub(r'"[^"]*"', "", text))
    variables = {name for names in VARIABLES.findall(text) for name in WORD.findall(" ".join(names))}
    found = dict.fromkeys(resolved(path, word) for word in WORD.findall(text) if word.split(".")[0] not in variables)
    return [at for at in found if at]
