#!/usr/bin/env python3
"""Holds what the pages print against what is so: `python3 tools/pages.py`. The checks below say what each page must have.

Examples of README.md, docs/USAGE.md and the crates' pages: in a block of indented lines, each line after `$ ` is run by the shell, in a folder with
`x86`, `show`, tools/ and examples/, and what it prints must be the lines below it. Where these are `...`, anything may be printed. In the table of
statuses the example of a row must end with its status. Standard error must be empty, but for the usage line at status 2. Each run must end within a
minute. The programs are the built ones, or those that PROGRAM and SHOW name; where one, or a tool of an example, is missing, the examples that need
it are skipped with a line.

The examples of docs/USAGE.md are run again with other addresses in place of theirs, those of a library and of a kernel, and then with a text that
comes in pieces; and its recipes over code of bash of one and of two megabytes: with twice the text no command may take more than three times the
processor time, and a second, or 8 MB more memory. What they print of such code is held against objdump (tools/recipes.py).
"""

import os
import re
import shutil
import subprocess
import sys
import tempfile
import textwrap
from pathlib import Path

sys.dont_write_bytecode = True
sys.path.append(str(Path(__file__).parent / "judge"))
import listing
import recipes
import tables
import sources
from sources import PROGRAM, SHOW, TOP, anchor, lacking, section, skip, source_texts

ENVIRONMENT = os.environ | {"SHOW": "./show"}  # for `dis`
# A command that takes longer than a minute is killed, with all that it started.
WITHIN_TIME, KILLED = ["timeout", "-s", "KILL", "60", "sh", "-c"], -9
BASE, LIBRARY, KERNEL = 0x401000, 0x7FFFF7A00000, 0xFFFFFFFF81000000
IN_ONE = """#!/bin/sh
[ "$1" != try ] || shift
exec "PROGRAM" "$@"
"""
# A program of the same answers whose text comes in pieces.
IN_PIECES = """#!/bin/sh
[ "$1" != make ] || exec "PROGRAM" "$@"
{ head -c 5; sleep 0.02; dd bs=11 status=none; } | "PROGRAM" "$@"
"""
BIG = 1000000
TIMES, SPARE_SECONDS, SPARE_KILOBYTES = 3, 1, 8192
# Where the examples of pages are: the tests, and perhaps what the guide's programs print.
TESTS = ["crates/uses/src/**/*"]
CODE = [*TESTS, "crates/uses/stdout"]
QUOTING = ["docs/ROWS.md", "docs/ENCODING.md", "docs/ARCHITECTURE.md", "CONTRIBUTING.md"]
LINKING = ["docs/THEOREM.md", "docs/DEFINITIONS.md"]
# The files of the repository, and what is beside them, a line each.
KNOWN = "".join(f"{path}\n" for path in TOP.rglob("*.*"))
NAMING = [f"docs/{page.name}" for page in sorted((TOP / "docs").glob("*.md")) if page.name != "CHANGES.md"]


def blocks(page, heading=""):
    """The blocks of indented lines of a page, or of its section with a heading, each as its lines."""
    text = (TOP / page).read_text()
    for block in re.findall(r"^ {4}.*\n(?:(?: {4}.*)?\n)*", section(text, heading) + "\n" if heading else text, re.M):
        yield re.sub("^ {4}", "", block.rstrip("\n"), flags=re.M).split("\n")


def examples(page, heading=""):
    """The commands of a page, each with the text that it prints. A command continues in lines after `> `."""
    for block in blocks(page, heading):
        if block[0].startswith("$ "):
            for command, printed in re.findall(r"^\$ (.*(?:\n> .*)*)((?:\n(?!\$ ).*)*)", "\n".join(block), re.M):
                yield command.replace("\n> ", "\n"), printed[1:].rstrip("\n")


def lacks(command):
    tools = [tool for tool in sources.packages() if re.search(rf"\b{tool}\b", command)]
    return lacking(*tools, *[SHOW] * ("./show" in command))


def run(command, folder):
    """What a command writes to standard output and to standard error, and its status, which is None where it took too long."""
    ran = subprocess.run([*WITHIN_TIME, command], cwd=folder, env=ENVIRONMENT, stdin=subprocess.DEVNULL, capture_output=True, text=True)
    return ran.stdout, ran.stderr, None if ran.returncode == KILLED else ran.returncode


def differs(page, command, what, got, wanted):
    if got != wanted:
        print(f"pages: {page}: {what} of: {command}\n--- the page\n{wanted}\n--- the run\n{got}\n---", file=sys.stderr)
    return got != wanted


def program_in(folder, in_pieces=False):
    """Puts the programs into a folder, or some of the same answers whose text comes in pieces, and the examples. As with the scripts `x86` and
    `show`, the word `try` changes nothing once the program is built."""
    script = IN_PIECES if in_pieces else IN_ONE
    for name, program in (("x86", PROGRAM), ("show", SHOW)):
        (Path(folder) / name).write_text(script.replace("PROGRAM", str(program)))
        (Path(folder) / name).chmod(0o755)
    shutil.copytree(TOP / "examples", Path(folder) / "examples")
    for name in ("tools", "dis"):
        (Path(folder) / name).symlink_to(TOP / name)


def moved(text, base):
    """A command, or what it prints, with other addresses: those from BASE on, and those of the sections of a file, but not beside `dis`, which
    has those of the file."""
    text = re.sub(r"\b(?:0x)?(40[01][0-9a-f]{3})\b", lambda it: it[0].replace(it[1], f"{base - BASE + int(it[1], 16):x}"), text)
    return text if "./dis" in text else re.sub(r"\bobjdump ", f"objdump --adjust-vma={base:#x} ", text)


def run_examples(page, base=BASE, in_pieces=False):
    """Runs the examples of a page, and answers how many print something else."""
    wrong, how = 0, page + f" at {base:#x}" * (base != BASE) + " with a text in pieces" * in_pieces
    with tempfile.TemporaryDirectory() as folder:
        program_in(folder, in_pieces)
        lost = set()  # the files that skipped examples would have written
        for command, wanted in examples(page):
            if missing := lacks(command) or next((name for name in sorted(lost) if re.search(rf"\b{name}\b", command)), None):
                skip(missing, command)
                lost.update(re.findall(r"(?:> |\btee )(\w+)", command))
                continue
            if base != BASE:
                command, wanted = moved(command, base), moved(wanted, base)
            printed, said, status = run(command, folder)
            wrong += status is None and differs(how, command, "status", status, 0)
            wrong += wanted != "..." and differs(how, command, "output", printed.rstrip("\n"), wanted)
            wrong += differs(how, command, "standard error", said, "")
    return wrong


def run_statuses(page):
    """Runs the examples of the table of statuses, and answers how many end otherwise."""
    wrong = 0
    with tempfile.TemporaryDirectory() as folder:
        program_in(folder)
        for status, command in re.findall(r"^\| (\d+) \|.*\| `(.*)` \|$", (TOP / page).read_text(), re.M):
            command = command.replace("\\|", "|")
            printed, said, got = run(command, folder)
            wrong += differs(page, command, "status", got, int(status))
            wrong += differs(page, command, "usage line on standard error", said.startswith("usage: "), got == 2)
            wrong += differs(page, command, "usage line on standard output", printed.startswith("usage: "), False)
    return wrong


def costs(command, folder):
    """The processor seconds and the most kilobytes of any process of a command, or None where it took too long."""
    silent = dict.fromkeys(("stdin", "stdout", "stderr"), subprocess.DEVNULL)
    started = subprocess.Popen([*WITHIN_TIME, command], cwd=folder, env=ENVIRONMENT, **silent)
    _, status, usage = os.wait4(started.pid, 0)
    started.returncode = os.waitstatus_to_exitcode(status)
    return None if started.returncode == KILLED else (usage.ru_utime + usage.ru_stime, usage.ru_maxrss)


def costs_of_recipes(page, code):
    """What each command of the recipes of a page costs over the text of some code in place of its own."""
    with tempfile.TemporaryDirectory() as folder:
        program_in(folder)
        (Path(folder) / "big.hex").write_text(re.sub("(.{60})", "\\1\n", code.hex()))
        for command, _ in examples(page, "Recipes"):
            if not lacks(command):
                command = re.sub(r"printf '[0-9a-f ]+'", "cat big.hex", command)
                command = re.sub(r"examples/\w+\.hex", "big.hex", re.sub(r" \| head -n \d+", "", command))
                yield command, costs(command, folder)


def measure_recipes(page):
    """Compares what the recipes cost over some code and over twice as much, and answers how many cost more than in proportion."""
    code, wrong = sources.code_of("/bin/bash") * 3, 0
    for (command, once), (_, twice) in zip(costs_of_recipes(page, code[:BIG]), costs_of_recipes(page, code[: 2 * BIG])):
        if not (once and twice and twice[0] <= TIMES * once[0] + SPARE_SECONDS and twice[1] <= once[1] + SPARE_KILOBYTES):
            print(f"pages: {page}: seconds and kilobytes over {BIG} bytes {once}, over twice as many {twice}: {command}", file=sys.stderr)
            wrong += 1
    return wrong


def try_recipes(page):
    """Tries the recipes over a stranger's code, and answers how many cost too much or aren't right."""
    if missing := lacking("objcopy", "xxd", "readelf", "perl", "/bin/bash"):
        return skip(missing, "what the recipes cost") or 0
    commands = [command for command, _ in examples(page, "Recipes") if not lacks(command)]
    with tempfile.TemporaryDirectory() as folder:
        program_in(folder)
        return measure_recipes(page) + recipes.tried(page, commands, run, folder)


def occurs_in(block, text):
    """Whether the lines occur in the text, one below the other, all as far to the right as the first."""
    lines, wanted = text.split("\n"), textwrap.dedent("\n".join(block))
    spans = (lines[at : at + len(block)] for at, line in enumerate(lines) if line.endswith(block[0]))
    return any(textwrap.dedent("\n".join(span)) == wanted for span in spans)


# ---- What a page has that isn't so: each answers sentences ----


def guide(page, code, has_outputs=False):
    """The examples of a page that aren't in the files of code, and perhaps what it prints after commands."""
    texts = [file.read_text() for pattern in code for file in TOP.glob(pattern) if file.is_file()]
    wanted = [block for block in blocks(page) if not block[0].startswith("$ ")]
    wanted += [printed.split("\n") for _, printed in examples(page) if has_outputs and printed]
    return ["no test has these lines:\n" + "\n".join(block) for block in wanted if not any(occurs_in(block, text) for text in texts)]


def quotes(page):
    """The quoted lines of code of a page that are in no source."""
    lines = {line.strip() for text in source_texts("src", "specs", "proofs", "must-fail").values() for line in text.splitlines()}
    quoted = [line for block in blocks(page) if not block[0].startswith("$ ") and "─" not in block[0] for line in block]
    return [f"no source has this line: {line}" for line in quoted if line and line.strip() not in lines]


def crate(page):
    """Whether a crate's page is missing, or hasn't ten to thirty lines; and its examples."""
    lines = len((TOP / page).read_text().splitlines()) if (TOP / page).exists() else 0
    return guide(page, TESTS) if 10 <= lines <= 30 else [f"{lines} lines, and not ten to thirty"]


def links(page):
    """The links of a page of docs/ that name nothing: no file, or no heading or line of it."""
    for link, heading in re.findall(r"\]\((?!https?:)([^)#]+)#?([^)]*)\)", (TOP / page).read_text()):
        target = TOP / "docs" / link
        text = target.read_text() if target.is_file() else ""
        places = map(anchor, re.findall(r"^#+ (.*)$", text, re.M)) if target.suffix == ".md" else (f"L{at + 1}" for at in range(text.count("\n")))
        if not target.exists() or (heading and heading not in places):
            yield f"a link to nothing: {link} {heading}"


def paths(page):
    """The files that a page names, by the end of their paths, by tools/ or by docs/, and that aren't there."""
    text = (TOP / page).read_text()
    files = re.findall(r"(?<![\w/])([\w/-]*\w\.(?:rt|antt|py|c|sh|txt))\b", text.replace("bin/rtlib.py", "").replace("../", ""))
    lost = [name for name in files if f"/{name}\n" not in KNOWN]
    lost += [name for name in re.findall(r"\b(?:tools|docs)/[\w./-]*\w", text) if not (TOP / name).exists()]
    return [f"no file is {name}" for name in dict.fromkeys(lost)]


def lemmas(page):
    """The modules of lemmas that proofs of x86_decode import, and the rows of their table, that one of the two alone has."""
    texts = "\n".join(text for path, text in source_texts("proofs").items() if "x86_decode" in path.parts)
    imported = {*re.findall(r"^use Rattle\.(?!x86_decode)(x86_\w+)\.proofs\.(\w+)", texts, re.M)}
    rows = re.findall(r"^\| `(x86_\w+)` ((?:\w+Lemmas(?:, )?)+) \|", (TOP / page).read_text(), re.M)
    unlike = imported ^ {(crate, module) for crate, modules in rows for module in modules.split(", ")}
    return [f"{module} of {crate} is imported by x86_decode without a row, or has a row alone" for crate, module in sorted(unlike)]


def counts(page):
    """The counts of a page that are others than those of the sources, or aren't there."""
    groups = (TOP / "crates/x86_forms/specs/Groups.antt").read_text().count("form.")
    functions = len(re.findall(r"^(?!-|#)", (TOP / "tools/trusted.txt").read_text().rstrip(), re.M))
    encodings = r"([\d,]+) (?:worked\s+)?encodings", [len(sources.worked_lines()) // 100 * 100]
    names, of_c = (r"(\d+) names\b", [len(tables.numbers())]), (r"contracts of (\d+) C functions", [functions])
    wanted = {
        "README.md": [(r"opcode maps\s+as (\S+) rows", [sum(map(len, tables.rows().values()))]), of_c, encodings],
        "docs/PROVED.md": [of_c, encodings],
        "docs/DECISIONS.md": [names],
        "crates/x86_opcodes/README.md": [names],
        "crates/uses/README.md": [encodings],
        "docs/ROWS.md": [(r"Of the (\d+) forms (\d+) are groups", [len(tables.forms()), groups])],
    }
    for said, numbers in wanted.get(page, ()):
        found = re.search(said, (TOP / page).read_text())
        if [int(number.replace(",", "")) for number in found.groups()] != numbers if found else True:
            yield f"it says {found and found[0]} where the sources have {numbers}: {said}"


def name_old_figures(page):
    """Names the figures of a page, as `2026-12-01, commit 20ae410f`, after whose commit the code of crates/ changed. It fails nothing."""
    for date, commit in re.findall(r"(\d{4}-\d\d-\d\d)[^.|]{0,40}? commit ([0-9a-f]{7,12})\b", (TOP / page).read_text()):
        if (count := sources.git("rev-list", "--count", f"{commit}..HEAD", *sources.CODE)) not in ("", "0"):
            print(f"pages: {page}: figures of {date}, commit {commit}, are older than the code: {count} commits have changed it since")


def read(readmes):
    """Reads the pages, and answers how much in them isn't so."""
    checks = [(guide, "docs/GUIDE.md", CODE, True), (guide, "README.md", CODE), (lemmas, "docs/DECISIONS.md")]
    checks += [(quotes, page) for page in QUOTING] + [(crate, page) for page in readmes] + [(links, page) for page in LINKING]
    checks += [(check, page) for page in ["README.md", *NAMING] for check in (paths, counts)] + [(paths, "CONTRIBUTING.md")]
    checks += [(counts, page) for page in readmes if (TOP / page).exists()]
    found = [f"{page}: {what}" for check, page, *words in checks for what in check(page, *words)]
    found += sources.reasons_without_rows(listing.REASONS)
    print("".join(f"pages: {line}\n" for line in found), end="", file=sys.stderr)
    return len(found)


def main():
    readmes = [f"crates/{crate}/README.md" for crate in re.findall(r"^(\w+)\b.*:", (TOP / "crates.txt").read_text(), re.M)]
    wrong = read(readmes)
    if missing := lacking(PROGRAM):
        skip(missing, "the examples")
    else:
        wrong += sum(run_examples(page) for page in ("README.md", "docs/USAGE.md", *readmes) if (TOP / page).exists())
        wrong += run_examples("docs/USAGE.md", LIBRARY, in_pieces=True) + run_examples("docs/USAGE.md", KERNEL)
        wrong += run_statuses("docs/USAGE.md") + try_recipes("docs/USAGE.md")
    for page in ("docs/PERFORMANCE.md", "docs/COMPARED.md", "docs/DIFFERENCES.md", "tools/budgets.txt"):
        name_old_figures(page)
    if wrong == 0:
        print("pages: passed")
    return 1 if wrong else 0


sys.exit(main())
