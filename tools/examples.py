"""Builds the programs of examples/ that are no crates of this repository: rt proves and builds each beside a copy of the libraries, of which it takes
what this machine has kept: a minute, and else some 15."""

import os
import re
import shutil
import subprocess
import sys
from pathlib import Path

TOP = Path(__file__).resolve().parent.parent

# The crate of an example, what `rt ci` must print of it without input, and where its files belong.
EXAMPLES = {
    "decode": ("decode_code", "0 0\n", {"main.rt.txt": "src/main.rt", "Invariants.antt.txt": "proofs/pass/Invariants.antt"}),
    "addresses": ("address_lines", "", {"main.rt.txt": "src/main.rt"}),
    "flows": ("flow_lines", "", {"main.rt.txt": "src/main.rt"}),
}


def built(name, library, work):
    """The program of an example over a library and what that uses, or the one that a variable names, as ADDRESSES; None where rt is missing."""
    if os.environ.get(name.upper()):
        return os.environ[name.upper()]
    if shutil.which("rt") is None:
        return None
    copy, (crate, output, files), lines = work / name, EXAMPLES[name], (TOP / "crates.txt").read_text()
    libraries = re.search(rf"^{library}:(.*)$", lines, re.M)[1].split() + [library]
    for it in libraries:
        if (TOP / "crates" / it).is_dir():
            shutil.copytree(TOP / "crates" / it, copy / "crates" / it, ignore=shutil.ignore_patterns("out", "must-fail"))
    (copy / ".git").mkdir()
    shutil.copy(TOP / "HANDLES", copy)
    (copy / "crates.txt").write_text("".join(re.findall(rf"^(?:{'|'.join(libraries)}):.*\n", lines, re.M)) + f"{crate}: {' '.join(libraries)}\n")
    for text, file in files.items():
        (copy / "crates" / crate / file).parent.mkdir(parents=True)
        shutil.copy(TOP / "examples" / name / text, copy / "crates" / crate / file)
    (copy / "crates" / crate / "stdout").write_text(output)
    ran = subprocess.run(["rt", "ci"], cwd=copy, stdin=subprocess.DEVNULL, stdout=subprocess.PIPE, stderr=subprocess.STDOUT, text=True)
    if ran.returncode != 0:
        sys.exit(f"{ran.stdout}rt doesn't prove examples/{name}")
    return str(copy / "crates" / crate / "out" / crate)
