#!/usr/bin/env python3
"""Checks that some modules don't compile.

Each .txt file here is a module on crates of the library that must not compile, or if its second line says so a module of
one of them. Its first line names the errors that the check must report, in the order of their lines; exactly those are
expected. All modules of a crate are checked at once, over the libraries that are built.
"""
import re
import shutil
import subprocess
import sys
import tempfile
from itertools import groupby
from pathlib import Path

HERE = Path(__file__).resolve().parent
TOP = HERE.parents[1]
sys.path.insert(0, str(TOP / "packaging"))

from prove import PARTS, read_crates  # noqa: E402
from toolchain import words  # noqa: E402

CRATES = read_crates()
# the crate of the modules that are of no other one, and what it uses
CASES, USED = "cases", ("mailmap_entries", "mailmap_grammar", "mailmap_snapshot")


class Case:
    def __init__(self, file):
        text = file.read_text(encoding="utf-8")
        self.file, self.name = file, file.stem
        self.wanted = re.match(r"// refused: (.+)", text)[1].split()
        within = re.search(r"^// in: (\w+)", text, re.MULTILINE)
        self.crate = within[1] if within else CASES

    def errors(self, said):
        """The errors in this module, of what the check of its crate said."""
        found = re.findall(rf"^(?:\./)?src/{self.name}\.rt:(\d+):(\d+): error\[([a-z0-9-]+)\]", said, re.MULTILINE)
        return [kind for (_, _, kind), _ in groupby(found)]


def check(name, cases):
    """What a check of the crate with these modules says."""
    with tempfile.TemporaryDirectory(prefix="not-compiling-") as folder:
        for part in PARTS if name != CASES else ():
            if (CRATES[name].folder / part).is_dir():
                shutil.copytree(CRATES[name].folder / part, Path(folder, part))
        root = Path(folder, "src/lib.rt")
        root.parent.mkdir(exist_ok=True)
        text = root.read_text(encoding="utf-8") if root.exists() else "//! Cases.\n#![tactic(auto)]\n"
        root.write_text(text + "".join(f"pub mod {case.name};\n" for case in cases), encoding="utf-8")
        for case in cases:
            shutil.copy(case.file, Path(folder, "src", f"{case.name}.rt"))
        own = CRATES.get(name)
        uses, of_kit = (own.uses, own.of_kit) if own else ([CRATES[each] for each in USED], [])
        command = words("check", name, "src/lib.rt", uses, of_kit)
        done = subprocess.run(command, cwd=folder, capture_output=True, text=True, timeout=600, check=False)
        return done.stdout + done.stderr


def main():
    cases = sorted(map(Case, HERE.glob("*.txt")), key=lambda case: (case.crate, case.name))
    failed = 0
    for name, group in groupby(cases, key=lambda case: case.crate):
        group = list(group)
        said = check(name, group)
        for case in group:
            found = case.errors(said)
            if found == case.wanted:
                print(f"not_compiling {case.name}: refused, as it must be: {' '.join(found)}")
            else:
                failed += 1
                print(f"not_compiling {case.name}: not refused by {' '.join(case.wanted)}, but by {' '.join(found) or 'nothing'}:")
                print(*said.splitlines()[:8], sep="\n")
    print(f"not compiling: {len(cases) - failed} passed, {failed} failed")
    sys.exit(failed > 0)


main()
