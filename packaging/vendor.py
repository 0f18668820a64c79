#!/usr/bin/env python3
"""Copies gix_mailmap and the crates that it needs into another repository of crates.

    vendor.py FOLDER

Each crate's src, specs and proofs go into FOLDER/crates, and its line into FOLDER/crates.txt. The copies are listed in
FOLDER/crates/gix_mailmap.vendored, with a checksum of each. A later run updates the listed crates, and removes those
that are no longer needed. It changes nothing if a crate of one of these names is there and isn't listed.
"""
import hashlib
import re
import shutil
import sys
from pathlib import Path

from prove import PARTS, TOP, lines_by_crate, read_crates, sums_of

LIBRARY = "gix_mailmap"
VERSION = (TOP / "VERSION").read_text(encoding="ascii").strip()
HEAD = f"""\
# Copies of crates of {LIBRARY} {VERSION}, made by its `make vendor`, which reads this list when it is called again.
# Changes to the copies are lost then. Their license is in {LIBRARY}/LICENSE.
"""
LISTED = re.compile(r"^(\w+) ([0-9a-f]{64})$", re.MULTILINE)


def digest(folder):
    """The checksum of a crate's own files."""
    return hashlib.sha256(b"".join(sums_of(folder))).hexdigest()


def text_of(file):
    return file.read_text(encoding="utf-8") if file.is_file() else ""


def write(file, text):
    """Writes a text, unless the file has it already."""
    if text_of(file) != text:
        file.write_text(text, encoding="utf-8")


class Target:
    """The repository that gets the copies."""

    def __init__(self, folder):
        self.crates = folder / "crates"
        self.lines = folder / "crates.txt"
        self.list = self.crates / f"{LIBRARY}.vendored"
        # the copies of an earlier run, with their checksums
        self.listed = dict(LISTED.findall(text_of(self.list)))

    def objection(self, names):
        """Why crates of these names can't be put there; None if they can."""
        others = lines_by_crate(text_of(self.lines))
        if others and not self.crates.is_dir():
            return f"{self.lines} lists crates, and there is no folder {self.crates} for them"
        for name in names:
            if name not in self.listed and (self.crates / name).exists():
                return f"{self.crates / name} is no copy that `make vendor` made: rename that crate or remove it first"
            if name not in self.listed and name in others:
                return f"{self.lines} has a line for a crate {name} of its own: rename that crate first"
        return None

    def write_list(self, sums):
        write(self.list, HEAD + "".join(f"{name} {sums[name]}\n" for name in sorted(sums)))

    def write_lines(self, gone, wanted):
        """Takes the lines of some crates out of crates.txt, and puts the wanted lines of others there."""
        kept, missing = [], dict(wanted)
        for line in text_of(self.lines).splitlines():
            name = next(iter(lines_by_crate(line)), None)
            if name in missing:
                kept.append(missing.pop(name))
            elif name not in gone and name not in wanted:
                kept.append(line)
        write(self.lines, "".join(f"{line}\n" for line in [*kept, *missing.values()]))

    def remove(self, name):
        """Removes a copy, and what rt made of it. Files that others put into its folder stay."""
        for part in *PARTS, "out":
            shutil.rmtree(self.crates / name / part, ignore_errors=True)
        folder = self.crates / name
        if folder.is_dir() and not any(folder.iterdir()):
            folder.rmdir()

    def copy(self, crate):
        """Makes the copy of a crate what the crate is."""
        for part in PARTS:
            shutil.rmtree(self.crates / crate.name / part, ignore_errors=True)
            if (crate.folder / part).is_dir():
                shutil.copytree(crate.folder / part, self.crates / crate.name / part)

    def change(self, crate, sum):
        """How the copy of a crate has to change to get this checksum; None if it has it."""
        if crate.name not in self.listed:
            return "added"
        is_listed = lines_by_crate(text_of(self.lines)).get(crate.name) == crate.line
        if is_listed and digest(self.crates / crate.name) == sum:
            return None
        return "restored" if self.listed[crate.name] == sum else "updated"


def vendor(target, crates):
    """Copies crates into a repository. The changes, by crate."""
    sums = {crate.name: digest(crate.folder) for crate in crates}
    gone = {name for name in target.listed if name not in sums}
    done = {crate.name: target.change(crate, sums[crate.name]) for crate in crates} | dict.fromkeys(gone, "removed")
    target.crates.mkdir(exist_ok=True)
    # If this is interrupted, the next run may change all of these.
    target.write_list(target.listed | sums)
    target.write_lines(gone, {crate.name: crate.line for crate in crates})
    for name in gone:
        target.remove(name)
    for crate in crates:
        if done[crate.name]:
            target.copy(crate)
    write(target.crates / LIBRARY / "LICENSE", text_of(TOP / "LICENSE"))
    target.write_list(sums)
    return {name: what for name, what in sorted(done.items()) if what}


def main(words):
    if len(words) != 1 or not words[0]:
        sys.exit("vendor: name the folder of one repository, as in make vendor DIR=../other")
    folder = Path(words[0])
    if not folder.is_dir():
        sys.exit(f"vendor: there is no folder {folder}")
    library = read_crates()[LIBRARY]
    crates = sorted([library, *library.below()], key=lambda crate: crate.name)
    target = Target(folder)
    objection = target.objection([crate.name for crate in crates])
    if objection:
        sys.exit(f"vendor: {objection}. Nothing was changed.")
    done = vendor(target, crates)
    for name, what in done.items():
        print(f"{what} {name}")
    print(f"{len(crates)} crates of {LIBRARY} {VERSION} are in {target.crates}; changes: {len(done)}")


if __name__ == "__main__":
    main(sys.argv[1:])
