#!/usr/bin/env python3
"""What `make vendor` puts into another repository: the steps of docs/RATTLE.md from an empty one to a program, and then
copies that are there already, that others changed, and crates that aren't copies.

The program is run without a proof. A proof reads what is copied of each crate, which is compared with the files here,
and these are proved by the gate."""
import re
import shutil
import subprocess
import sys
import tempfile
from pathlib import Path

import runs
from runs import wants

TOP = Path(__file__).resolve().parents[1]
PAGE = (TOP / "docs/RATTLE.md").read_text(encoding="utf-8")
VERSION = (TOP / "VERSION").read_text(encoding="ascii").strip()
# its repository, the folder of its program, and what that prints
FOLDER, PROGRAM, PRINTED = "../contacts", "crates/one_contact", b"Jane Doe <jane@x>\n"
OWN = {"crates.txt": "# our own\nours: bstr # beside the library\n", "crates/ours/src/lib.rt": "// ours\n"}
LIST = "crates/gix_mailmap.vendored"
LIB = "crates/mailmap_grammar/src/lib.rt"
PARTS = ("src", "specs", "proofs")


def block(kind):
    found = re.findall(rf"^```{kind}\n(.*?)^```$", PAGE, re.MULTILINE | re.DOTALL)
    if len(found) != 1:
        sys.exit(f"vendor: docs/RATTLE.md has {len(found)} blocks of {kind}, expected one")
    return found[0]


def texts(folder):
    """The files below a folder with their bytes."""
    return {str(file.relative_to(folder)): file.read_bytes() for file in folder.rglob("*") if file.is_file()}


def times(folder):
    return {str(file.relative_to(folder)): file.stat().st_mtime_ns for file in folder.rglob("*")}


def put(folder, name, text):
    (folder / name).parent.mkdir(parents=True, exist_ok=True)
    (folder / name).write_text(text, encoding="utf-8")


def edit(folder, name, pattern, new):
    """Replaces what a pattern matches in a file, which must be one place."""
    text, count = re.subn(pattern, new, (folder / name).read_text(encoding="utf-8"), flags=re.MULTILINE)
    assert count == 1, (name, pattern)
    (folder / name).write_text(text, encoding="utf-8")


def vendor(folder):
    return runs.run(TOP / "packaging/vendor.py", [folder])


def said_of(folder, changes):
    """The lines that are printed for changes."""
    count = len([file for file in (folder / "crates").iterdir() if file.is_dir() and file.name != "ours"])
    last = f"{count} crates of gix_mailmap {VERSION} are in {folder}/crates; changes: {len(changes)}"
    return "".join(f"{line}\n" for line in [*changes, last]).encode()


def follow(folder, steps):
    """Runs commands in a folder, and returns their status and output."""
    done = subprocess.run(["bash", "-ec", steps], cwd=folder, stdin=subprocess.DEVNULL, capture_output=True)
    if done.returncode:
        print(done.stdout.decode()[-2000:], done.stderr.decode()[-4000:], sep="\n")
    return done.returncode, done.stdout, b""


def check_program(work):
    """The steps of docs/RATTLE.md from an empty repository to a program."""
    folder = work / "contacts"
    put(folder, f"{PROGRAM}/src/main.rt", block("rust"))
    steps, tried, last = block("sh").replace(FOLDER, str(folder)).partition("rt try ")
    said, proving = last.splitlines()
    assert PRINTED.decode().strip() in said and proving.startswith("rt run ")
    wants("the page's steps", (follow(TOP, steps)[0], b"", b""), 0, b"")
    wants("the page's program", follow(folder / PROGRAM, tried), 0, PRINTED)


def check_copies(folder):
    """What a proof reads of each crate is copied, and nothing else."""
    for name, text in OWN.items():
        put(folder, name, text)
    done = vendor(folder)
    there = texts(folder)
    lines = there.pop("crates.txt").decode().removeprefix(OWN["crates.txt"]).splitlines()
    names = [line.partition(":")[0] for line in lines]
    wants("the first copies", done, 0, said_of(folder, [f"added {name}" for name in names]))
    there.pop(LIST)
    wanted = {"crates/ours/src/lib.rt": b"// ours\n", "crates/gix_mailmap/LICENSE": (TOP / "LICENSE").read_bytes()}
    for name in names:
        for part in PARTS:
            here = texts(TOP / "crates" / name / part)
            wanted |= {f"crates/{name}/{part}/{file}": text for file, text in here.items()}
    differ = sorted(name for name in {*there, *wanted} if there.get(name) != wanted.get(name))
    wants("copies that differ", (0, " ".join(differ).encode(), b""), 0, b"")
    here = (TOP / "crates.txt").read_text(encoding="utf-8").splitlines()
    wants("lines that differ", (0, "\n".join({*lines} - {*here}).encode(), b""), 0, b"")
    used = {word for line in lines for word in line.partition(":")[2].split()}
    wants("crates that none needs", (0, " ".join({*names} - used).encode(), b""), 0, b"gix_mailmap")
    before = times(folder)
    wants("the second time", vendor(folder), 0, said_of(folder, []))
    wants("what is written then", (0, str(times(folder) == before).encode(), b""), 0, b"True")


def drop(folder, name):
    shutil.rmtree(folder / name) if (folder / name).is_dir() else (folder / name).unlink()


def outdate(folder):
    """Makes a crate one of an earlier version: neither it nor its sum is today's."""
    put(folder, LIB, "// earlier\n")
    edit(folder, LIST, "^mailmap_grammar .*", "mailmap_grammar " + "0" * 64)


def add_needless(folder):
    """Adds a crate of an earlier version that today's doesn't need, with what rt made of it."""
    put(folder, "crates/mailmap_old/src/lib.rt", "// old\n")
    put(folder, "crates/mailmap_old/out/proved", "")
    edit(folder, "crates.txt", "^mailmap_grammar:", "mailmap_old: bstr\nmailmap_grammar:")
    edit(folder, LIST, "^mailmap_grammar ", f"mailmap_old {'0' * 64}\nmailmap_grammar ")


# what others or an earlier version did to copies, and what is said when they are made again
CHANGES = [
    ("a file with other text", lambda folder: put(folder, LIB, "// mine\n"), "restored mailmap_grammar"),
    ("a file too few", lambda folder: drop(folder, LIB), "restored mailmap_grammar"),
    ("a file too many", lambda folder: put(folder, "crates/mailmap_grammar/specs/Mine.antt", ""),
     "restored mailmap_grammar"),
    ("no crate", lambda folder: drop(folder, "crates/mailmap_grammar"), "restored mailmap_grammar"),
    ("another line", lambda folder: edit(folder, "crates.txt", "^mailmap_grammar:.*", "mailmap_grammar: # mine"),
     "restored mailmap_grammar"),
    ("no line", lambda folder: edit(folder, "crates.txt", "^mailmap_grammar:.*\n", ""), "restored mailmap_grammar"),
    ("an earlier crate", outdate, "updated mailmap_grammar"),
    ("an earlier crate that isn't needed", add_needless, "removed mailmap_old"),
]


def check_change(fresh, folder, what, change, said):
    shutil.copytree(fresh, folder)
    change(folder)
    wants(f"{what}, made again", vendor(folder), 0, said_of(folder, [said]))
    there, wanted = texts(folder), texts(fresh)
    for each in there, wanted:
        each["crates.txt"] = b"\n".join(sorted(each["crates.txt"].splitlines()))
    differ = sorted(name for name in {*there, *wanted} if there.get(name) != wanted.get(name))
    wants(f"{what}, what differs then", (0, " ".join(differ).encode(), b""), 0, b"")


# What is there, whether copies are there, too, and why nothing is copied: {0} is the folder, and {1} the first crate.
OBJECTIONS = [
    ("a crate of a copy's name", lambda folder: put(folder, LIB, "// mine\n"), False,
     "{0}/crates/mailmap_grammar is no copy that `make vendor` made: rename that crate or remove it first"),
    ("a line of a copy's name", lambda folder: put(folder, "crates.txt", "mailmap_grammar: bstr\n"), False,
     "{0}/crates.txt has a line for a crate mailmap_grammar of its own: rename that crate first"),
    ("a crate that is new", lambda folder: edit(folder, LIST, "^mailmap_grammar .*\n", ""), True,
     "{0}/crates/mailmap_grammar is no copy that `make vendor` made: rename that crate or remove it first"),
    ("copies without their list", lambda folder: drop(folder, LIST), True,
     "{0}/crates/{1} is no copy that `make vendor` made: rename that crate or remove it first"),
    ("crates elsewhere", lambda folder: drop(folder, "crates"), False,
     "{0}/crates.txt lists crates, and there is no folder {0}/crates for them"),
]


def check_objection(fresh, folder, what, change, has_copies, said):
    if has_copies:
        shutil.copytree(fresh, folder)
    else:
        for name, text in OWN.items():
            put(folder, name, text)
    change(folder)
    before = texts(folder), times(folder)
    first = min(file.name for file in (fresh / "crates").iterdir() if file.is_dir())
    wants(what, vendor(folder), 1, b"", f"vendor: {said.format(folder, first)}. Nothing was changed.\n".encode())
    wants(f"{what}: what is as before", (0, str((texts(folder), times(folder)) == before).encode(), b""), 0, b"True")


def check_words():
    usage = b"vendor: name the folder of one repository, as in make vendor DIR=../other\n"
    rows = [([], usage), ([""], usage), (["/a", "/b"], usage), (["/a b/c"], b"vendor: there is no folder /a b/c\n")]
    for words, said in rows:
        wants(f"vendor {words}", runs.run(TOP / "packaging/vendor.py", words), 1, b"", said)


def main():
    with tempfile.TemporaryDirectory() as folder:
        work = Path(folder)
        check_copies(work / "two words")
        for number, row in enumerate(CHANGES):
            check_change(work / "two words", work / f"change{number}", *row)
        for number, row in enumerate(OBJECTIONS):
            check_objection(work / "two words", work / f"objection{number}", *row)
        check_words()
        check_program(work)
    print(f"vendor: {runs.passed} passed, {runs.failed} failed")
    sys.exit(1 if runs.failed else 0)


main()
