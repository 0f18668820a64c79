#!/usr/bin/env python3
"""Runs mailmap_shortlog on contacts, and compares its status and every byte of its output.

    run.py MAILMAP_SHORTLOG

A line of cases.jsonl is a case: its mailmaps, which become the files m1, m2 and so on, the contacts, and the output
without options, with -e, with -n, and with both. Texts are in hex. `make cases` makes the file with tests/model: a seed
determines the mailmaps and contacts, and the answers are those of a model written from the definitions alone. If git is
installed, `git shortlog` has to print the same for a repository whose commits have such authors.
"""
import json
import os
import subprocess
import sys
import tempfile
from pathlib import Path

sys.dont_write_bytecode = True
sys.path.append(str(Path(__file__).resolve().parent.parent))
sys.path.append(str(Path(__file__).resolve().parents[1] / "model"))
sys.path.append(str(Path(__file__).resolve().parents[2] / "bench"))
import measuring
import runs
from repository import Repository, has_git
from runs import run, wants
from shortlog import skipped

# the number of distinct contacts, and the allowed ratio of the peak for a million contacts to that for few
DIFFERENT = 5_000
BOUND = 1.25
# The four kinds of output, and ways to ask for each.
ASKED = [
    [[], ["-s"], ["--"]],
    [["-e"], ["-se"], ["-e", "-e"]],
    [["-n"], ["-sn", "--"], ["-s", "-n"]],
    [["-n", "-e"], ["-sne"], ["-en"], ["-e", "-ns"]],
]
USAGE = b"""\
usage: mailmap_shortlog [-n] [-e] [-s] [--] [MAILMAP..]
git's options select what is piped: git log OPTIONS --format='%an <%ae>' | mailmap_shortlog .mailmap
"""


def wants_counts(what, program, words, contacts, printed):
    """The status is 0, and the lines without a contact are said."""
    wants(what, run(program, words, contacts), 0, printed, skipped(contacts))


def stored(program):
    cases = [json.loads(line) for line in open(Path(__file__).with_name("cases.jsonl"), encoding="ascii")]
    for number, case in enumerate(cases, 1):
        names = [f"m{index}" for index in range(1, len(case["files"]) + 1)]
        for name, file in zip(names, case["files"]):
            Path(name).write_bytes(bytes.fromhex(file))
        contacts = bytes.fromhex(case["contacts"])
        for ways, printed in zip(ASKED, case["shortlog"], strict=True):
            words = ways[number % len(ways)]
            wants_counts(f"case {number} {words}", program, [*words, *names], contacts, bytes.fromhex(printed))
    return len(cases)


def hostile(size=10_000_000):
    """Contacts of any length and any bytes, the last without a line feed, the expected output, and what is said."""
    long = b"x" * size
    yield "a long name", long + b" <j@x>", b"     1\t" + long + b" <j@x>\n", b""
    yield "a long email", b"J <" + long + b">", b"     1\tJ <" + long + b">\n", b""
    yield "empty emails", b"<>" * (size // 2), b"     1\t <>\n", b""
    yield ("zero bytes in contacts", b"J\0 <j@x\0>\n" * 2 + b"J <j@x\0>",
           b"     2\tJ\\x00 <j@x\\x00>\n     1\tJ <j@x\\x00>\n", b"")
    yield "a long name with escapes", b"\x1b" * size + b" <j@x>", b"     1\t" + b"\\x1b" * size + b" <j@x>\n", b""
    for byte in b"x<>\0":
        yield (f"byte {byte}", bytes([byte]) * size, b"",
               b"mailmap_shortlog: lines without a contact: 1; the first is line 1\n")
    for byte in b" \n":
        yield f"byte {byte}", bytes([byte]) * size, b"", b""


def options(program):
    """Options and paths, and wrong ones."""
    Path("m1").write_bytes(b"Jane Doe <jane@x>\n")
    Path("-n").write_bytes(b"Joe <jane@x>\n")
    contacts = b"a <b@x>\njd <jane@x>\nno contact\njd <JANE@x>"
    both = b"     2\tJane Doe\n     1\ta\n"
    wants_counts("the greatest count first", program, ["-n", "m1"], contacts, both)
    wants_counts("no mailmap", program, [], contacts, b"     1\ta\n     2\tjd\n")
    wants_counts("no contact", program, ["m1"], b"no contact\n\n<\n", b"")
    wants("nothing", run(program, ["m1"]), 0, b"")
    wants_counts("empty fields", program, ["-e", "m1"], b"<>\n < > \n", b"     2\t <>\n")
    wants_counts("an empty name", program, [], b"<b@x>\n", b"     1\t\n")
    wants_counts("a path like an option", program, ["--", "-n"], contacts, b"     2\tJoe\n     1\ta\n")
    wants_counts("an option after a path is a path", program, ["m1", "-n"], contacts, b"     2\tJoe\n     1\ta\n")
    wants("a dash is a path", run(program, ["-"], contacts), 2, b"",
          b"mailmap_shortlog: -: No such file or directory\n")
    wants_counts("many options", program, ["-n"] * 100_000 + ["m1"], contacts, both)
    long = b"x" * 200_000 + b" <l@x>\n"
    wants_counts("a long line", program, [], contacts + b"\n" + long * 2,
          b"     1\ta\n     2\tjd\n     2\t" + b"x" * 200_000 + b"\n")
    for what, lines, printed, said in hostile():
        wants(f"hostile contacts: {what}", run(program, ["-e"], lines), 0, printed, said)
    wants("seven digits", run(program, ["m1"], b"a <b@x>\n" * 1_000_001), 0, b"1000001\ta\n")
    version = b"mailmap_shortlog " + Path(__file__).parents[2].joinpath("VERSION").read_bytes().strip() + b"\n"
    wants("version", run(program, ["-n", "--version"]), 0, version)
    status, usage, said = run(program, ["--help"])
    if (status, said) != (0, b"") or not usage.startswith(b"usage: mailmap_shortlog "):
        wants("help", (status, usage, said), 0, b"usage: mailmap_shortlog ..")
    wants("help, short", run(program, ["-s", "-h", "m1"]), 0, usage)
    for unknown in ["-x", "-nx", "--email", "-hn", "-\x1b"]:
        shown = unknown.replace("\x1b", "\\x1b").encode()
        wants(f"unknown {shown}", run(program, ["-n", unknown, "m1"]), 2, b"",
              b"mailmap_shortlog: unknown option: " + shown + b"\n" + USAGE)
    wants("a missing file", run(program, ["m1", "missing"], contacts), 2, b"",
          b"mailmap_shortlog: missing: No such file or directory\n")
    wants("a folder", run(program, [".", "m1"], contacts), 2, b"", b"mailmap_shortlog: .: Is a directory\n")
    folder = subprocess.run(["sh", "-c", '"$1" m1 < .', "sh", program], capture_output=True, timeout=120)
    wants("input that is a folder", (folder.returncode, folder.stdout, folder.stderr), 2, b"",
          b"mailmap_shortlog: standard input: Is a directory\n")
    to_full = ["sh", "-c", '"$1" m1 > /dev/full', "sh", program]
    full = subprocess.run(to_full, input=contacts, capture_output=True, timeout=120)
    wants("output that is full", (full.returncode, full.stdout, full.stderr), 2, b"",
          b"mailmap_shortlog: cannot write output\n")


def as_git(program):
    """Compares the output with that of `git shortlog` for a repository."""
    if not has_git("counts beside git shortlog"):
        return
    repository = Repository(Path("repository"))
    for words in ["-s"], ["-se"], ["-sn"], ["-sne"]:
        printed = repository.git(["shortlog", *words, "main"])
        wants_counts(f"git shortlog {words}", program, [*words, repository.mailmap], repository.contacts, printed)


def peak(program, count):
    """The largest resident set of a run on this many contacts, of which few are distinct."""
    some = (number % DIFFERENT for number in range(count))
    Path("history").write_bytes(b"".join(b"Jane %d <j%d@x>\n" % (number, number) for number in some))
    ended = measuring.run(measuring.built("measure", os.getcwd(), "-static"), [program, "-ne", "m1"], stdin="history")
    if ended.status or ended.complaints:
        sys.exit(f"mailmap_shortlog: {count} contacts: status {ended.status} {ended.complaints.strip()}")
    return ended.peak


def peaks(program):
    """Memory grows with the distinct contacts only."""
    few, many = peak(program, 2 * DIFFERENT), peak(program, 1_000_000)
    if many > BOUND * few:
        sys.exit(f"mailmap_shortlog: a million contacts take {many} bytes, and {2 * DIFFERENT} take {few}")
    return measuring.mebibytes(many)


def main(program):
    program = os.path.abspath(program)
    with tempfile.TemporaryDirectory() as folder:
        os.chdir(folder)
        count = stored(program)
        options(program)
        as_git(program)
        most = peaks(program)
        os.chdir("/")
    if runs.failed or count != 400:
        sys.exit(f"mailmap_shortlog: {count} stored cases, and not 400; {runs.failed} failed")
    print(f"a million contacts take {most}")
    print(f"shortlog: {runs.passed} passed, {runs.failed} failed")


if __name__ == "__main__":
    main(*sys.argv[1:])
