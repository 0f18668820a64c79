#!/usr/bin/env python3
"""Runs `mailmap_verify --suggest` on histories, and compares its status and every byte of its output.

    run.py MAILMAP_VERIFY MAILMAP_SHORTLOG

A line of cases.jsonl and of small.jsonl is a case: its mailmaps, which become the files m1, m2 and so on, its contacts,
which become the file c, what `--suggest` prints, and the findings about contacts that `--contacts` prints. Texts are in
hex. They come from a model that tries each question on whole lists of entries. tests/model has another such model,
written from the definitions in specs, which has to give the same (tests/cases.sh). `make cases` makes made.jsonl with
it, where a case has the status and the output of `--contacts`, and it answers further cases here, with stranger texts.

What is read in some names and emails (spelled.py) is written out. Large histories (large.py) have lines that follow
from how they are made. If git is installed, suggestions are made for a repository of 3,000 commits, and git has
to answer as promised.
"""
import json
import os
import sys
import tempfile
from pathlib import Path

sys.dont_write_bytecode = True
TESTS = Path(__file__).resolve().parents[1]
sys.path += [str(TESTS), str(TESTS / "model")]
import runs
import spelled
from buffers import Writer
from history import History
from large import large
from repository import has_git
from runs import run, wants
from suggest import suggest

STRANGER = 200
FEW, MANY = 12, 50_000


def written(files, contacts):
    """The names of files with these mailmaps; the contacts are in the file c."""
    names = [f"m{number}" for number in range(1, len(files) + 1)]
    for name, file in zip(names, files):
        Path(name).write_bytes(file)
    Path("c").write_bytes(contacts)
    return names


def wants_suggestions(program, what, files, contacts, printed):
    names = written(files, contacts)
    wants(what, run(program, ["--suggest", "c", *names]), 0, printed)
    wants(f"{what}, contacts of standard input", run(program, ["--suggest", "-", *names], contacts), 0, printed)


def wants_findings(program, what, files, contacts, found):
    """Only findings about contacts begin with the name of their file."""
    names = written(files, contacts)
    _, printed, _ = run(program, ["--contacts", "c", *names])
    about = b"".join(line + b"\n" for line in printed.splitlines() if line.startswith(b"c:"))
    wants(what, (0, about, b""), 0, b"".join(
        b"c:%d: %b: %b [%b]\n" % (number, level.encode(), bytes.fromhex(words), kind.encode())
        for number, level, kind, words in found))


def cases_of(file):
    """The mailmaps and the contacts of each case, what is suggested, and all that is stored."""
    for line in Path(__file__).with_name(file).open(encoding="ascii"):
        case = json.loads(line)
        contacts, printed = bytes.fromhex(case["contacts"]), bytes.fromhex(case["suggest"])
        yield [bytes.fromhex(text) for text in case["files"]], contacts, printed, case


def of_other_model(program):
    cases = [*cases_of("cases.jsonl"), *cases_of("small.jsonl")]
    for number, (files, contacts, printed, case) in enumerate(cases, 1):
        wants_suggestions(program, f"case {number}", files, contacts, printed)
        wants_findings(program, f"findings of case {number}", files, contacts, case["findings"])
    return len(cases)


def of_seed(program):
    cases = list(cases_of("made.jsonl"))
    for number, (files, contacts, printed, case) in enumerate(cases, 1):
        wants_suggestions(program, f"made.jsonl:{number}", files, contacts, printed)
        status, report = case["with_contacts"]
        found = run(program, ["--contacts", "c", *written(files, contacts)])
        wants(f"findings of made.jsonl:{number}", found, status, bytes.fromhex(report))
    return len(cases)


def of_spellings(program):
    for what, read, wanted in spelled.of_model():
        wants(f"{what}, in the model: {read}", (read == wanted, b"", b""), True, b"")
    for what, contacts in spelled.histories():
        wants_suggestions(program, what, [], contacts, suggest([], contacts))


def stranger(program):
    """More cases, with stranger texts."""
    for number in range(STRANGER):
        writer = Writer(f"suggest {number}", 0.01)
        files, contacts = [writer.mailmap() for _ in range(number % 3)], writer.contacts()
        wants_suggestions(program, f"stranger case {number}", files, contacts, suggest(files, contacts))


def in_large_histories(program):
    for what, mailmap, contacts, printed in large(FEW):
        wants(f"{what}, in the model", (0, suggest([mailmap], contacts), b""), 0, printed)
    for what, mailmap, contacts, printed in large(MANY):
        wants_suggestions(program, what, [mailmap], contacts, printed)


def judged(text):
    """Suggestions of which all are accepted."""
    return text.replace(b"\n#?", b"\n")


def in_history(program, counter):
    """With the suggestions appended, no two answers differ that have one email, and git has the same counts."""
    for what, mailmap in ("no mailmap", b""), ("a mailmap", History.MAILMAP):
        with tempfile.TemporaryDirectory() as folder:
            history = History(Path(folder), mailmap)
            contacts = history.contacts()
            status, suggested, said = run(program, ["--suggest", "-", *history.mailmaps()], contacts)
            wants(f"{what}: suggestions", (status, suggest([mailmap], contacts), said), 0, suggested)
            history.append(suggested)
            wants_only_notes(program, f"{what}: findings", history, contacts)
            wants_same_counts(counter, f"{what}: counts", history, contacts)
            history.mailmap.write_bytes(mailmap + judged(suggested))
            wants_same_counts(counter, f"{what}: counts with names united", history, contacts)


def wants_only_notes(program, what, history, contacts):
    """Nothing is found that counts for the status."""
    wants(what, run(program, ["--contacts", "-", "-S", "warning", *history.mailmaps()], contacts), 0, b"")


def wants_same_counts(counter, what, history, contacts):
    _, printed, _ = run(counter, ["-ne", *history.mailmaps()], contacts)
    counts, gits = (b"\n".join(sorted(text.splitlines())) for text in (printed, history.shortlog()))
    wants(what, (0, gits, b""), 0, counts)


def main():
    program, counter = (str(Path(path).resolve()) for path in sys.argv[1:])
    with tempfile.TemporaryDirectory() as folder:
        os.chdir(folder)
        counts = of_other_model(program), of_seed(program)
        of_spellings(program)
        stranger(program)
        in_large_histories(program)
        if has_git("suggested lines in a history"):
            in_history(program, counter)
        os.chdir("/")
    print(f"suggest: {runs.passed} passed, {runs.failed} failed")
    sys.exit(1 if runs.failed or counts != (1012, 600) else 0)


main()
