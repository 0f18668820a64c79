#!/usr/bin/env python3
"""Runs mailmap_check and mailmap_verify --explain, --contacts and --suggest with streamed contacts.

    streams.py MAILMAP_CHECK MAILMAP_VERIFY

The first two must answer each line before more than the first byte of the next one is written. Lines can have any
length and recur. The peak for many contacts must stay below a bound, and below a multiple of the peak for few. A peak
is the largest resident set, as bench/measure.c measures it.
"""
import os
import subprocess
import sys
from dataclasses import dataclass
from pathlib import Path

sys.dont_write_bytecode = True
sys.path.append(str(Path(__file__).resolve().parent.parent / "bench"))
from measuring import Failed, built, mebibytes, run, scratch
from repository import Repository, has_git  # the file beside this one

MAILMAP = b"Jane Doe <jane@x>\n"
# contacts with the answers of mailmap_check and of mailmap_verify --explain
LINES = [
    (b"jane <JANE@x>\n", b"Jane Doe <jane@x>\n", b"jane <JANE@x> is Jane Doe <jane@x> by mailmap:1\n"),
    (b"joe <q@z>\r\n", b"joe <q@z>\n", b"joe <q@z> is not mapped\n"),
    (b"\n", b"\n", b""),
    (b"--\n", b"--\n", b"-- is no contact\n"),
    (b"not a contact\n", b"not a contact\n", b"not a contact is no contact\n"),
]
JANE = b"Jane Doe <jane@x>\n"
EXPLAINED_JANE = b"jane <jane@X> is Jane Doe <jane@x> by mailmap:1\n"
LONG = 10_000_000
HISTORY = 1_000_000
# the number of distinct contacts, more than the programs cache, and the length of a short input
DIFFERENT = 5_000
SHORT = 2 * DIFFERENT
# the allowed ratio of the peak for a million contacts to that for a short input, and the allowed peak in bytes
BOUND = 1.25
MOST = 4 * 2**20


def wants(what: str, found: object, want: object) -> None:
    if found != want:
        raise Failed(f"{what}: {str(found)[:200]}, and not {str(want)[:200]}")


@dataclass(frozen=True)
class Asked:
    """A program with its arguments, and its answers: to the lines, to the contact `jane <jane@X>`, to a text that is no
    contact, and to LONG zero bytes.
    """

    command: list[str]
    lines: list[tuple[bytes, bytes]]
    jane: bytes
    no_contact: bytes
    zeros: bytes


def answered_in_turn(asked: Asked) -> None:
    """Writes a line and the first byte of the next one, and reads the answer before it writes more. One line is longer
    than what is buffered. The last line has no line feed, and is answered at the end.
    """
    limited = ["timeout", "60", *asked.command]
    long = b"x" * 100_000
    lines = [*asked.lines, (long + b"\n", long + asked.no_contact), *asked.lines]
    text = b"".join(line for line, _ in lines) + b"jane <jane@X>"
    end = 0
    with subprocess.Popen(limited, stdin=subprocess.PIPE, stdout=subprocess.PIPE, bufsize=0) as program:
        for line, answer in lines:
            program.stdin.write(text[end + (end > 0):end + len(line) + 1])
            end += len(line)
            wants("a line and its answer", program.stdout.readline() if answer else b"", answer)
        program.stdin.write(text[end + 1:])
        program.stdin.close()
        wants("the last line", program.stdout.read(), asked.jane)
        wants("the status", program.wait(), 0)


def answered_at_once(asked: Asked) -> None:
    """Inputs without a line, with one line and no line feed, and with lines longer than one read."""
    long = b"x" * LONG
    a, answer = b"a" + asked.no_contact, long + asked.no_contact
    for contacts, answers in [
        (b"", b""),
        (b"jane <jane@X>", asked.jane),
        (long, answer),
        (b"\0" * LONG, asked.zeros),
        (b"a\n" + long + b"\njane <jane@X>\n", a + answer + asked.jane),
        (b"jane <jane@X>\n" * 100_000, asked.jane * 100_000),
    ]:
        ended = subprocess.run(asked.command, input=contacts, capture_output=True)
        wants(f"{len(contacts)} bytes", (ended.returncode, ended.stdout, ended.stderr), (0, answers, b""))


def answered_again(check: str) -> None:
    """Lines that recur: alike except for carriage returns, and more than are cached, each twice in a row."""
    for contacts, answers in [
        (b"a\na\r\na\r\r\njane <jane@x>\r\n\n" * 50_000, b"a\na\na\r\nJane Doe <jane@x>\n\n" * 50_000),
        (b"".join(b"line %d\n" % (number // 2 % 7_000) for number in range(70_000)),) * 2,
    ]:
        ended = subprocess.run([check, "mailmap"], input=contacts, capture_output=True)
        wants(f"{len(contacts)} bytes", (ended.returncode, ended.stdout, ended.stderr), (0, answers, b""))


def as_git(check: str) -> None:
    """Compares the answers for a repository's contacts with those of `git log` and of `git check-mailmap`."""
    if not has_git("streamed contacts beside git"):
        return
    repository = Repository(Path("repository"))
    contacts = repository.git(["log", "--format=%an <%ae>", "main"])
    ended = subprocess.run([check, repository.mailmap], input=contacts, capture_output=True)
    wants("git log", ended.stdout, repository.git(["log", "--format=%aN <%aE>", "main"]))
    wants("git check-mailmap", ended.stdout, repository.git(["check-mailmap", "--stdin"], contacts))


def peak(command: list[str], count: int) -> int:
    """The peak for this many contacts. Each occurs twice in a row, so that it is cached."""
    contacts = Path("contacts")
    some = (number // 2 % DIFFERENT for number in range(count))
    contacts.write_bytes(b"".join(b"Jane %d <j%d@x>\n" % (number, number) for number in some))
    ended = run(built("measure", os.getcwd(), "-static"), command, stdin=str(contacts))
    if ended.status or ended.complaints:
        raise Failed(f"{count} contacts: status {ended.status} {ended.complaints.strip()}")
    return ended.peak


def main() -> None:
    check, verify = (str(Path(program).resolve()) for program in sys.argv[1:])
    both = [
        Asked(
            [check, "mailmap"],
            [(line, answer) for line, answer, _ in LINES],
            JANE,
            b"\n",
            b"\0" * LONG + b"\n",
        ),
        Asked(
            [verify, "--explain", "mailmap"],
            [(line, explained) for line, _, explained in LINES],
            EXPLAINED_JANE,
            b" is no contact\n",
            rb"\x00" * LONG + b" is no contact\n",
        ),
    ]
    peaks = []
    with scratch() as folder:
        os.chdir(folder)
        Path("mailmap").write_bytes(MAILMAP)
        for asked in both:
            answered_in_turn(asked)
            answered_at_once(asked)
            few, many = peak(asked.command, SHORT), peak(asked.command, HISTORY)
            if many > min(BOUND * few, MOST):
                raise Failed(f"a million contacts take {mebibytes(many)}, and {SHORT} take {mebibytes(few)}")
            peaks.append(mebibytes(many))
        # The distinct answers are stored. No mailmap has an unneeded line.
        for mode in "--contacts", "--suggest":
            counted = [verify, mode, "-"]
            few, many = peak(counted, SHORT), peak(counted, HISTORY)
            if many > BOUND * few:
                raise Failed(f"{mode}: a million contacts take {mebibytes(many)}, and {SHORT} take {mebibytes(few)}")
            peaks.append(mebibytes(many))
        answered_again(check)
        as_git(check)
        os.chdir("/")
    print(f"streams: each line is answered before the next, and a million contacts take {' and '.join(peaks)}")


try:
    main()
except Failed as failure:
    sys.exit(f"streams: {failure}")
