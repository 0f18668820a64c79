"""The ways to give the programs files and standard input, and what the model says that they print."""
import subprocess
from collections.abc import Callable
from pathlib import Path
from typing import NamedTuple

import contacts
import findings
import shortlog
import suggest
from findings import contact_text
from git import line_text
from mailmap import answer, contact_of, entries_of, lines, normal_list

CHECK, VERIFY, SHORTLOG = "./mailmap_check", "./mailmap_verify", "./mailmap_shortlog"
PROGRAMS = [CHECK, VERIFY, SHORTLOG]
# what is in the files `mailmap` and `contacts`
MAILMAP = b"Jane Doe <jane@x>\nJoe <joe@new> <joe@x>\n"
CONTACTS = b"jane <JANE@x>\njoe <Joe@x>\n"
INPUT = b"<stdin>"
VERSION = (Path(__file__).resolve().parents[2] / "VERSION").read_bytes()


def run(program, words, **more):
    """The status, the output and the text on standard error. Without `stdin` or `input` it has the file `contacts`."""
    if "stdin" not in more and "input" not in more:
        more["input"] = CONTACTS
    done = subprocess.run([program, *words], stdout=more.pop("stdout", subprocess.PIPE), stderr=subprocess.PIPE,
                          timeout=120, **more)
    return done.returncode, done.stdout, done.stderr


def said(program, text):
    return b"%b: %b\n" % (program.removeprefix("./").encode(), text)


def unread(program, cause):
    """The result of a program if standard input can't be read."""
    return said(program, b"cannot read standard input" if program == CHECK else b"standard input: " + cause)


# ---- the model of mailmap_check

def answered(line, merged):
    contact = contact_of(line)
    if contact:
        return contact_text(*answer(merged, *contact)) + b"\n"
    return line.removesuffix(b"\r\n").removesuffix(b"\n") + b"\n"


def check(buffers, text):
    merged = entries_of(buffers)
    return b"".join(answered(line, merged) for line in lines(text))


def check_input(text):
    """The first line `--` ends the mailmap. Without one there is none."""
    pieces = lines(text)
    ends = [number for number, line in enumerate(pieces) if line in (b"--\n", b"--\r\n", b"--")]
    if not ends:
        return check([], text)
    return check([b"".join(pieces[:ends[0]])], b"".join(pieces[ends[0] + 1:]))


def compact(buffers):
    return b"".join(b" " + line_text(entry) + b"\n" for entry in normal_list(entries_of(buffers)))


# ---- the ways to have standard input read

class Way(NamedTuple):
    program: str
    words: list[str]
    # the status, the output and sometimes the text on standard error for an input
    model: Callable[[bytes], tuple]
    # whether lines are answered as they come
    streams: bool = False
    # what is read from standard input
    reads: bytes = b"contacts"

    def wanted(self, text):
        status, printed, *rest = self.model(text)
        return status, printed, *(rest or [b""])

    def noted(self, text):
        """The same at a terminal, where all programs but mailmap_check say what they read."""
        status, printed, message = self.wanted(text)
        note = b"reading %b from standard input" % self.reads
        return status, printed, (b"" if self.program == CHECK else said(self.program, note)) + message

    def __str__(self):
        return " ".join([self.program.removeprefix("./"), *self.words])


WAYS = [
    Way(CHECK, ["mailmap"], lambda text: (0, check([MAILMAP], text)), True),
    Way(CHECK, [], lambda text: (0, check_input(text))),
    Way(CHECK, ["--compact"], lambda text: (0, compact([text]))),
    Way(VERIFY, ["-"], lambda text: findings.verify([text], [INPUT]), reads=b"the mailmap"),
    Way(VERIFY, ["--prune", "-"], lambda text: findings.prune(text, INPUT), reads=b"the mailmap"),
    Way(VERIFY, ["--explain", "mailmap"], lambda text: (0, contacts.explain([MAILMAP], [b"mailmap"], text)), True),
    Way(VERIFY, ["--contacts", "-", "mailmap"],
        lambda text: contacts.verify_contacts([MAILMAP], [b"mailmap"], text, INPUT)),
    Way(VERIFY, ["--contacts", "contacts", "-"],
        lambda text: contacts.verify_contacts([text], [INPUT], CONTACTS, b"contacts"), reads=b"the mailmap"),
    Way(VERIFY, ["--suggest", "-", "mailmap"], lambda text: (0, suggest.suggest([MAILMAP], text))),
    Way(SHORTLOG, ["-ne", "mailmap"],
        lambda text: (0, shortlog.shortlog([MAILMAP], text, True, True), shortlog.skipped(text))),
]
