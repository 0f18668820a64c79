#!/usr/bin/env python3
"""Refuses each request for memory of the programs in turn, in each mode, and compares all that they print.

    refusals.py MAILMAP_CHECK MAILMAP_VERIFY MAILMAP_SHORTLOG

Only this shows what the programs that are shipped do when a single request is refused, wherever it is: for an argument,
a file, a line, a list of what was found, or the output.

A refused run must end with status 2, with one line on standard error, and with nothing on standard output, or where
output is written before all is known, with the first lines of it. It may also print all, since a list that can't get
all that it would like asks for less.
"""
import os
import sys
import tempfile
from pathlib import Path
from typing import NamedTuple

sys.dont_write_bytecode = True
from refusing import Refusing

# what is in the files with these names
FILES = {
    "empty": b"",
    "mailmap": b"Joe R. Developer <joe@example.com> <bugs@example.com>\n",
    "contacts": b"bob <BUGS@example.com>\nnot a contact\n",
    # One of these contacts has the email of the first, and one its name.
    "alike": b"bob <b@example.com>\nnot a contact\nBOB <B@example.com>\nbob <bob@example.com>\n",
    "twice": b"bob <b@example.com>\nbob <b@example.com>\n",
}
ONCE = b"bob <b@example.com>\n"
# A path of more than 256 bytes is copied when its file is opened. So many files make the lists of arguments and files
# grow several times.
LONG = "./" * 128 + "empty"
MANY = ["empty"] * 40


class Mode(NamedTuple):
    """Words before the files and after them, the file that is standard input, and what is expected."""

    program: str
    before: list[str]
    after: list[str]
    stdin: str
    status: int
    printed: bytes
    # whether lines are written before all is known
    is_written_early: bool = False
    # the message beside the output if nothing is refused
    said: bytes = b""
    # the files that come between the words, in each run
    files: tuple[list[str], ...] = ([LONG], MANY)


CHECK, VERIFY, SHORTLOG = "mailmap_check", "mailmap_verify", "mailmap_shortlog"
NO_EFFECT = b"mailmap:1: warning: no effect: mailmap:1 says the same [no-effect]\n"
MODES = [
    Mode(CHECK, [], ["mailmap"], "contacts", 0, b"Joe R. Developer <joe@example.com>\nnot a contact\n"),
    Mode(CHECK, ["--compact"], ["mailmap"], "contacts", 0,
         b" Joe R. Developer <joe@example.com> <bugs@example.com>\n"),
    # The mailmap is given twice, so its first copy has no effect.
    Mode(VERIFY, ["mailmap"], ["mailmap"], "contacts", 1, NO_EFFECT),
    Mode(VERIFY, ["--explain"], ["mailmap"], "contacts", 0,
         b"bob <BUGS@example.com> is Joe R. Developer <joe@example.com> by mailmap:1\n"
         b"not a contact is no contact\n", True),
    Mode(VERIFY, ["--contacts", "-"], ["mailmap"], "alike", 1,
         b"mailmap:1: warning: no contact needs it [unneeded]\n"
         b"<stdin>:2: error: no contact [no-contact]\n"
         b"<stdin>:3: warning: BOB <B@example.com> (1) has the email of bob <b@example.com> (1) [same-email]\n"
         b"<stdin>:4: note: bob <bob@example.com> (1) has the name of bob <b@example.com> (1) [same-name]\n", True),
    Mode(VERIFY, ["--suggest", "-"], ["mailmap"], "alike", 0,
         b"# 1 bob <b@example.com>\n# 1 BOB <B@example.com>\nbob <b@example.com> <b@example.com>\n\n"
         b"# 2 bob <b@example.com>\n# 1 bob <bob@example.com>\n#?bob <b@example.com> <bob@example.com>\n\n", True),
    Mode(VERIFY, ["-f", "github", "twice"], ["mailmap"], "contacts", 1,
         b"::warning file=twice,line=1,title=no-effect::no effect: twice:2 says the same\n"),
    Mode(VERIFY, ["-f", "json", "--contacts", "alike"], ["mailmap"], "contacts", 1,
         b'{"file":{"text":"mailmap"},"kind":"unneeded","level":"warning","line":1,'
         b'"message":{"text":"no contact needs it"}}\n'
         b'{"file":{"text":"alike"},"kind":"no-contact","level":"error","line":2,"message":{"text":"no contact"}}\n'
         b'{"at":{"file":{"text":"alike"},"line":1},"beside":{"count":1,"email":{"text":"b@example.com"},'
         b'"name":{"text":"bob"}},"count":1,"email":{"text":"B@example.com"},"file":{"text":"alike"},'
         b'"kind":"same-email","level":"warning","line":3,"message":{"text":"BOB <B@example.com> (1) has the email of '
         b'bob <b@example.com> (1)"},"name":{"text":"BOB"}}\n'
         b'{"at":{"file":{"text":"alike"},"line":1},"beside":{"count":1,"email":{"text":"b@example.com"},'
         b'"name":{"text":"bob"}},"count":1,"email":{"text":"bob@example.com"},"file":{"text":"alike"},'
         b'"kind":"same-name","level":"note","line":4,"message":{"text":"bob <bob@example.com> (1) has the name of '
         b'bob <b@example.com> (1)"},"name":{"text":"bob"}}\n', True),
    Mode(VERIFY, ["--prune"], ["twice"], "contacts", 0, ONCE, files=([],)),
    Mode(VERIFY, ["--prune", "--in-place"], ["twice"], "contacts", 0, b""),
    Mode(SHORTLOG, ["-ne"], ["mailmap"], "contacts", 0, b"     1\tJoe R. Developer <joe@example.com>\n", True,
         b"mailmap_shortlog: lines without a contact: 1; the first is line 2\n"),
]
passed = failed = 0


def is_refusal(mode, result):
    """Whether a run that was refused a request ends as it should."""
    status, printed, said = result
    lines = printed.splitlines(True)
    begins = lines == mode.printed.splitlines(True)[:len(lines)] if mode.is_written_early else printed == b""
    return status == 2 and begins and said == b"%b: out of memory\n" % mode.program.encode()


def is_left(text):
    """Whether the file `twice` has this text, and nothing is beside it. It is made again for the next run."""
    has, lock = Path("twice").read_bytes(), Path("twice.lock")
    is_alone = not lock.exists()
    lock.unlink(missing_ok=True)
    Path("twice").write_bytes(FILES["twice"])
    return has == text and is_alone


def refuse(refusing, mode, program, files):
    """Refuses each request of a mode with these files. Returns how often the program then failed, as it should."""
    global passed, failed
    words, refusals = [*mode.before, *files, *mode.after], 0
    for result, was_refused in refusing.runs([program, *words], FILES[mode.stdin]):
        is_whole = result == (mode.status, mode.printed, mode.said)
        if not is_left(ONCE if is_whole and "--in-place" in mode.before else FILES["twice"]):
            failed += 1
            print(f"{mode.program} {' '.join(words)[:200]}: files are left otherwise")
        elif is_whole or (was_refused and is_refusal(mode, result)):
            refusals += not is_whole
            passed += was_refused
        else:
            failed += 1
            print(f"{mode.program} {' '.join(words)[:200]}: {result}")
    return refusals


def main(programs):
    global failed
    programs = dict(zip((CHECK, VERIFY, SHORTLOG), (Path(program).resolve() for program in programs), strict=True))
    with tempfile.TemporaryDirectory() as folder:
        os.chdir(folder)
        for name, text in FILES.items():
            Path(name).write_bytes(text)
        refusing = Refusing()
        for mode in MODES:
            for files in mode.files:
                refusals = refuse(refusing, mode, programs[mode.program], files)
                print(f"{mode.program} {' '.join(mode.before)}, {len(files)} files: {refusals} failures")
                failed += refusals < len(files)
        os.chdir("/")
    print(f"refusals: {passed} passed, {failed} failed")
    sys.exit(1 if failed else 0)


main(sys.argv[1:])
