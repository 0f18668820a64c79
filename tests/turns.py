#!/usr/bin/env python3
"""Runs the programs with reads and writes that move few bytes at a time, fail or are interrupted (turns.c).

    turns.py MAILMAP_CHECK MAILMAP_VERIFY MAILMAP_SHORTLOG

An interrupted read or write is repeated, however often, one that would block is not, and nothing is read after the end.
Before a read that fails, all lines that ended are answered or explained, if these come in turn. What is written before a
write that fails is the beginning of the output.
"""
import os
import subprocess
import sys
import tempfile
from pathlib import Path

sys.dont_write_bytecode = True
import runs

HERE = Path(__file__).resolve().parent
CHECK, VERIFY, SHORTLOG = "mailmap_check", "mailmap_verify", "mailmap_shortlog"
INPUT = b"--\nb <A@x>\np"
MAILMAP = b"N <a@x>\n"
# What is found in the input as a mailmap, the explanations of the lines that ended, and those of all lines.
FOUND = b"<stdin>:1: error: no email in brackets [no-email]\n<stdin>:3: error: no email in brackets [no-email]\n"
EXPLAINED = b"-- is no contact\nb <A@x> is N <a@x> by map:1\n"
ALL_EXPLAINED = EXPLAINED + b"p is no contact\n"
# What is found in it as contacts, and the lines that it suggests.
BESIDE = (b"<stdin>:1: error: no contact [no-contact]\n<stdin>:2: warning: git answers N <A@x> [git-answers]\n"
          b"<stdin>:3: error: no contact [no-contact]\n")
SUGGESTED = b"# 1 N <a@x>\n# 1 N <A@x> by git\nN <a@x> <A@x>\n\n"
COUNTED = b"     1\tN\n"
OFTEN = "i" * 5_000
MEMORY, OUTPUT = b"out of memory", b"cannot write output"
UNREAD, BLOCKED = b"cannot read standard input", b"standard input: cannot be read"
# The program, its arguments, the turns of its reads, and its output; or the output before a failure, and the failure.
READS = [
    (CHECK, "", "m", b"", MEMORY),
    (CHECK, "", "x", b"", UNREAD),
    (CHECK, "", "*0x", b"b <A@x>\np\n"),
    (CHECK, "", "i1i", b"b <A@x>\np\n"),
    (CHECK, "map", "6i", b"--\nN <a@x>\np\n"),
    (CHECK, "map", "5ib", b"--\n", UNREAD),
    (CHECK, "map", OFTEN, b"--\nN <a@x>\np\n"),
    (CHECK, "--compact map", "x", b" N <a@x>\n"),
    (CHECK, "--compact map other", "x", b" M <a@x>\n"),
    (CHECK, "--compact", "x", b"", UNREAD),
    (VERIFY, "--prune -", "1i", INPUT),
    (VERIFY, "--explain map", "*ib", EXPLAINED, BLOCKED),
    (VERIFY, "--contacts - map", "11i", BESIDE),
    (VERIFY, "--suggest - map", "1i", SUGGESTED),
    (SHORTLOG, "map", "1111111111", COUNTED),
    (SHORTLOG, "map", "8i", COUNTED),
    (SHORTLOG, "map", "5b", b"", BLOCKED),
    (SHORTLOG, "map", "*ib", b"", BLOCKED),
]
# The same with the turns of writes.
WRITES = [
    (CHECK, "", "30", b"b <", OUTPUT),
    (CHECK, "", "x", b"", OUTPUT),
    (CHECK, "", "1i2", b"b <A@x>\np\n"),
    (CHECK, "map", "*x", b"--\nN <a@x>\n", OUTPUT),
    (CHECK, "map", "11i", b"--\nN <a@x>\np\n"),
    (CHECK, "map", OFTEN, b"--\nN <a@x>\np\n"),
    (CHECK, "--compact map", "x", b"", OUTPUT),
    (VERIFY, "map", "x", b""),
    (VERIFY, "-", "1", FOUND),
    (VERIFY, "-", "x", b"", OUTPUT),
    (VERIFY, "--prune -", "20", b"--", OUTPUT),
    (VERIFY, "--prune -", "x", b"", OUTPUT),
    (VERIFY, "--prune -", "12", INPUT),
    (VERIFY, "--explain map", "x", b"", OUTPUT),
    (VERIFY, "--explain map", "*x", EXPLAINED, OUTPUT),
    (VERIFY, "--explain map", "1i", ALL_EXPLAINED),
    (VERIFY, "--contacts - map", "1", BESIDE),
    (VERIFY, "--suggest - map", "1", SUGGESTED),
    (SHORTLOG, "map", "111", COUNTED),
    (SHORTLOG, "map", "x", b"", OUTPUT),
]
SKIPPED = b"mailmap_shortlog: lines without a contact: 2; the first is line 1\n"


def run(library, program, words, reads, writes):
    env = {"LD_PRELOAD": library, "READS": reads, "WRITES": writes}
    done = subprocess.run([program, *words.split()], input=INPUT, capture_output=True, env=env, timeout=60)
    return done.returncode, done.stdout, done.stderr


def wants(library, name, program, words, turns, printed, failure=None):
    reads, writes = turns
    done = run(library, program, words, reads, writes)
    if failure:
        runs.wants(f"{name} {words} {turns}", done, 2, printed, b"%b: %b\n" % (name.encode(), failure))
    else:
        runs.wants(f"{name} {words} {turns}", done, int(printed in (FOUND, BESIDE)), printed, SKIPPED if name == SHORTLOG else b"")


def main(paths):
    programs = dict(zip((CHECK, VERIFY, SHORTLOG), (Path(path).resolve() for path in paths), strict=True))
    with tempfile.TemporaryDirectory() as folder:
        os.chdir(folder)
        Path("map").write_bytes(MAILMAP)
        Path("other").write_bytes(b"M <A@x>")
        library = os.path.abspath("turns.so")
        flags = ["-std=gnu11", "-O1", "-fPIC", "-shared", "-Wall", "-Wextra", "-Werror"]
        subprocess.run([os.environ.get("CC", "cc"), *flags, HERE / "turns.c", "-o", library], check=True)
        for name, words, turns, *wanted in READS:
            wants(library, name, programs[name], words, (turns, ""), *wanted)
        for name, words, turns, *wanted in WRITES:
            wants(library, name, programs[name], words, ("", turns), *wanted)
        os.chdir("/")
    print(f"turns: {runs.passed} passed, {runs.failed} failed")
    sys.exit(1 if runs.failed else 0)


main(sys.argv[1:])
