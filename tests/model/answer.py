#!/usr/bin/env python3
"""Prints what the model says that a program prints.

    answer.py verify [FILE..]                        what mailmap_verify prints
    answer.py verify --prune [FILE]
    answer.py verify --explain [FILE..]
    answer.py verify --contacts CONTACTS [FILE..]
    answer.py verify --suggest CONTACTS [FILE..]
    answer.py shortlog [-n] [-e] [FILE..]            what mailmap_shortlog prints

Files, standard input and the status are as for the programs. There are no other options here, and if a file can't be
read, the words are others.
"""
import os
import sys
from pathlib import Path

sys.dont_write_bytecode = True
from contacts import explain, verify_contacts
from findings import prune, verify
from shortlog import shortlog, skipped
from suggest import suggest

STANDARD_INPUT = b"<stdin>"
DEFAULT = ".mailmap"


def all_of(paths):
    """The contents of files, and their names."""
    paths = list(paths)
    return [Path(path).read_bytes() for path in paths], [os.fsencode(path) for path in paths]


def all_or_default(paths):
    """Without a path, the default mailmap, if it is there."""
    return all_of(paths or [path for path in [DEFAULT] if Path(path).exists()])


def mailmaps_of(paths):
    """The contents and names of mailmaps, which can be standard input."""
    return ([sys.stdin.buffer.read()], [STANDARD_INPUT]) if paths == ["-"] else all_of(paths)


def pruned(paths):
    if len(paths) > 1:
        return 2, b"", b"mailmap_verify: --prune takes one FILE at most\n"
    (buffer,), (name,) = mailmaps_of(paths or [DEFAULT])
    return prune(buffer, name)


def verified_contacts(contacts, paths):
    if contacts == "-":
        return *verify_contacts(*all_or_default(paths), sys.stdin.buffer.read(), STANDARD_INPUT), b""
    (text,), (name,) = all_of([contacts])
    return *verify_contacts(*(mailmaps_of(paths) if paths else all_or_default([])), text, name), b""


def shortlogged(words):
    options = [word for word in words if word in ("-n", "-e")]
    buffers, _ = all_or_default([word for word in words if word not in options])
    contacts = sys.stdin.buffer.read()
    return 0, shortlog(buffers, contacts, "-n" in options, "-e" in options), skipped(contacts)


def suggested(contacts, paths):
    text = sys.stdin.buffer.read() if contacts == "-" else Path(contacts).read_bytes()
    buffers, _ = all_or_default(paths)
    return 0, suggest(buffers, text), b""


def answered(words):
    """The status, the output, and the text on standard error."""
    match words:
        case ["verify", "--prune", *paths]:
            return pruned(paths)
        case ["verify", "--explain", *paths]:
            return 0, explain(*all_of(paths), sys.stdin.buffer.read()), b""
        case ["verify", "--contacts", contacts, *paths]:
            return verified_contacts(contacts, paths)
        case ["verify", "--suggest", contacts, *paths]:
            return suggested(contacts, paths)
        case ["verify", *paths]:
            return *verify(*mailmaps_of(paths or [DEFAULT])), b""
        case ["shortlog", *words]:
            return shortlogged(words)
    return 2, b"", __doc__.encode()


def main():
    try:
        status, printed, said = answered(sys.argv[1:])
    except OSError as failure:
        status, printed, said = 2, b"", f"{failure}\n".encode()
    sys.stdout.buffer.write(printed)
    sys.stderr.buffer.write(said)
    sys.exit(status)


if __name__ == "__main__":
    main()
