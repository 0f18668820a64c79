#!/usr/bin/env python3
"""Compares what mailmap_verify says of git's answers to contacts with white space and odd bytes with what git answers.

    git_contacts.py MAILMAP_VERIFY MAILMAP_CHECK
    git_contacts.py                  the same with tests/model in place of the programs

A seed makes mailmaps and contacts. What git answers without a mailmap is a contact as git reads it. `git answers` has
to be reported on the first line of each contact, as git reads it, that git answers otherwise than mailmap_check: with
git's answer, and on no other line. git reads no contact where a zero byte comes before the `>`.
"""
import base64
import json
import random
import subprocess
import sys
import tempfile
from pathlib import Path

sys.dont_write_bytecode = True
TESTS = Path(__file__).resolve().parent
sys.path.append(str(TESTS / "model"))
import runs
from contacts import other_git_answers
from findings import Mailmaps, contact_text
from git import git_entries_of
from mailmap import answer, contact_of, lines
from repository import QUIET, has_git
from runs import run, wants

HISTORIES, CONTACTS = 40, 50
NAMES = [b"jd", b"JD", b"x y", b""]
EMAILS = [b"jd@y", b"JD@Y", b"a", b""]
# Unicode's and ASCII's white space, bytes that are no text, and what has a meaning in a line
ODD = [
    b" ", b"  ", b"\t", b"\r", b"\x0b", b"\x0c", b"\xc2\xa0", b"\xe2\x80\x83", b"\xc2\x85", b"\x85", b"\xff",
    b"\xe2\x80", b"\x1b", b"\0", b"<", b">", b"#", b"a", b"\xc3\xa9",
]

# A mailmap, a contact, and git's answer if it is another one than ours.
ANSWERS = [
    (b"Jane <jd@y>\n", b"jd <jd@y >", b"jd <jd@y >"),
    (b"Jane <jd@y>\n", b"jd < jd@y>", b"jd < jd@y>"),
    (b"Jane <jd@y>\n", b"jd <jd@y\xc2\xa0>", b"jd <jd@y\xc2\xa0>"),
    (b"Jane <jd@y>\n", b" jd <jd@y>", None),
    (b"Jane <jd@y>\n", b"jd <jd@y> and <a@b >", None),
    (b"Jane < jd@y >\n", b"jd < jd@y >", b"Jane < jd@y >"),
    (b"Jane <j@x> jd <jd@y>\n", b"jd  <jd@y>", None),
    (b"Jane <j@x> jd <jd@y>\n", b" jd <jd@y>", b" jd <jd@y>"),
    (b"Jane <j@x> jd <jd@y>\n", b"jd\x0b<jd@y>", b"jd\x0b <jd@y>"),
    (b"", b"jd <jd@y>", None),
    (b"", b"jd<jd@y>", None),
    (b"", b"jd \t\r<jd@y> \r", None),
    (b"", b"\tjd <jd@y>", b"\tjd <jd@y>"),
    (b"", b" <jd@y>", None),
    (b"", b"\x0c<jd@y>", b"\x0c <jd@y>"),
    (b"", b"jd < >", b"jd < >"),
    (b"", b"jd <jd@y>\0", None),
    # git reads no contact
    (b"", b"jd\0 <jd@y >", None),
    (b"", b"jd <jd@y \0>", None),
    (b"", b"jd <jd@y", None),
]


class Writer:
    def __init__(self, seed):
        self.draw = random.Random(seed)

    def odd(self, share):
        """One or two odd texts, with this probability."""
        count = self.draw.randrange(1, 3) if self.draw.random() < share else 0
        return b"".join(self.draw.choice(ODD) for _ in range(count))

    def around(self, texts, share):
        return self.odd(share) + self.draw.choice(texts) + self.odd(share)

    def contact(self):
        share = self.draw.choice([0, 0.1, 0.4])
        name, email = self.around(NAMES, share) + self.draw.choice([b"", b" "]), self.around(EMAILS, share)
        return b"%b<%b>%b" % (name, email, self.odd(share))

    def mailmap(self):
        """Up to six lines, some of which have odd texts in their old emails."""
        written = b""
        for _ in range(self.draw.randrange(7)):
            new = self.draw.choice([b"New <n@x>", b"<n@x>", b"New"])
            old_name = b"" if new == b"New" else self.draw.choice(NAMES)
            written += b"%b %b <%b>\n" % (new, old_name, self.around(EMAILS, 0.3))
        return written


class Asked:
    """The programs and git, or the model and git. All read a mailmap from the file m and contacts from c."""

    def __init__(self, programs, folder):
        self.verify, self.check = programs or (None, None)
        self.mailmap, self.contacts = Path(folder, "m"), Path(folder, "c")
        self.folder = folder

    def git(self, contacts, words=()):
        """git's answers; None for each contact that it can't read, where it ends."""
        found = []
        while len(found) < len(contacts):
            rest = b"".join(contact + b"\n" for contact in contacts[len(found):])
            done = subprocess.run(["git", "-C", self.folder, *words, "check-mailmap", "--stdin"], input=rest,
                                  capture_output=True, env=QUIET)
            found += done.stdout.split(b"\n")[:-1] + [None] * (done.returncode != 0)
        return found

    def gits(self, contacts):
        """How git reads the contacts, and what it answers with the mailmap."""
        subprocess.run(["git", "init", "-q", self.folder], check=True, env=QUIET)
        return self.git(contacts), self.git(contacts, ["-c", f"mailmap.file={self.mailmap}"])

    def ours(self, contacts):
        text = b"".join(contact + b"\n" for contact in contacts)
        if self.check is not None:
            return run(self.check, [self.mailmap], text)[1].split(b"\n")[:-1]
        merged = Mailmaps([self.mailmap.read_bytes()]).merged
        read = [contact_of(line) for line in lines(text)]
        return [contact and contact_text(*answer(merged, *contact)) for contact in read]

    def reported(self, contacts):
        """The lines with `git answers`, each with the answer."""
        text = b"".join(contact + b"\n" for contact in contacts)
        if self.verify is None:
            buffers = [self.mailmap.read_bytes()]
            numbered = [(number, contact_of(line), line) for number, line in enumerate(lines(text), 1)]
            found = other_git_answers(Mailmaps(buffers), git_entries_of(buffers), numbered)
            return [(number, contact_text(*contact)) for number, contact in found]
        self.contacts.write_bytes(text)
        printed = run(self.verify, ["-f", "json", "--contacts", self.contacts, self.mailmap])[1]
        said = [one for one in map(json.loads, printed.splitlines()) if one["kind"] == "git-answers"]
        return [(one["line"], bytes_of(one["message"]).removeprefix(b"git answers ")) for one in said]


def bytes_of(message):
    return message["text"].encode() if "text" in message else base64.b64decode(message["bytes"])


def expected(asked, contacts):
    """The first line of each contact, as git reads it, that git answers otherwise, with git's answer."""
    known, found = {None}, []
    for number, (read, gits, ours) in enumerate(zip(*asked.gits(contacts), asked.ours(contacts), strict=True), 1):
        if read not in known and gits != ours:
            found.append((number, gits))
        known.add(read)
    return found, len(known) - 1


def table(asked, is_git_here):
    for mailmap, contact, gits in ANSWERS:
        asked.mailmap.write_bytes(mailmap)
        wanted = [] if gits is None else [(1, gits)]
        wants(f"{contact} with {mailmap}", (0, asked.reported([contact]), b""), 0, wanted)
        if is_git_here:
            wants(f"git: {contact} with {mailmap}", (0, expected(asked, [contact])[0], b""), 0, wanted)


def made(asked):
    """The number of contacts that git reads, each once a history, and of those that it answers otherwise."""
    read = other = 0
    for seed in range(HISTORIES):
        writer = Writer(seed)
        asked.mailmap.write_bytes(writer.mailmap())
        contacts = [writer.contact() for _ in range(CONTACTS)]
        wanted, count = expected(asked, contacts)
        wants(f"the contacts of seed {seed}", (0, asked.reported(contacts), b""), 0, wanted)
        read, other = read + count, other + len(wanted)
    return read, other


def main():
    programs = [str(Path(program).resolve()) for program in sys.argv[1:]]
    with tempfile.TemporaryDirectory() as folder:
        asked = Asked(programs, folder)
        is_git_here = has_git("contacts beside git")
        table(asked, is_git_here)
        if is_git_here:
            read, other = made(asked)
            print(f"{HISTORIES * CONTACTS} contacts; git reads {read} different ones, and answers {other} otherwise")
            runs.failed += other < 200
    print(f"git contacts: {runs.passed} passed, {runs.failed} failed")
    sys.exit(runs.failed > 0)


main()
