#!/usr/bin/env python3
"""Appends suggested lines to the mailmaps of histories, and asks mailmap_check and git what they answer then.

    accepted.py MAILMAP_VERIFY MAILMAP_CHECK
    accepted.py                  the same with what tests/model prints and answers in place of the programs

The answers are written down for some histories. For those that a seed makes, the output is appended as it is, with all
`#?` deleted, and with those of some whole blocks deleted. Then each contact has the proper answer of the last block
that was accepted and has it, and else the answer from before. Where the output was appended as it is, no line is
suggested again. git reads all lines of these mailmaps as mailmap_check does. In some of these histories a block is too
long for git beside others that can be accepted, and in some a block has lost lines that the mailmap has already.
"""
import subprocess
import sys
import tempfile
from pathlib import Path

sys.dont_write_bytecode = True
TESTS = Path(__file__).resolve().parents[1]
sys.path += [str(TESTS), str(TESTS / "model")]
import runs
from findings import contact_text
from git import reads_otherwise
from mailmap import answer, contact_of, entries_of, folded, lines
from people import PeopleWriter, long_name
from repository import QUIET, has_git
from runs import run, wants
from suggest import (
    BY_EMAIL, BY_LOGIN, BY_NAME, is_remembered, line_text, lines_to_print, suggest, suggested_blocks, tallies_of,
)

SELECTIONS = 4
STAGES = [BY_EMAIL, BY_NAME, BY_LOGIN]


class Asked:
    """The programs and git, or the model and git. All read a mailmap from the file m and contacts from c."""

    def __init__(self, programs, folder):
        self.verify, self.check = programs or (None, None)
        self.mailmap, self.contacts = Path(folder, "m"), Path(folder, "c")
        subprocess.run(["git", "init", "-q", folder], check=True, env=QUIET)
        self.git_words = ["git", "-C", folder, "-c", f"mailmap.file={self.mailmap}", "check-mailmap", "--stdin"]

    def suggested(self, mailmap, contacts):
        if self.verify is None:
            return suggest([mailmap], contacts)
        self.mailmap.write_bytes(mailmap)
        self.contacts.write_bytes(contacts)
        return run(self.verify, ["--suggest", self.contacts, self.mailmap])[1]

    def answers(self, mailmap, contacts):
        return self.answers_to_lines(mailmap, b"".join(contact_text(*contact) + b"\n" for contact in contacts))

    def answers_to_lines(self, mailmap, text):
        """The answers of mailmap_check and of git to all contacts."""
        self.mailmap.write_bytes(mailmap)
        gits = subprocess.run(self.git_words, input=text, capture_output=True, check=True, env=QUIET).stdout
        if self.check is None:
            merged = entries_of([mailmap])
            ours = b"".join(contact_text(*answer(merged, *contact_of(line))) + b"\n" for line in lines(text))
        else:
            ours = run(self.check, [self.mailmap], text)[1]
        return ours.split(b"\n")[:-1], gits.split(b"\n")[:-1]


# ---- histories with their answers

A, B, C, D = "Ann Lee", "Bob Roe", "Cy Doe", "Dan Poe"
AT = "<dev@null>"
FOUR = [f"{name} {AT}" for name in (A, B, C, D)]
# one for all without a line of their own, and such lines
OWN_LINES = f"{FOUR[0]}\n" + "".join(f"{one} {one}\n" for one in FOUR[1:])
VIA = ["Ann Lee via List <list@x>", "Bob Roe <list@x>"]

# A mailmap; each contact, what it is with the output appended, and what with all lines accepted, if that is not the
# same. A contact is written as often as it comes.
TABLE = [
    ("one email", "", [("Ann Lee <a@x>", "Ann Lee <a@x>"), ("ann <A@x>", "Ann Lee <a@x>")]),
    ("three strangers", "", [(one, FOUR[0]) for one in FOUR[:3]]),
    ("four strangers", "", [(one, one) for one in FOUR]),
    ("four strangers, one with another spelling", "", [
        ("BOB ROE <DEV@null>", "BOB ROE <DEV@null>"), *[(one, one) for one in FOUR],
    ]),
    ("four strangers, one with a line", "Ann Lee <a@x> Ann Lee <dev@null>\n", [
        (FOUR[0], "Ann Lee <a@x>"), *[(one, one) for one in FOUR[1:]],
    ]),
    ("four strangers, one of whom has another email", "", [
        ("Ann Lee <a@x>", "Ann Lee <a@x>"), (FOUR[0], FOUR[0], "Ann Lee <a@x>"), *[(one, one) for one in FOUR[1:]],
    ]),
    ("four strangers, one of whom is alike", "", [
        ("Lee, Ann <a@x>", "Lee, Ann <a@x>"), (FOUR[0], FOUR[0], "Lee, Ann <a@x>"), *[(one, one) for one in FOUR[1:]],
    ]),
    ("four strangers and no name", "", [(AT, AT), *[(one, one) for one in FOUR]]),
    ("four strangers, one of whom also has no name", OWN_LINES, [
        (AT, FOUR[0]), ("Ann Lee <a@x>", "Ann Lee <a@x>"), *[(one, one) for one in FOUR],
    ]),
    ("two strangers by way of a list", "", [(one, one) for one in VIA]),
    ("accents", "", [
        ("J\xf6rg M\xfcller <j@x>", "J\xf6rg M\xfcller <j@x>"), ("Jorg Muller <j@y>", "Jorg Muller <j@y>",
                                                                "J\xf6rg M\xfcller <j@x>"),
    ]),
    ("a login", "", [
        ("Ann Lee <a@x>", "Ann Lee <a@x>"), ("al <annlee@y>", "al <annlee@y>", "Ann Lee <a@x>"),
    ]),
    ("no line feed", "Joe Doe <joe@x>", [
        ("joe <joe@x>", "Joe Doe <joe@x>"), ("Ann Lee <a@x>", "Ann Lee <a@x>"), ("ann <a@x>", "Ann Lee <a@x>"),
    ]),
    ("a line that is for an old name", "Ann Lee <a@x> al <l@x>\n", [
        ("AL <L@x>", "Ann Lee <a@x>"), ("Ann Lee <l@x>", "Ann Lee <l@x>", "Ann Lee <a@x>"),
    ]),
]
# git reads no longer line whole, with its line feed
PART = 1023


def long_lines():
    """The line for a name has the email twice, and as many bytes."""
    for length in range(PART - 3, PART + 3):
        name = "n" * (length - len(" <a@x> <a@x>"))
        first, second = f"{name} <a@x>", f"{name} <A@x>"
        yield f"a line of {length} bytes", "", [(first, first), (second, first if length < PART else second)]


def in_written_history(asked, what, mailmap, rows):
    contacts, as_is, accepted = zip(*[(row[0], row[1], row[-1]) for row in rows])
    text = "".join(contact + "\n" for contact in contacts).encode()
    output = asked.suggested(mailmap.encode(), text)
    for how, judged, wanted in ("as it is", output, as_is), ("all accepted", output.replace(b"\n#?", b"\n"), accepted):
        found = asked.answers_to_lines(mailmap.encode() + judged, text)
        for who, answers in zip(("mailmap_check", "git"), found):
            wants(f"{what}, {how}, {who}", (0, answers, b""), 0, [answer.encode() for answer in wanted])


# ---- histories of a seed

def some_lines(choices, text):
    """A text without some of the lines that were not accepted."""
    return b"".join(line for line in text.splitlines(keepends=True) if line[:2] != b"#?" or choices.chance(0.6))


def made(sort, number):
    """A mailmap and contacts. In some the mailmap has earlier suggestions, as somebody judged them."""
    writer = PeopleWriter(f"{sort} {number}")
    choices, (names, emails) = writer.choices, writer.people[0]
    names += len(names) * [long_name(emails[0], PART)] if sort == TOO_LONG else []
    mailmap, contacts = writer.mailmap() if choices.chance(0.7) else b"", writer.contacts()
    if sort == IN_PART or choices.chance(0.4):
        judged = writer.judged(suggest([mailmap], contacts))
        mailmap += some_lines(choices, judged) if sort == IN_PART else judged
        contacts += b"\n" + writer.contacts() if choices.chance(0.5) else b""
    return choices, mailmap, contacts


def is_read_alike(mailmap, contacts):
    texts = [text for one in tallies_of(contacts) for text in one.contact]
    return not any(map(reads_otherwise, lines(mailmap))) and not any(b"\0" in text for text in texts)


def is_too_long(mailmap, contacts):
    """Whether a block is too long for git, and another one can be accepted."""
    blocks = suggested_blocks([mailmap], tallies_of(contacts))
    return any(block.is_too_long for block in blocks) and any(block.needs_review and block.entries for block in blocks)


def is_printed_in_part(mailmap, contacts):
    """Whether a block has some of its lines, since the mailmap has the others."""
    return any(0 < len(lines_to_print([mailmap], block)) < len(block.entries)
               for block in suggested_blocks([mailmap], tallies_of(contacts)))


ANY, TOO_LONG, IN_PART = "accepted", "too long", "in part"
# how many histories there are of a sort, and whether one is of it
SORTS = {ANY: (300, lambda *history: True), TOO_LONG: (60, is_too_long), IN_PART: (60, is_printed_in_part)}


def histories():
    for sort, (count, is_of_sort) in SORTS.items():
        found, number = 0, 0
        while found < count:
            number += 1
            choices, mailmap, contacts = made(sort, number)
            if is_read_alike(mailmap, contacts) and is_of_sort(mailmap, contacts):
                found += 1
                yield f"history {number}, {sort}", choices, mailmap, contacts


# ---- what is promised

def remembered(block, mailmap):
    """The contacts of a block whose lines the mailmap has already."""
    printed = lines_to_print([mailmap], block)
    keys = {entry.key for entry in block.entries if b"#?" + line_text(entry) not in printed}
    own = {entry.key for entry in block.entries}

    def key(name, email):
        one = folded(email), folded(name)
        return one if one in own else one[:1]

    return {contact for contact in block.group if key(*contact) in keys} if block.needs_review else set()


def left_out(blocks, accepted):
    """The contacts of blocks that are too long for git and have one in an accepted block of a later stage, whose lines
    may be for all of them.
    """
    return {contact for block in blocks if block.is_too_long for other in accepted
            if STAGES.index(other.stage) > STAGES.index(block.stage) and set(other.group) & set(block.group)
            for contact in block.group}


def text_of(output, blocks, accepted):
    """The output without the `#?` of the accepted blocks. A block ends with an empty line."""
    first = b"\n" if output.startswith(b"\n") else b""
    parts = output[len(first):].split(b"\n\n")[:-1]
    assert len(parts) == len(blocks), output
    judged = [part.replace(b"\n#?", b"\n") if block in accepted else part for part, block in zip(parts, blocks)]
    return first + b"".join(part + b"\n\n" for part in judged)


def wanted(contacts, before, blocks, mailmap):
    """The answers after the lines of some blocks, from those before them."""
    answers = dict(zip(contacts, before))
    for block in blocks:
        if block.entries:
            left = answers.keys() & set(block.group) - remembered(block, mailmap)
            answers |= {contact: contact_text(*block.proper) for contact in left}
    return [answers[contact] for contact in contacts]


def wants_answers(asked, what, mailmap, contacts, output, blocks, accepted):
    before = asked.answers(mailmap, contacts)
    after = asked.answers(mailmap + text_of(output, blocks, accepted), contacts)
    sure = [block for block in blocks if not block.needs_review] + accepted
    for who, old, new in zip(("mailmap_check", "git"), before, after):
        wants(f"{what}, {who}", (0, new, b""), 0, wanted(contacts, old, sure, mailmap))


def selections(choices, review):
    """Some blocks in their order: none, all, and any."""
    yield "as it is", []
    if review:
        yield "all accepted", review
        for number in range(SELECTIONS):
            yield f"selection {number}", [block for block in review if choices.chance(0.5)]


def in_history(asked, what, choices, mailmap, text):
    tallies = tallies_of(text)
    blocks = [one for one in suggested_blocks([mailmap], tallies) if not is_remembered([mailmap], one)]
    contacts = [one.contact for one in tallies]
    output = asked.suggested(mailmap, text)
    wants(f"{what}, suggested", (0, output, b""), 0, suggest([mailmap], text))
    for how, accepted in selections(choices, [block for block in blocks if block.needs_review]):
        others = left_out(blocks, accepted)
        asked_about = [contact for contact in contacts if contact not in others]
        wants_answers(asked, f"{what}, {how}", mailmap, asked_about, output, blocks, accepted)
    again = asked.suggested(mailmap + output, text).split(b"\n")
    wants(f"{what}, again", (0, [line for line in again if line and not line.startswith(b"# ")], b""), 0, [])


def main():
    programs = [str(Path(path).resolve()) for path in sys.argv[1:]]
    if not has_git("accepted lines"):
        return
    with tempfile.TemporaryDirectory() as folder:
        asked = Asked(programs, folder)
        for row in [*TABLE, *long_lines()]:
            in_written_history(asked, *row)
        for history in histories():
            in_history(asked, *history)
    print(f"accepted: {runs.passed} passed, {runs.failed} failed")
    sys.exit(1 if runs.failed else 0)


main()
