"""The model of `mailmap_verify` and `--prune`.

The definitions are in `specs` of `mailmap_redundancy` (`Origins`), `mailmap_findings` (`Findings`, `Explanations`) and
of `mailmap_report` (`Kinds`, `Report`).
"""
from typing import NamedTuple

import git
from mailmap import (
    MARK, LocatedEntry, Position, cut, entries, entry_of, folded, lines, new_fields, read, trim, with_effect
)
from shown import alike_text, shortened, shown


class Line(NamedTuple):
    position: Position
    text: bytes


class Mailmaps:
    """The lines of mailmaps, their entries, and the effective ones among these."""

    def __init__(self, buffers):
        self.lines = [
            Line(Position(file, number), text)
            for file, buffer in enumerate(buffers)
            for number, text in enumerate(lines(buffer), 1)
        ]
        located = [LocatedEntry(line.position, entry_of(line.text)) for line in self.lines if entry_of(line.text)]
        self.merged = entries(located)
        self.effective = with_effect(located)

    def has_effect(self, position):
        return any(one.position == position for one in self.effective)


# ---- texts

def contact_text(name, email):
    return (name + b" " if name else b"") + b"<%b>" % email


def short_contact_text(name, email):
    return contact_text(shortened(name or b""), shortened(email))


def position_text(names, position):
    return b"%b:%d" % (names[position.file], position.line)


def positions_text(names, positions):
    return b", ".join(position_text(names, position) for position in positions)


# ---- kinds

# of each fault
FAULTS = {
    b"no email in brackets": b"no-email",
    b"the first '<' has no '>'": b"unclosed-email",
    b"the first email is empty": b"empty-email",
    b"an email alone maps nothing": b"nothing-to-map",
    b"the second '<' has no '>'": b"unclosed-second-email",
}


def error(text, kind):
    return b"error: %b [%b]" % (text, kind)


def warning(text, kind):
    return b"warning: %b [%b]" % (text, kind)


def note(text, kind):
    return b"note: %b [%b]" % (text, kind)


# ---- the lines behind an answer

def origins(effective, name, email):
    """The lines behind the new name, the new email, and if there is none, the spelling of the email.

    Each is a list of at most one position. Only effective entries count.
    """
    of_email = [one for one in effective if folded(one.entry.old_email) == folded(email)]
    of_name = [one for one in of_email if one.entry.key[1:] == (folded(name),)]
    counting = of_name[-1:] or [one for one in of_email if one.entry.old_name is None]
    names = [one.position for one in counting if one.entry.new_name is not None]
    emails = [one.position for one in counting if one.entry.new_email is not None]
    return names[-1:], emails[-1:], [] if emails else [one.position for one in of_email[:1]]


def behind(mailmaps, name, email):
    """The lines behind the new fields of a contact, in their order."""
    _, new_email = new_fields(mailmaps.merged, name, email)
    of_name, of_email, of_spelling = origins(mailmaps.effective, name, email)
    # the line that only spells the email isn't behind the answer if the email stays as it is
    return sorted(set(of_name + of_email + (of_spelling if new_email is not None else [])))


# ---- findings

def ignored(line):
    """The text after the last email of a line that has an entry."""
    rest = cut(trim(line))[2]
    second = cut(rest)
    return trim(second[2] if second else rest)


def looks_like_name(text):
    return not text.startswith(b"#") and not set(text) & set(b"<>@")


def ignored_text(text):
    cure = b" (an old name needs an email after it)" if looks_like_name(text) else b""
    return b"ignored text: " + shortened(text) + cure


def is_marked(line):
    return line.position.line == 1 and line.text.startswith(MARK)


def unmarked(text):
    return text.removeprefix(MARK)


COMMENT = b"the name begins with #, which begins a comment only as the first byte of a line"


def said_by_itself(line):
    """Findings about the text of a line: a fault or ignored text, a name like a comment, and what git reads."""
    strictly = read(line, strict=True)
    if isinstance(strictly, bytes):
        yield error(strictly, FAULTS[strictly])
    elif strictly and ignored(line):
        yield warning(ignored_text(ignored(line)), b"ignored-text")
    entry = entry_of(line)
    if entry and any(name and name.startswith(b"#") for name in (entry.new_name, entry.old_name)):
        yield warning(COMMENT, b"comment-in-line")
    if git.reads_otherwise(line):
        yield warning(b"git reads " + git.reading_text(line), b"git-reads")


def mapped_on(merged, entry, bare):
    """The contact that an entry maps to, and what that is mapped to. A contact without a name is looked up by its
    email. `bare` says that the entry is that of a line without its byte order mark: then marks before new names don't
    count.
    """
    name = entry.old_name if entry.new_name is None else entry.new_name
    email = entry.old_email if entry.new_email is None else entry.new_email
    new_name, new_email = new_fields(merged, name or b"", email)
    if bare and new_name is not None:
        new_name = trim(unmarked(new_name)) or None
    on_name = name if name is None or new_name is None else new_name
    return (name, email), (on_name, email if new_email is None else new_email)


def says_same(one, other):
    """Whether two entries give the same: no new field differs."""
    return (one.new_name, one.new_email) == (other.new_name, other.new_email)


def said_by_effect(mailmaps, names, line):
    """Findings about the entry of a line: no effect, or a contact that is itself mapped. The words are
    those for the line without a byte order mark.
    """
    entry, bare = entry_of(line.text), is_marked(line)
    taken = entry_of(unmarked(line.text)) if bare else entry
    if entry and not mailmaps.has_effect(line.position):
        beside = [one for one in mailmaps.effective if one.entry.key == entry.key][-1]
        what = b"the same" if says_same(taken or entry, beside.entry) else b"something else"
        yield warning(b"no effect: %b says %b" % (position_text(names, beside.position), what), b"no-effect")
    elif entry and taken:
        contact, on = mapped_on(mailmaps.merged, taken, bare)
        if contact != on:
            by = positions_text(names, behind(mailmaps, contact[0] or b"", contact[1]))
            shown_ones = short_contact_text(*contact), short_contact_text(*on)
            alike = alike_text(contact[0] or b"", on[0] or b"")
            yield warning(b"%b is itself mapped, to %b by %b%b" % (*shown_ones, by, alike), b"itself-mapped")


def findings(mailmaps, names, line):
    mark = [warning(b"byte order mark: delete it", b"byte-order-mark")] if is_marked(line) else []
    text = unmarked(line.text) if is_marked(line) else line.text
    return [*mark, *said_by_itself(text), *said_by_effect(mailmaps, names, line)]


def verify(buffers, names):
    """The status, and the report with a line for each finding."""
    mailmaps = Mailmaps(buffers)
    report = [
        shown(position_text(names, line.position) + b": " + finding)
        for line in mailmaps.lines
        for finding in findings(mailmaps, names, line)
    ]
    return (1 if report else 0), b"".join(report)


def prune(buffer, name):
    """The status, the output, and the text on standard error."""
    mailmaps = Mailmaps([buffer])
    for line in mailmaps.lines:
        if git.reads_otherwise(line.text):
            said = b"mailmap_verify: git reads %b otherwise" % position_text([name], line.position)
            return 2, b"", shown(said)
    left = [line.text for line in mailmaps.lines if not entry_of(line.text) or mailmaps.has_effect(line.position)]
    return 0, b"".join(left), b""
