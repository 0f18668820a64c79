"""The model of mailmaps: their lines, and the meaning of a list of entries.

A text is `bytes`; None means that there is none. A list of entries is in the order of merging, and each function
filters the whole list. The definitions are in `specs` of `mailmap_grammar` (`Lines`, `Trimming`), of `mailmap_entries`
(`Semantics`), of `mailmap_redundancy` (`Redundancy`) and of `mailmap_findings` (`Positions`).
"""
from typing import NamedTuple

# Unicode's white space, in UTF-8
WHITE_SPACE = tuple(
    chr(code).encode()
    for code in [*range(9, 14), 32, 0x85, 0xA0, 0x1680, *range(0x2000, 0x200B), 0x2028, 0x2029, 0x202F, 0x205F, 0x3000]
)

# U+FEFF
MARK = b"\xef\xbb\xbf"


# ---- texts

def folded(text):
    """Only ASCII letters change."""
    return text.lower()


def trim_start(text):
    while text.startswith(WHITE_SPACE):
        text = text[len(next(white for white in WHITE_SPACE if text.startswith(white))):]
    return text


def trim(text):
    """Trims white space at the start, and then at the end."""
    text = trim_start(text)
    while text.endswith(WHITE_SPACE):
        text = text[:-len(next(white for white in WHITE_SPACE if text.endswith(white)))]
    return text


def lines(buffer):
    """The lines, including their line feeds; the last one can lack it."""
    pieces = buffer.split(b"\n")
    return [piece + b"\n" for piece in pieces[:-1]] + [piece for piece in pieces[-1:] if piece]


def cut(text):
    """The texts before the first `<`, from there to the next `>`, and after it; None without both brackets."""
    before, _, after = text.partition(b"<")
    between, closing, rest = after.partition(b">")
    return (before, between, rest) if closing else None


def is_unclosed(text):
    return b"<" in text and cut(text) is None


# ---- lines

class Entry(NamedTuple):
    """The mapping of a line: from an old email, and an old name or any, to a new name, a new email or both."""

    new_name: bytes | None
    new_email: bytes | None
    old_name: bytes | None
    old_email: bytes

    @property
    def key(self):
        """The folded old email, and the folded old name if there is one. An entry without one sorts before those with
        one.
        """
        return (folded(self.old_email),) if self.old_name is None else (folded(self.old_email), folded(self.old_name))


def read(line, strict=False):
    """The entry of a line, the text of its fault, or None for a comment or a blank line.

    Only strict parsing reports a second contact without its `>`.
    """
    text = trim(line)
    if line.startswith(b"#") or not text:
        return None
    if b"<" not in text:
        return b"no email in brackets"
    if is_unclosed(text):
        return b"the first '<' has no '>'"
    name, email, rest = cut(text)
    if not trim(email):
        return b"the first email is empty"
    if strict and is_unclosed(rest):
        return b"the second '<' has no '>'"
    second = cut(rest)
    if second:
        old_name, old_email, _ = second
        return Entry(trim(name) or None, trim(email), trim(old_name) or None, trim(old_email))
    if trim(name):
        return Entry(trim(name), None, None, trim(email))
    return b"an email alone maps nothing"


def entry_of(line):
    said = read(line)
    return said if isinstance(said, Entry) else None


def entries_of(buffers):
    """The entries of buffers, one buffer after another."""
    return [entry for buffer in buffers for entry in map(entry_of, lines(buffer)) if entry]


def contact_of(line):
    """The name and the email at the start of a line of contacts, which can both be empty, or None if it is no contact.
    """
    contact = cut(trim(line))
    return contact and (trim(contact[0]), trim(contact[1]))


# ---- merged entries

def accepted(merged):
    """Entries that set neither a name nor an email don't count."""
    return [entry for entry in merged if entry.new_name is not None or entry.new_email is not None]


def last_given(texts):
    return ([None] + [text for text in texts if text is not None])[-1]


def value(entries, spelling):
    """The single entry that replaces all entries of a key; `spelling` is that of its email."""
    if entries[0].old_name is None:
        new_name = last_given(entry.new_name for entry in entries)
        return Entry(new_name, last_given(entry.new_email for entry in entries), None, spelling)
    return Entry(entries[-1].new_name, entries[-1].new_email, entries[0].old_name, spelling)


def normal_list(merged):
    """The values of all keys, sorted by key. The first entry of an email decides its spelling."""
    of_key, spelling = {}, {}
    for entry in accepted(merged):
        of_key.setdefault(entry.key, []).append(entry)
        spelling.setdefault(folded(entry.old_email), entry.old_email)
    return [value(of_key[key], spelling[key[0]]) for key in sorted(of_key)]


def new_fields(merged, name, email):
    """The new name and the new email of a contact, each None if it isn't set."""
    of_email = [entry for entry in accepted(merged) if folded(entry.old_email) == folded(email)]
    of_name = [entry for entry in of_email if entry.old_name is not None and folded(entry.old_name) == folded(name)]
    counting = of_name[-1:] or [entry for entry in of_email if entry.old_name is None]
    new_email = last_given(entry.new_email for entry in counting)
    if new_email is None and of_email and of_email[0].old_email != email:
        new_email = of_email[0].old_email
    return last_given(entry.new_name for entry in counting), new_email


def answer(merged, name, email):
    """The contact with its fields overridden."""
    new_name, new_email = new_fields(merged, name, email)
    return (name if new_name is None else new_name, email if new_email is None else new_email)


# ---- redundant entries

class Position(NamedTuple):
    """A line of one of several files. Files are counted from 0, lines from 1."""

    file: int
    line: int


class LocatedEntry(NamedTuple):
    position: Position
    entry: Entry


def entries(located):
    return [one.entry for one in located]


def one_pass(located):
    """Drops each entry, from first to last, that is redundant between the entries kept so far and all after it."""
    kept = []
    for index, one in enumerate(located):
        before, after = entries(kept), entries(located[index + 1:])
        if normal_list(before + [one.entry] + after) != normal_list(before + after):
            kept.append(one)
    return kept


def with_effect(located):
    """The effective entries: what repeated passes leave, the last of which drops nothing."""
    kept = one_pass(located)
    return kept if kept == located else with_effect(kept)
