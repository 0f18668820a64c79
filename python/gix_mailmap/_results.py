"""What the calls return and raise."""

from __future__ import annotations

import base64
from enum import IntEnum
from typing import Any, AnyStr, Generic, NamedTuple, Optional


class Answer(NamedTuple, Generic[AnyStr]):
    """The new name and email of a contact, and whether the mailmap gives them. What it doesn't give is that of the
    contact, except that an email is spelled as in the first entry added for it. A changed spelling counts as given."""

    name: AnyStr
    email: AnyStr
    is_name_given: bool
    is_email_given: bool


class Entry(NamedTuple, Generic[AnyStr]):
    """An entry of a mailmap: the new name, the new email or both for contacts with this old email, and with this old
    name if there is one. What the entry doesn't have is None. Each entry has an old email.

    >>> Entry(new_name="Jane Doe", old_email="jd@y")
    Entry(new_name='Jane Doe', new_email=None, old_name=None, old_email='jd@y')
    """

    new_name: Optional[AnyStr] = None
    new_email: Optional[AnyStr] = None
    old_name: Optional[AnyStr] = None
    # Fields with a default come last, so this has one, which no mailmap takes.
    old_email: AnyStr = None  # type: ignore[assignment]


class Kind(IntEnum):
    """What may be wrong with a line of a mailmap. A line of one of the first four kinds gives no entry. A line of the
    kind UNCLOSED_SECOND gives the entry of its first contact, if that contact has a name. A later version of the
    library may have more kinds, whose `repr` shows their numbers:

    >>> Kind(100)
    <Kind.NUMBER_100: 100>
    """

    NO_EMAIL = 1  #: There is no `<`.
    MISSING_CLOSING_BRACKET = 2  #: The first `<` has no `>` after it.
    EMPTY_EMAIL = 3  #: The first email is empty or white space.
    NOTHING_TO_MAP = 4  #: There is only an email.
    UNCLOSED_SECOND = 5  #: The second `<` has no `>` after it.
    IGNORED_TEXT = 6  #: Text after the second email, or after the only one, is ignored.
    NO_EFFECT = 7  #: Later lines override the line, or other lines say it. Removing all such lines changes no answer.
    ITSELF_MAPPED = 8  #: The line maps to a contact that the mailmap maps to another.
    GIT_READS = 9  #: git reads the line differently.
    BYTE_ORDER_MARK = 10  #: The mailmap begins with U+FEFF, which is a part of its first line.
    COMMENT_IN_LINE = 11  #: A name begins with `#`, which begins a comment only as the first byte of a line.

    @classmethod
    def _missing_(cls, value: object) -> Optional[Kind]:
        if not isinstance(value, int) or value <= max(cls):
            return None
        kind = int.__new__(cls, value)
        kind._name_, kind._value_ = f"NUMBER_{value}", value
        return kind


class Finding(NamedTuple):
    """What is wrong with a line: the number of the line, counted from 1, the kind, and the words of `mailmap_verify`,
    which `str` gives. For Kind.NO_EFFECT `beside` is the number of the last line for the same old email, and the same
    old name if there is one, that does have an effect, before or after. For all other kinds `beside` is None. `text` is
    the ignored text, the contact that the line's new contact is mapped to, or what follows the words `git reads`, such
    as `it as Joe < joe@x >`, `it as 2 lines` or `nothing here`; otherwise None. `text` and `words` are always `str`."""

    line: int
    kind: Kind
    beside: Optional[int]
    text: Optional[str]
    words: str

    @classmethod
    def of(cls, line: int, number: int, other: int, words: str) -> Finding:
        """A finding of the library, with its words in the report on a mailmap without a name."""
        kind, text = Kind(number), None
        if kind == Kind.NO_EFFECT:
            words = words.replace("no effect: :", "no effect: line ")
        elif kind == Kind.IGNORED_TEXT:
            text = words.rpartition(" [")[0].partition("ignored text: ")[2]
            # Only a text that may be a name has a hint after it.
            name = text.removesuffix(" (an old name needs an email after it)")
            text = text if name.startswith("#") or set(name) & set("<>@") else name
        elif kind == Kind.GIT_READS:
            text = words.rpartition(" [")[0].partition("git reads ")[2]
        elif kind == Kind.ITSELF_MAPPED:
            said, by, lines = words.rpartition(" by ")
            # A name may have these words, but no `<`.
            text = said.partition("<")[2].partition("> is itself mapped, to ")[2]
            words = said + by + lines.replace(":", "line ")
        return cls(line, kind, other or None, text, words)

    def __str__(self) -> str:
        return self.words


class Position(NamedTuple):
    """A line of one of several mailmaps: the mailmap's index, counted from 0, and the line's number, from 1."""

    mailmap: int
    line: int


class Place(NamedTuple, Generic[AnyStr]):
    """A line of a file: the file's name and the line's number, counted from 1."""

    file: AnyStr
    line: int


class Named(NamedTuple, Generic[AnyStr]):
    """A name and an email that a message has, and a number: how often they come, or of what git reads, its lines. What
    a message doesn't have is None."""

    name: Optional[AnyStr]
    email: Optional[AnyStr]
    number: Optional[int]


class Notice(NamedTuple, Generic[AnyStr]):
    """A finding in mailmaps or contacts, in the words of `mailmap_verify`, without escapes: its file and line, its level
    (`error`, `warning` or `note`), its kind, such as `same-email`, its message, the other line that is referred to,
    the first one if there are two, what the message names, and what it names second. Texts that the message cuts are
    whole there."""

    file: AnyStr
    line: int
    level: str
    kind: str
    message: AnyStr
    at: Optional[Place[AnyStr]]
    named: Named[AnyStr]
    beside: Optional[Named[AnyStr]]


def notice_of(found: dict[str, Any], is_str: bool) -> Notice[Any]:
    """A notice of an object in the report as JSON."""
    at, beside = found.get("at"), found.get("beside")
    other = None if at is None else Place(_text_of(at["file"], is_str), at["line"])
    second = None if beside is None else _named_of(beside, is_str)
    file, message = _text_of(found["file"], is_str), _text_of(found["message"], is_str)
    named = _named_of(found, is_str)
    return Notice(file, found["line"], found["level"], found["kind"], message, other, named, second)


def _named_of(found: dict[str, Any], is_str: bool) -> Named[Any]:
    """What an object of the report as JSON names."""
    name, email = (_text_of(found[key], is_str) if key in found else None for key in ("name", "email"))
    return Named(name, email, found.get("count"))


def _text_of(member: dict[str, str], is_str: bool) -> Any:
    """A text of the report as JSON. What isn't UTF-8 is in Base64."""
    text = member["text"].encode() if "text" in member else base64.b64decode(member["bytes"])
    return text.decode("utf-8", "surrogateescape") if is_str else text


class Line(NamedTuple):
    """A line of a mailmap that gives an entry or has a fault: its number, counted from 1, the kind of the fault, which is
    None for an entry, and where its texts are in the mailmap. `text` is the line without the white space around it. The
    others are those of an entry, and None where it has none; each entry has an old email."""

    number: int
    kind: Optional[Kind]
    text: slice
    new_name: Optional[slice]
    new_email: Optional[slice]
    old_name: Optional[slice]
    old_email: Optional[slice]


class Error(Exception):
    """The base class of the errors of this module."""


class Closed(Error, ValueError):
    """The mailmap is closed."""


class OutOfMemory(Error, MemoryError):
    """There is not enough memory. The mailmap is as it was before the call."""


class NoEntry(Error, IndexError):
    """The mailmap has no entry at this index."""


class NotAnEntry(Error, ValueError):
    """Texts that make no entry: there is no new name and no new email, or an old name and no new email."""


class NotALine(Error, ValueError):
    """A line for `map_contacts` has a line feed before its end."""


class NotAText(Error, UnicodeEncodeError):
    """A `str` that can't be encoded: it has a surrogate that doesn't stand for a byte."""


class Unwritable(Error, ValueError):
    """An entry that `add_entry` added can't be written as a line."""


def encoded(text: str) -> bytes:
    """The bytes of a `str`, in which lone surrogates stand for bytes that aren't UTF-8. Raises NotAText."""
    try:
        return str.encode(text, "utf-8", "surrogateescape")
    except UnicodeEncodeError as error:
        raise NotAText(*error.args) from None


# What the extension module uses, in the order of its numbers for them.
FOR_NATIVE = (Closed, NotALine, OutOfMemory, NoEntry, NotAnEntry, Unwritable, encoded, Answer, Entry)
