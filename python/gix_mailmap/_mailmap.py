"""The class Mailmap, and the functions that take the text of a mailmap."""

from __future__ import annotations

import errno
import json
import os
import sys
import warnings
from array import array
from bisect import bisect_left
from collections.abc import Sequence
from itertools import accumulate
from pathlib import Path
from typing import TYPE_CHECKING, Any, AnyStr, Callable, Iterable, Iterator, NoReturn, Optional, Self, Union, overload

from . import _native
from ._results import Entry, Finding, Kind, Line, Notice, Position, encoded, notice_of

if TYPE_CHECKING:
    from ._native import AnyText, Buffer, BytesText, StrText, Text, of_contacts, of_mailmap, of_mailmaps, of_named
else:
    of_contacts = of_mailmap = of_mailmaps = of_named = lambda function: function

LONGEST_PATH = 4096


class Mailmap(_native.Mailmap[AnyStr], Sequence[Entry[AnyStr]]):
    """A mailmap, which stays open until `close`, or until the end of its `with` block.

    A later entry replaces an earlier one for the same old email and old name. A later entry without an old name
    replaces only the name or the email that it gives. Lines that can't be parsed are skipped. `lookup` takes a name and
    an email as they are, `str` or bytes, and returns what the mailmap doesn't change as the same object.

    A Mailmap is a sequence of its entries, sorted by old email, then by old name, without regard to the case of ASCII
    letters. Entries are `str` if the mailmap was opened from `str`, otherwise bytes. To get a single entry, the library
    goes over all entries before it; `entries` returns all of them at once. `write` begins lines as `compact` does.

    >>> with Mailmap("N <a@x>\\nM <a@x>\\n") as mailmap:
    ...     mailmap.add_entry(Entry("Jane Doe", None, None, "jd@y"))
    ...     len(mailmap), mailmap[0].new_name, [entry.old_email for entry in mailmap], mailmap.write()
    (2, 'M', ['a@x', 'jd@y'], ' M <a@x>\\n Jane Doe <jd@y>\\n')

    Threads may share a mailmap: no other thread runs during a call. Each call except `close`, `closed` and `repr` raises
    Closed once the mailmap is closed. A mailmap that nothing refers to is closed. A forked process has a copy of its own.
    """

    __slots__ = ("__weakref__",)

    @overload
    def __init__(self: Mailmap[bytes], *texts: BytesText) -> None: ...
    @overload
    def __init__(self: Mailmap[str], *texts: StrText) -> None: ...
    def __init__(self, *texts: Any) -> None:
        """Opens the mailmaps `texts`, one after the other. Warns of a text that names a file. Raises OutOfMemory."""
        for text in filter(_names_file, texts):
            warnings.warn(f"{text!r} is read as a mailmap of one line; from_path opens a file", stacklevel=2)
        super().__init__(*texts)

    @classmethod
    def from_path(cls, path: Union[str, os.PathLike[str]]) -> Mailmap[str]:
        """Opens the mailmap in a file, as `str`. Raises OSError and OutOfMemory."""
        of_str: type[Mailmap[str]] = cls  # type: ignore[assignment]
        with open(path, encoding="utf-8", errors="surrogateescape", newline="") as file:
            return of_str(file)

    @classmethod
    def of_repository(cls, path: Union[str, os.PathLike[str]] = ".") -> Mailmap[str]:
        """Opens the file `.mailmap` at the top of the git work tree that a path is in. Without this file, or if it is a
        symbolic link, which git doesn't follow either, the mailmap is empty. This is all that is read: git's settings
        `mailmap.file` and `mailmap.blob`, and the mailmap in a bare repository, are not. Raises OSError,
        FileNotFoundError if the path is in no work tree, and OutOfMemory."""
        of_str: type[Mailmap[str]] = cls  # type: ignore[assignment]
        for found in (parent / ".mailmap" for parent in (Path(path).resolve() / ".git").parents):
            if found.with_name(".git").exists():
                return of_str.from_path(found) if found.exists() and not found.is_symlink() else of_str("")
        raise FileNotFoundError(errno.ENOENT, "not in a git work tree", str(path))

    @overload
    def map_contact(self, contact: str) -> str: ...
    @overload
    def map_contact(self, contact: Buffer) -> bytes: ...
    def map_contact(self, contact: Any) -> Any:
        """Maps one contact, such as `Jane <jane@x>`. What isn't a contact is returned as it is. Raises NotALine.

        >>> with Mailmap("Jane Doe <jane@x> <jd@y>") as mailmap:
        ...     mailmap.map_contact("jd <JD@y>")
        'Jane Doe <jane@x>'
        """
        len(self)  # raises Closed
        return self._of_trimmed(next(_native.Stream(Mailmap(), [contact])))

    @overload
    def map_contacts(self, lines: Iterable[str]) -> Iterator[str]: ...
    @overload
    def map_contacts(self, lines: Iterable[Buffer]) -> Iterator[bytes]: ...
    def map_contacts(self, lines: Iterable[Any]) -> Iterator[Any]:
        """Maps lines of contacts, such as `Jane <jane@x>`, one after the other, and returns other lines as they are.

        For many lines this is faster than as many lookups. The lines may be `str` or bytes, with or without the line
        feed at the end, as those of a file. The answers have none:

        >>> with Mailmap("Jane Doe <jane@x> <jd@y>") as mailmap:
        ...     list(mailmap.map_contacts(["jd <JD@y>\\n", "plain\\n"]))
        ['Jane Doe <jane@x>', 'plain']

        A line is read when its answer is requested, and mapped with the mailmap as it is then. Call this once with all
        lines: each call reads the whole mailmap again, and so does the first line after a change. If the mailmap has an
        entry that can't be written as a line, this is no faster than lookups. Raises NotALine for a line feed inside.
        """
        if isinstance(lines, (str, bytes, bytearray, memoryview)):
            raise TypeError(f"expected an iterable of lines, not {type(lines).__name__}")
        return _native.Stream(self, lines)

    def _of_trimmed(self, line: Union[str, bytes]) -> Union[str, bytes]:
        """The answer to a line, by a lookup. A contact has to be `NAME <EMAIL>` or `<EMAIL>`, without other spaces."""
        name, bracket, rest = (encoded(line) if isinstance(line, str) else line).partition(b"<")
        if not bracket or b">" not in rest:
            return line
        found = self.lookup(name[:-1], rest[:-1])
        answer = b"%b <%b>" % found[:2] if found.name else b"<%b>" % found.email
        return answer.decode("utf-8", "surrogateescape") if isinstance(line, str) else answer

    def __iter__(self) -> Iterator[Entry[AnyStr]]:
        return iter(self.entries())

    def __reversed__(self) -> Iterator[Entry[AnyStr]]:
        return reversed(self.entries())

    def index(self, entry: Any, start: int = 0, stop: int = sys.maxsize) -> int:
        """The index of an entry. Raises ValueError if there is none."""
        return self.entries().index(entry, start, stop)

    def __repr__(self) -> str:
        return f"<{type(self).__name__}: {'closed' if self.closed else f'{len(self)} entries'}>"

    def __reduce__(self) -> NoReturn:
        raise TypeError("a Mailmap can't be pickled: make a new one of its write()")

    def __enter__(self) -> Self:
        len(self)  # raises Closed
        return self

    def __exit__(self, *error: object) -> None:
        self.close()


@of_contacts
def check(mailmap: Any, contacts: Any) -> Union[str, bytes]:
    """Maps each line of `contacts`, such as `Jane <jane@x>`, with the mailmap: an answer for each line. A line that
    isn't a contact is its own answer. Raises OutOfMemory, as all these functions do.

    >>> check("Jane Doe <jane@x> <jd@y>", "jd <JD@y>\\nplain")
    'Jane Doe <jane@x>\\nplain\\n'
    """
    return _native.check(mailmap, contacts)


@of_mailmap
def compact(mailmap: Any) -> Union[str, bytes]:
    """A mailmap with the same entries, sorted by old email, without comments, what can't be read and what later lines
    override. Each line begins with a space, so that a name such as `#1` doesn't make it a comment. git may answer
    differently with the result if `verify` finds Kind.GIT_READS.

    >>> compact("N <a@x>\\nM <a@x>\\n")
    ' M <a@x>\\n'
    """
    return _native.compact(mailmap)


@of_mailmap
def prune(mailmap: Any) -> Union[str, bytes]:
    """The mailmap without the lines that have no effect. All others stay byte for byte. As to git, see `compact`.

    >>> prune("N <a@x>\\n# why\\nM <a@x>\\n")
    '# why\\nM <a@x>\\n'
    """
    return _native.prune(mailmap)


def verify(mailmap: Text) -> list[Finding]:
    """What is wrong with the lines of a mailmap, in their order.

    >>> for finding in verify("Jane <jd@y>\\nJane Doe <jd@y> # boss\\n"):
    ...     print(finding.line, finding)
    1 warning: no effect: line 2 says something else [no-effect]
    2 warning: ignored text: # boss [ignored-text]
    """
    found, messages = _native.verify(mailmap)
    # The words of a finding follow its line's number, as in `:2: warning: ignored text: # boss [ignored-text]`.
    return [Finding.of(*one, words=line.partition(": ")[2]) for one, line in zip(found, messages.split("\n"))]


# in the order of the library's numbers for them
_FORMATS = ("gcc", "json", "github")


@of_named
def report(mailmaps: Iterable[tuple[Any, Any]], contacts: Any = None, format: str = "gcc") -> Union[str, bytes]:
    """What is wrong with mailmaps, each with its name, as `mailmap_verify` prints it: a line for each finding. They are
    read one after another, as if they were one. Without any text the result is empty bytes, even for a type `str`.

    >>> print(report([("team", "Jane <jd@y>\\n"), ("own", "plain\\nJane Doe <jd@y>\\n")]), end="")
    team:1: warning: no effect: own:2 says something else [no-effect]
    own:1: error: no email in brackets [no-email]

    With contacts, a pair of a name and a text with a contact on each line, also what `mailmap_verify --contacts` finds
    in them. In the format "json" each finding is an object on a line of its own, and in the format "github" an
    annotation, which GitHub shows at a line of a file. `findings` has the same as `Notice`s.
    """
    texts = [*([] if contacts is None else _named([contacts])), *_named(mailmaps)]
    if format not in _FORMATS:
        raise ValueError(f"the format is 'gcc', 'json' or 'github', not {format!r:.80}")
    return _native.report(_FORMATS.index(format), contacts is not None, *texts)


@overload
def findings(
    mailmaps: Iterable[tuple[str, StrText]], contacts: Optional[tuple[str, StrText]] = None
) -> list[Notice[str]]: ...
@overload
def findings(
    mailmaps: Iterable[tuple[Buffer, BytesText]], contacts: Optional[tuple[Buffer, BytesText]] = None
) -> list[Notice[bytes]]: ...
def findings(mailmaps: Iterable[tuple[Any, Any]], contacts: Any = None) -> list[Notice[Any]]:
    """The findings of `report`, in its order: what is wrong with mailmaps and, if they are given, with contacts.

    >>> own, history = "Joe <joe@x>\\n", "Jane Doe <jane@x>\\njane <JANE@x>\\nJane Doe <jane@x>"
    >>> for found in findings([("own", own)], ("history", history)):
    ...     print(found.file, found.line, found.level, found.kind, found.message, sep="; ")
    own; 1; warning; unneeded; no contact needs it
    history; 2; warning; same-email; jane <JANE@x> (1) has the email of Jane Doe <jane@x> (2)
    """
    said = report(mailmaps, contacts, "json")
    is_str = isinstance(said, str)
    lines = (said.encode() if is_str else said).split(b"\n")
    return [notice_of(json.loads(line), is_str) for line in lines if line]


def parse(mailmap: Union[str, Buffer]) -> list[Line]:
    """The lines of a mailmap that give an entry or have a fault, in their order, with the places of their texts, which
    are slices of the mailmap. Nothing is copied:

    >>> mailmap = "# us\\nJane Doe <jane@x> <jd@y>\\nplain\\n"
    >>> entry, fault = parse(mailmap)
    >>> entry.number, mailmap[entry.new_name], mailmap[entry.new_email], entry.old_name, mailmap[entry.old_email]
    (2, 'Jane Doe', 'jane@x', None, 'jd@y')
    >>> fault.number, fault.kind, mailmap[fault.text]
    (3, <Kind.NO_EMAIL: 1>, 'plain')
    """
    if hasattr(mailmap, "read"):
        raise TypeError("expected str or bytes, not an open file")
    rows = _native.parse(mailmap)
    if isinstance(mailmap, str) and not mailmap.isascii():
        ends = array("Q", accumulate((len(encoded(character)) for character in mailmap), initial=0))
        return [_line(lambda offset: bisect_left(ends, offset), *row) for row in rows]
    return [_line(lambda offset: offset, *row) for row in rows]


@of_mailmaps
def explain(mailmaps: Iterable[tuple[Any, Any]], contacts: Any) -> Union[str, bytes]:
    """Which lines of mailmaps give contacts their new names and emails, as `mailmap_verify --explain` prints it: a line
    for each line of `contacts`, and none for a blank one. Each mailmap comes with its name. At most two lines are named
    for a contact, in the order in which they are read: for its new name, and for its new email or only its spelling.

    >>> team, own = "<jane@x> <jd@y>\\n", "Jane Doe <jd@y>\\n"
    >>> print(explain([("team", team), ("own", own)], "jd <jd@y>\\nbob <b@x>\\nplain"), end="")
    jd <jd@y> is Jane Doe <jane@x> by team:1, own:1
    bob <b@x> is not mapped
    plain is no contact
    """
    return _native.explain(contacts, *_named(mailmaps))


def unneeded(mailmaps: Iterable[tuple[AnyText, AnyText]], contacts: AnyText) -> list[Position]:
    """The lines of mailmaps that have an effect and that none of the contacts needs, in their order, both given as for
    `explain`. If these and all lines of no effect are removed together, the answers for these contacts stay the same.

    >>> team, own = "Joe <joe@x>\\n<jane@x> <jd@y>\\n", "Jane Doe <jd@y>\\nBob <b@x>\\n"
    >>> unneeded([("team", team), ("own", own)], "jd <jd@y>\\nal <al@x>")
    [Position(mailmap=0, line=1), Position(mailmap=1, line=2)]
    """
    return [Position(*found) for found in _native.unneeded(contacts, *_named(mailmaps))]


@of_mailmaps
def suggest(mailmaps: Iterable[tuple[Any, Any]], contacts: Any) -> Union[str, bytes]:
    """The lines that mailmaps lack for contacts, as `mailmap_verify --suggest` prints them: where contacts may be one
    person, how often each of their answers comes, and lines that make these one. `#?` begins those for answers that
    have no email in common. To be appended to the last mailmap: if that needs a line feed first, the text begins with
    one.

    >>> print(suggest([("own", "<jane@x> <jd@y>\\n")], "Jane <jane@x>\\njd <jd@y>\\nJane <jane@x>"), end="")
    # 2 Jane <jane@x>
    # 1 jd <jane@x>
    Jane <jane@x> <jd@y>
    <BLANKLINE>
    """
    return _native.suggest(contacts, *_named(mailmaps))


def _names_file(text: Any) -> bool:
    """Whether a text is one line without an email, and the path of a file."""
    if not isinstance(text, (str, bytes)) or len(text) > LONGEST_PATH:
        return False
    path = os.fsdecode(text)
    return not {"<", "\n"} & set(path) and os.path.isfile(path)


def _line(
    index_of: Callable[[int], int], number: int, kind: int, text: tuple[int, int], *texts: tuple[int, int]
) -> Line:
    """A line with slices for places in bytes. `index_of` has the index in the mailmap for an offset."""
    whole, *places = (slice(index_of(start), index_of(end)) for start, end in (text, *texts))
    if kind != 0:
        return Line(number, Kind(kind), whole, None, None, None, None)
    new_name, new_email, old_name = (place if place.start < place.stop else None for place in places[:3])
    return Line(number, None, whole, new_name, new_email, old_name, places[3])


def _named(mailmaps: Iterable[tuple[Any, Any]]) -> list[Any]:
    """The names and texts of mailmaps as one list: each name is followed by its text."""
    texts: list[Any] = []
    for pair in mailmaps:
        if not isinstance(pair, (tuple, list)) or len(pair) != 2:
            raise TypeError(f"expected a pair of a mailmap's name and its text, not {pair!r:.80}")
        texts += pair
    return texts
