"""Makes mailmaps and contacts that might be hard on a program, by families, and each family for any number of lines.

All is written in parts as it is made, so a million lines take no more memory than a thousand. The same call writes the
same bytes everywhere.
"""
from collections.abc import Callable, Iterable, Iterator
from dataclasses import dataclass
from itertools import chain, islice, repeat
from pathlib import Path

# a text in parts
Text = Iterable[bytes]

# the bytes for each line that a single one stands for, and the length of a long name: if that grew with the map, its
# report would grow with the square
LINE, LONG = 40, 1 << 16
# how many lines a program might collect before it looks for repeats, and how many of them it might look at
PORTION, SAMPLE = 16_384, 4_096
SIXTEEN = b"robot-of-the-ci-"
THIRTY_TWO = SIXTEEN + b"and-of-releases-"
# white space of three bytes
IDEOGRAPHIC = "\u3000".encode()
SYMBOLS = {
    "<": b"<", ">": b">", "<>": b"<>", "< and a space": b"< ", "spaces": b" ", "U+3000": IDEOGRAPHIC,
    "zero bytes": b"\0", "bytes that are not UTF-8": b"\xff", "two bytes of U+3000": IDEOGRAPHIC[:2],
}
# lines for one email that take four passes to prune: three that find one redundant line each, and the last
FOUR_PASSES = [b"Q <p@x> <a%d@x>\n", b"P <p@x> j <a%d@X>\n", b"<p@x> J <a%d@X>\n", b"P <q@x> <a%d@x>\n",
               b"<p@x> j <a%d@x>\n"]


@dataclass(frozen=True)
class Made:
    """The mailmaps of a family, the number of their entries, and contacts, if it has any."""

    mailmaps: Iterable[Text]
    entries: int
    contacts: Text | None = None


Maker = Callable[[int], Made]


@dataclass(frozen=True)
class Family:
    """A short description, and how a family is made for a number of lines."""

    what: str
    make: Maker


def joined(lines: Iterable[bytes]) -> Text:
    """Joins short texts into parts."""
    left = iter(lines)
    while part := b"".join(islice(left, 8_192)):
        yield part


def numbered(form: bytes, numbers: Iterable[int]) -> Text:
    return joined(form % number for number in numbers)


def repeated(text: bytes, size: int) -> Text:
    """A text, repeated as often as it fits into `size` bytes."""
    count = size // len(text)
    at_once = max(1, (1 << 16) // len(text))
    yield from repeat(text * at_once, count // at_once)
    yield text * (count % at_once)


def entry(number: int) -> bytes:
    return b"Jane %07d <j%07d@example.com>\n" % (number, number)


def one_map(text: Text, entries: int, contacts: Text | None = None) -> Made:
    return Made([text], entries, contacts)


def shuffled(count: int) -> Iterator[int]:
    """The numbers below `count`, each once, in an order that looks random. They are not stored."""
    bits = max(count - 1, 1).bit_length()
    mask, shift = (1 << bits) - 1, bits // 2 + 1
    for number in range(1 << bits):
        # each of these steps can be inverted
        mixed = (number * 0x9E3779B1 + 0x7F4A7C15) & mask
        mixed ^= mixed >> shift
        mixed = mixed * 0x85EBCA6B & mask
        mixed ^= mixed >> shift
        if mixed < count:
            yield mixed


def sawtooth(count: int) -> Iterator[int]:
    """Runs of a hundred ascending numbers, each spread over the whole range."""
    step = max(1, count // 100)
    return chain.from_iterable(range(first, count, step) for first in range(step))


def growing_portions(count: int) -> Iterator[int]:
    """Each batch starts with repeats, where a program looks for them, and goes on with new keys. Each is longer than
    the last.
    """
    keys, left = 1, count
    while left > 0:
        length = min(max(PORTION, 4 * keys), left)
        yield from repeat(0, min(SAMPLE, length))
        yield from range(keys, keys + length - SAMPLE)
        keys, left = keys + max(0, length - SAMPLE), left - length


def full_portions(count: int) -> Iterator[int]:
    """As many keys as a batch can have without making the next one longer, all of them in each batch."""
    return (0 if n % PORTION < SAMPLE else n * 1_663 % (PORTION // 4) for n in range(count))


def ordered(order: Callable[[int], Iterable[int]]) -> Maker:
    return lambda count: one_map(joined(map(entry, order(count))), count)


def files(length: int) -> Maker:
    """The lines of a random map, in files of `length` lines."""

    def make(count: int) -> Made:
        numbers = shuffled(count)
        return Made(([b"".join(map(entry, islice(numbers, length)))] for _ in range(0, count, length)), count)

    return make


def long_name(first: bytes, form: bytes) -> Maker:
    """A line that begins with a long name, and lines for the email of that."""
    return lambda count: one_map(chain([first[:1] * LONG, first[1:]], numbered(form, range(count))), count + 1)


def long_texts(count: int) -> Made:
    """Ten long names, and then lines for one short key."""
    names = (chain([b"T%d " % number], repeated(b"t", LINE * count // 10), [b" <t%d>\n" % number])
             for number in range(10))
    return one_map(chain(chain.from_iterable(names), repeated(b"a<b>\n", 5 * count)), count + 10)


def crowd(beginning: bytes) -> Maker:
    """Many names of one email, and among them a line for another email with the same prefix."""

    def make(count: int) -> Made:
        form = b"<j@x> n%07d <" + beginning + b"1@x>\n"
        names = shuffled(count)
        other = b"Jane <" + beginning + b"2@x>\n"
        return one_map(chain(numbered(form, islice(names, count // 2)), [other], numbered(form, names)), count + 1)

    return make


def in_form(form: bytes, lines: int) -> Made:
    return one_map(numbered(form, shuffled(lines)), lines)


def alike(beginning: bytes) -> Maker:
    return lambda count: in_form(b"Jane <" + beginning + b"%07d@x>\n", count)


def padded(space: bytes, *texts: bytes) -> bytes:
    """Texts with some 125 bytes of white space on both sides."""
    return (space * (125 // len(space))).join([b"", *texts, b"\n"])


def padded_map(space: bytes) -> Maker:
    form = padded(space, b"Jane", b"<", b"j@x", b">", b"jd", b"<", b"j%07d@x", b">")
    return lambda count: in_form(form, LINE * count // len(form))


def silent_lines(line: bytes, size: int) -> Maker:
    """An entry, and a line that says nothing, for so many bytes of each line that they stand for."""
    return lambda count: one_map(chain([entry(0)], repeated(line, size * count)), 1)


def four_passes(count: int) -> Made:
    groups = shuffled(count // len(FOUR_PASSES))
    return one_map(joined(line % group for group in groups for line in FOUR_PASSES), count)


def chained(count: int) -> Made:
    return one_map(joined(b"N <e%d@x> <e%d@x>\n" % (number + 1, number) for number in range(count)), count)


def answered(made: Made, contacts: Text) -> Made:
    return Made(made.mailmaps, made.entries, contacts)


def half(mailmap: Maker, contacts: Callable[[int], Text]) -> Maker:
    """A mailmap of half of the lines, and contacts that are made for all of them."""
    return lambda count: answered(mailmap(count // 2), contacts(count))


def half_hits(count: int) -> Text:
    """Contacts with twice as many emails as the map has."""
    return numbered(b"jd <j%07d@example.com>\n", islice(shuffled(count), count // 2))


def padded_contacts(space: bytes) -> Maker:
    form = padded(space, b"jd", b"<", b"j%07d@example.com", b">")
    return lambda count: answered(ordered(range)(1_000), numbered(form, (
        number % 2_000 for number in shuffled(LINE * count // len(form)))))


def one_contact(text: bytes, end: bytes = b"") -> Maker:
    return lambda count: one_map([b"Jane <j@x>\n"], 1, chain(repeated(text, LINE * count), [end]))


RANDOM = ordered(shuffled)
FAMILIES = {
    "random": Family("a line an email, in random order", RANDOM),
    # first those that once fell short
    "long name": Family(
        "a line with a name of 64 KiB, and short lines that map to it", long_name(b"L <a>\n", b"x<a><%d>\n")),
    "kept name": Family(
        "a line with a name of 64 KiB, and lines that give its email other emails",
        long_name(b"N <a@x>\n", b"<j%07d@x> <a@x>\n")),
    "long answers": Family(
        "a line with a name of 64 KiB, and short contacts that it maps",
        lambda n: one_map([b"L" * LONG, b" <a>\n"], 1, repeated(b"x<a>\n", 5 * n))),
    "blank lines": Family("an entry, and blank lines", silent_lines(b"\n", 1)),
    "comments": Family("an entry, and lines `#`", silent_lines(b"#\n", 2)),
    "short comments": Family("an entry, and comments of eight bytes", silent_lines(b"# notes\n", 4)),
    "long comments": Family("an entry, and comments of forty bytes", silent_lines(b"# %s\n" % (b"c" * 37), 4)),
    "white lines": Family("an entry, and lines with a space and a tab", silent_lines(b" \t\n", 4)),
    "faulty lines": Family("lines `x`", lambda n: one_map(repeated(b"x\n", 2 * n), 0)),
    "files of 16 lines": Family("the random map in files of 16 lines", files(16)),
    "files of 17 lines": Family("the random map in files of 17 lines", files(17)),
    "long texts, then repeats": Family("ten long names, then lines `a<b>`", long_texts),
    "sixteen bytes equal": Family("emails that differ after sixteen bytes", alike(SIXTEEN)),
    "thirty-two bytes equal": Family("emails that differ after thirty-two bytes", alike(THIRTY_TWO)),
    "crowd, sixteen equal": Family("names of one email, and another email with the same sixteen bytes", crowd(SIXTEEN)),
    "crowd, thirty-two equal": Family("the same with thirty-two bytes", crowd(THIRTY_TWO)),
    "spaces around texts": Family("each text between spaces", padded_map(b" ")),
    "U+3000 around texts": Family("each text between ideographic spaces", padded_map(IDEOGRAPHIC)),
    # those that never did
    "ascending": Family("ascending emails", ordered(range)),
    "descending": Family("descending emails", ordered(lambda n: reversed(range(n)))),
    "organ pipe": Family(
        "emails that ascend and then descend", ordered(lambda n: chain(range(0, n, 2), reversed(range(1, n, 2))))),
    "sawtooth": Family("emails that ascend a hundred times and start again", ordered(sawtooth)),
    "few keys": Family("a thousand emails again and again", ordered(lambda n: (key % 1_000 for key in shuffled(n)))),
    "one key": Family("one line again and again", ordered(lambda n: repeat(7, n))),
    "one email": Family("names of one email", lambda n: in_form(b"<j@x> n%07d <a@x>\n", n)),
    "repeats after the sample": Family(
        "16,384 emails, then one", ordered(lambda n: chain(shuffled(min(n, PORTION)), repeat(7, n - PORTION)))),
    "growing portions": Family("repeats first, then new emails", ordered(growing_portions)),
    "full portions": Family("the same 4,096 emails in each 16,384 lines", ordered(full_portions)),
    "four passes": Family("histories of which each of three passes finds one redundant line more", four_passes),
    "chain": Family("each line maps to the email of the next", chained),
    **{f"line of {name}": Family(f"one line of {name}", lambda n, text=text: one_map(repeated(text, LINE * n), 0))
       for name, text in SYMBOLS.items()},
    # contacts
    "contacts": Family("random emails, and contacts, half of them mapped", half(RANDOM, half_hits)),
    "contacts, no contacts": Family("random emails, and lines `x`", half(RANDOM, lambda n: repeated(b"x\n", n))),
    "contacts, blank": Family("random emails, and blank lines", half(RANDOM, lambda n: repeated(b"\n", n // 2))),
    "contacts, sixteen equal": Family(
        "emails that differ after sixteen bytes",
        half(alike(SIXTEEN), lambda n: numbered(b"jd <" + SIXTEEN + b"%07d@x>\n", shuffled(n // 2)))),
    "contacts of a crowd": Family(
        "names of one email, and another email with the same sixteen bytes",
        half(crowd(SIXTEEN), lambda n: numbered(b"n%07d <" + SIXTEEN + b"1@x>\n", shuffled(n // 2)))),
    "contacts, spaces around": Family("each text between spaces", padded_contacts(b" ")),
    "contacts, U+3000 around": Family("each text between ideographic spaces", padded_contacts(IDEOGRAPHIC)),
    "contact of contacts": Family("one line of contacts", one_contact(b"Jane Doe <jane@example.com> ", b"\n")),
    **{f"contact of {name}": Family(f"one contact of {name}", one_contact(text)) for name, text in SYMBOLS.items()},
}


def write(path: Path, text: Text) -> int:
    """Writes a text, and returns its length."""
    with path.open("wb") as file:
        return sum(file.write(part) for part in text)
