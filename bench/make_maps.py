"""Makes the maps and the contacts that the benchmarks measure with.

For each number of lines there are three maps and four lists of contacts for each map:

    mixed-LINES.mailmap       the emails in random order, one to three lines an email
    sorted-LINES.mailmap      the same lines, in the order of their old emails
    hundred-LINES.mailmap     a hundred lines an email, each for another old name, in random order
    KIND-LINES.hits           contacts that are mapped, in random order, some of them in other letters
    KIND-LINES.misses         contacts whose email no line of the map has, with the same domains and like names
    KIND-LINES.1000.contacts, KIND-LINES.100000.contacts
                              so many contacts, hits and misses in turn, again and again if there are fewer

At most 100,000 hits and misses are written. Beside these there is an empty map, empty-0.mailmap, with contacts. The
generator has a seed, so the same call writes the same bytes everywhere.
"""
import itertools
import random
from collections import Counter
from collections.abc import Iterable, Iterator
from pathlib import Path

FIRST = """Ada Alan Alice Amir Anna Anton Barbara Bjarne Bob Carla Chen Claire Dana David Dmitri Edsger Elena Emil Eva
Fatima Felix Fran Grace Hana Hugo Ines Ivan Jane Joan Joe John Jorge Julia Karl Katya Ken Lars Leslie Li Linus Luis
Maria Marta Max Mei Mia Nadia Niklaus Nina Olga Omar Paul Pia Priya Rachel Ravi Robin Rosa Sam Sara Sofia Sven Tariq
Theo Tim Tony Uma Vera Wang Yuki Zoe José Jürgen Łukasz Søren""".split()
LAST = """Abe Adams Allen Bauer Becker Berg Brown Carter Castro Chang Clark Cruz Davis Diaz Dijkstra Evans Fischer
Garcia Gomez Gupta Haas Hansen Hopper Huang Ito Jansen Johnson Jones Kaur Kim Klein Knuth Kowalski Kumar Lamport Lee
Lopez Lovelace Martin Meyer Miller Moore Nguyen Novak Olsen Park Patel Perez Petrov Popov Quinn Rao Ritchie Rossi Sato
Schmidt Silva Singh Smith Suzuki Tanaka Taylor Thompson Torres Turing Vogel Wagner Walker Wang Weber White Wilson Wirth
Wong Yamada Young Zhang Müller Gödel""".split()
DOMAINS = """example.com example.org example.net mail.example.com corp.example.com dev.corp.example.com
users.noreply.example.com localhost.localdomain build.example.org kernel.example.org lists.example.net uni.example.edu
cs.uni.example.edu math.uni.example.edu""".split()
MOST_CONTACTS = 100_000
COUNTS = [1_000, MOST_CONTACTS]
# what maps nothing: a blank line, a comment, or a fault
OTHER_LINES = ["", "", "# people who moved", "#", "plain words", "Jane <jane@example.com", "<x@example.com>",
               "A <> <b@example.com>"]
# an old email, an old name, and the line that has them
Entry = tuple[str, str, str]


def plain(text: str) -> str:
    return text.lower().encode("ascii", "ignore").decode()


def in_other_letters(rng: random.Random, text: str) -> str:
    """`text` with the case of some ASCII letters changed."""
    return "".join(c.swapcase() if c.isascii() and rng.random() < 0.3 else c for c in text)


class Person:
    """A name, an email in one of four forms, and the email that a mailmap may give."""

    def __init__(self, rng: random.Random, number: int, suffix: str = "") -> None:
        self.first, self.last, domain = rng.choice(FIRST), rng.choice(LAST), rng.choice(DOMAINS)
        self.name = f"{self.first} {self.last}"
        first, last = plain(self.first), plain(self.last)
        forms = [f"{first}.{last}{number}", f"{first[:1]}{last}{number}", f"{number}+{first}", f"{last}-{number}"]
        self.email = f"{forms[rng.randrange(4)]}{suffix}@{domain}"
        self.proper_email = f"{first}@{last}{number % 97}.example.com"


def line(rng: random.Random, person: Person, spelling: str, name: str | None) -> str:
    """A line for an old email, and for an old name if there is one. A fifth of the lines without one have two names."""
    if name is not None:
        proper = f"{person.name} " if rng.random() < 0.7 else ""
        return f"{proper}<{person.proper_email}> {name} <{spelling}>"
    form = rng.random()
    if form < 0.35:
        return f"{person.name} <{spelling}>"
    if form < 0.55:
        return f"<{person.proper_email}> <{spelling}>"
    return f"{person.name} <{person.proper_email}> <{spelling}>"


def dressed(rng: random.Random, line: str) -> str:
    """The line as some people write it: followed by a comment, or with more white space."""
    form = rng.random()
    if form < 0.02:
        return f"{line} # was wrong"
    return f"  {line}\t" if form < 0.05 else line


def mixed(rng: random.Random) -> Iterator[Entry]:
    """An endless sequence of entries, one to three an email."""
    for number in itertools.count(1):
        person = Person(rng, number)
        for place in range(rng.choice([1, 1, 1, 2, 3])):
            spelling = person.email if rng.random() < 0.9 else in_other_letters(rng, person.email)
            name = f"{person.first} {place}" if rng.random() < 0.3 else None
            yield person.email, name or person.name, dressed(rng, line(rng, person, spelling, name))


def hundred(rng: random.Random) -> Iterator[Entry]:
    """An endless sequence of entries, with a hundred names an email."""
    for number in itertools.count(1):
        person = Person(rng, number)
        for place in range(100):
            name = f"{rng.choice(FIRST)} {person.last} {place}"
            yield person.email, name, dressed(rng, line(rng, person, person.email, name))


def missed(rng: random.Random, count: int) -> Iterator[str]:
    """Contacts with emails that no map has."""
    for number in range(count):
        person = Person(rng, number, "x")
        yield f"{person.name} <{person.email}>\n"


def hit(rng: random.Random, entries: list[Entry], count: int) -> Iterator[str]:
    """Contacts of entries, some of them in other letters."""
    for email, name, _ in [entries[rng.randrange(len(entries))] for _ in range(count)]:
        yield f"{name} <{in_other_letters(rng, email) if rng.random() < 0.2 else email}>\n"


def write_lines(path: Path, lines: Iterable[str]) -> None:
    with path.open("w", encoding="utf-8") as file:
        file.writelines(lines)


def mailmap(rng: random.Random, entries: list[Entry], others: int) -> Iterator[str]:
    """The lines, and among them so many that map nothing."""
    places = Counter(sorted(rng.randrange(len(entries)) for _ in range(others)))
    for place, (_, _, line) in enumerate(entries):
        yield from (f"{rng.choice(OTHER_LINES)}\n" for _ in range(places[place]))
        yield f"{line}\n"


def counted(stem: Path, contacts: list[str]) -> None:
    """Writes a list of contacts of each length."""
    for count in COUNTS:
        path = stem.with_name(f"{stem.name}.{count}.contacts")
        write_lines(path, itertools.islice(itertools.cycle(contacts), count))


def written(rng: random.Random, stem: Path, entries: list[Entry], others: int) -> None:
    """Writes a map with its contacts."""
    write_lines(stem.with_suffix(".mailmap"), mailmap(rng, entries, others))
    hits = list(hit(rng, entries, min(len(entries), MOST_CONTACTS)))
    misses = list(missed(rng, len(hits)))
    write_lines(stem.with_suffix(".hits"), hits)
    write_lines(stem.with_suffix(".misses"), misses)
    counted(stem, [contact for pair in zip(hits, misses) for contact in pair])


def make(folder: Path, sizes: Iterable[int]) -> None:
    """Writes the maps of these sizes."""
    folder.mkdir(parents=True, exist_ok=True)
    (folder / "empty-0.mailmap").write_bytes(b"")
    counted(folder / "empty-0", list(missed(random.Random(0), MOST_CONTACTS)))
    for lines in sizes:
        rng, others = random.Random(lines), lines // 64
        some, many = (list(itertools.islice(made(rng), lines - others)) for made in (mixed, hundred))
        by_email = sorted(some, key=lambda entry: entry[0])
        rng.shuffle(some)
        rng.shuffle(many)
        for kind, entries in [("mixed", some), ("sorted", by_email), ("hundred", many)]:
            written(rng, folder / f"{kind}-{lines}", entries, others)
