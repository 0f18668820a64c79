"""Sets the programs beside their peers on contacts of histories, on mailmaps with findings, on long texts, on comments,
and on contacts that might be hard on --suggest.
"""
import itertools
import random
from collections.abc import Callable, Iterable
from pathlib import Path

from make_families import FAMILIES, write
from make_maps import missed, write_lines
from measuring import (
    CHECK, GIT, KINDS, LIBGIT2, MILLION, ORIGINAL, PEERS, SHORTLOG, VERIFY, Bench, Cost, Failed, Table, must_succeed,
    ratio, shown,
)

EXPLAIN, CONTACTS, SUGGEST = "mailmap_verify --explain", "mailmap_verify --contacts -", "mailmap_verify --suggest -"
NAMES, EMAILS = "mailmap_shortlog -n", "mailmap_shortlog -n -e"
GIT_NAMES, GIT_EMAILS = "git shortlog -sn", "git shortlog -sne"
SORTED = "mailmap_check, sort and uniq -c"
SORTING = '"$0" "$1" | LC_ALL=C sort | uniq -c | sort -rn'
MAP, DIFFERENT, UNREPEATED, RECURRING = "mixed-1000", 4_000, 100_000, "a million, 4,000 distinct"
# which program is compared with which on contacts that recur, and the aim
BESIDE = [
    (CHECK, ORIGINAL, 0.5), (CHECK, GIT, 0.25), (CHECK, LIBGIT2, None), (EXPLAIN, CHECK, 2), (CONTACTS, CHECK, 3),
    (SUGGEST, CONTACTS, 4), (EMAILS, GIT_EMAILS, 0.33), (EMAILS, SORTED, 0.33),
]


def logged(path: Path, contacts: Iterable[str]) -> None:
    """Contacts as authors in what git log prints, which git shortlog counts: after a blank line comes the subject."""
    write_lines(path, (f"Author: {contact}\n    subject\n" for contact in contacts))


def counting(bench: Bench, mailmap: Path) -> dict[str, list[str]]:
    """The command lines of what counts contacts."""
    git = [bench.programs[GIT], "-C", f"{bench.folder}/repository", "-c", f"mailmap.file={mailmap}", "shortlog"]
    return {
        NAMES: [bench.programs[SHORTLOG], "-n", str(mailmap)],
        GIT_NAMES: [*git, "-sn"],
        EMAILS: [bench.programs[SHORTLOG], "-n", "-e", str(mailmap)],
        GIT_EMAILS: [*git, "-sne"],
        CONTACTS: [bench.programs[VERIFY], "--contacts", "-", str(mailmap)],
    }


def same_answers(bench: Bench, found: dict[str, Cost]) -> None:
    if len({bench.answers(name).read_bytes() for name in {ORIGINAL, CHECK} & found.keys()}) > 1:
        raise Failed("the original has other answers")


def counted(bench: Bench, name: str) -> int:
    """How many contacts a program counted."""
    return sum(int(line.split()[0]) for line in bench.answers(name).read_bytes().splitlines())


def histories(bench: Bench, count: int) -> None:
    """Writes `count` contacts of which 4,000 differ, ten times as many, and 100,000 that all differ. The second most
    frequent contact comes half as often as the first, the third a third as often, and so on.
    """
    folder, rng = bench.folder, random.Random(1)
    hits = (bench.maps / f"{MAP}.hits").read_text(encoding="utf-8").splitlines(keepends=True)
    hits = list(dict.fromkeys(hits))[: DIFFERENT // 4]
    misses = missed(rng, MILLION)
    some = hits + list(itertools.islice(misses, DIFFERENT - len(hits)))
    rng.shuffle(some)
    contacts = rng.choices(some, [1 / place for place in range(1, len(some) + 1)], k=count)
    write_lines(folder / "million", contacts)
    write_lines(folder / "ten", itertools.chain.from_iterable(itertools.repeat(contacts, 10)))
    write_lines(folder / "differ", itertools.islice(misses, UNREPEATED))
    logged(folder / "log", contacts)


def recurring(bench: Bench, mailmap: Path) -> dict[str, Cost]:
    """What all programs take for a million contacts that recur."""
    commands = counting(bench, mailmap) | bench.mapping(mailmap) | {
        EXPLAIN: [bench.programs[VERIFY], "--explain", str(mailmap)],
        SUGGEST: [bench.programs[VERIFY], "--suggest", "-", str(mailmap)],
        SORTED: ["bash", "-o", "pipefail", "-c", SORTING, bench.programs[CHECK], str(mailmap)],
    }
    del commands[NAMES], commands[GIT_NAMES]
    log = str(bench.folder / "log")
    found = must_succeed(bench.processes(commands, bench.folder / "million", **{GIT_EMAILS: log}))
    same_answers(bench, found)
    if len({counted(bench, name) for name in (EMAILS, GIT_EMAILS, SORTED)}) > 1:
        raise Failed("not all count the same contacts")
    return found


def history_tables(bench: Bench) -> dict[str, Table]:
    bench.needs(VERIFY, SHORTLOG)
    mailmap = bench.maps / f"{MAP}.mailmap"
    histories(bench, MILLION if bench.is_full() else MILLION // 100)
    found = recurring(bench, mailmap)
    apart = must_succeed(bench.processes(bench.mapping(mailmap), bench.folder / "differ"))
    ten = must_succeed(bench.processes(bench.mapping(mailmap, [CHECK]), bench.folder / "ten"))
    rows = [(RECURRING, name, found[name], peer, found.get(peer), aim) for name, peer, aim in BESIDE]
    rows[3:3] = [("100,000, all distinct", CHECK, apart[CHECK], peer, apart.get(peer), None) for peer in PEERS[1:]]
    rows[6:6] = [("ten million, 4,000 distinct", CHECK, ten[CHECK], "a million contacts", found[CHECK], 10)]
    head = ["contacts", "program", "time", "peak", "beside", "its time", "its peak", "program / it"]
    return {"histories": Table(head, [
        [contacts, name, shown(one, "processor"), shown(one, "peak"), peer, shown(other, "processor"),
         shown(other, "peak"), ratio(one, other, aim, "processor")]
        for contacts, name, one, peer, other, aim in rows])}


def verify_tables(bench: Bench) -> dict[str, Table]:
    """mailmap_check gets no contacts, so it builds its snapshot and answers nothing."""
    bench.needs(VERIFY)
    rows = []
    for kind, lines in itertools.product(KINDS, bench.sizes):
        mailmap = f"{bench.maps}/{kind}-{lines}.mailmap"
        programs = {VERIFY: [bench.programs[VERIFY], mailmap], **bench.mapping(mailmap, [CHECK])}
        one, other = must_succeed(bench.processes(programs)).values()
        rows.append([kind, f"{lines:,}", shown(one), shown(other), ratio(one, other, 2), shown(one, "peak"),
                     shown(other, "peak")])
    head = ["map", "lines", "mailmap_verify", "mailmap_check", "ratio", "peak", "peak of mailmap_check"]
    return {"verify": Table(head, rows)}


# families, and how many bytes one has for each line that it is made for
SILENT = {
    "comments": 2, "short comments": 4, "long comments": 4, "blank lines": 1, "white lines": 4,
    "contact of contacts": 40, "contact of <>": 40, "contact of spaces": 40, "contact of zero bytes": 40,
}
SILENT_AIM = 1.1


def silent_tables(bench: Bench) -> dict[str, Table]:
    """Some 40 MB of each. git ends at a line that isn't a contact, and then its cells are empty."""
    size = 40_000_000 if bench.is_full() else 400_000
    mailmap, contacts, rows = bench.folder / "0", bench.folder / "contacts", []
    for family, width in SILENT.items():
        made = FAMILIES[family].make(size // width)
        write(mailmap, next(iter(made.mailmaps)))
        write(contacts, made.contacts or [])
        found = bench.processes(bench.mapping(mailmap, PEERS[:3]), contacts)
        found = must_succeed({name: cost for name, cost in found.items() if name != GIT or not cost.fault})
        same_answers(bench, found)
        port, original, git = (found.get(name) for name in PEERS[:3])
        rows.append([family, shown(port), shown(original), ratio(port, original, SILENT_AIM), shown(git),
                     *[shown(cost, "peak") for cost in (port, original, git)]])
    head = ["family", "mailmap_check", "original", "port / it", "git", "peak", "original's", "git's"]
    return {"silent": Table(head, rows)}


LONG = "L" * 65_536
SHORT = [f"Jane {number} <j@x>\n" for number in range(10_000)]
LONG_TEXTS = {
    "a name of 64 KiB for 10,000 contacts": (f"{LONG} <j@x>\n", SHORT),
    "an email of 64 KiB for 10,000 contacts": (f"<{LONG}> <j@x>\n", SHORT),
    "1,000 contacts with names of 1,000 bytes and one email": ("", [f"{'L' * 1_000}{n} <j@x>\n" for n in range(1_000)]),
}


def long_text_tables(bench: Bench) -> dict[str, Table]:
    """A program that kept a copy of each answer, or reported whole texts, would take 655 MB for 154 KB of input."""
    bench.needs(VERIFY, SHORTLOG)
    mailmap, contacts, log = (bench.folder / name for name in ("mailmap", "contacts", "log"))
    rows, programs = [], counting(bench, mailmap)
    for what, (text, lines) in LONG_TEXTS.items():
        mailmap.write_text(text, encoding="ascii")
        write_lines(contacts, lines)
        logged(log, lines)
        logs = {GIT_NAMES: str(log), GIT_EMAILS: str(log)}
        found = must_succeed(bench.processes(programs, contacts, **logs))
        rows.append([what, *[f"{shown(cost, 'processor')}, {shown(cost, 'peak')}" for cost in found.values()]])
    return {"long texts": Table(["mailmap and contacts", *[f"`{name}`" for name in programs]], rows)}


# spellings of one name
ALIKE = ["Jane Doe", "DOE, Jane", "jane-doe", "JaneDoe", "Jan\xe9 Doe"]
# the proper name for all emails is so long that a line for each would repeat it
LONG_NAME = "a name as long as there are contacts, and emails that it is proper for"
# ten times as many contacts: n log n, and n
TIME_GROWTH, PEAK_GROWTH = 12, 10


def shuffled(count: int) -> list[int]:
    return random.Random(count).sample(range(count), count)


# contacts, made for their number
HARD: dict[str, Callable[[int], Iterable[str]]] = {
    "all distinct, and nothing is suggested": lambda count: (f"Jane R{n:07d} <r{n:07d}@x>\n" for n in range(count)),
    "names that are all alike": lambda count: (f"{ALIKE[n % 5]} <j{n:07d}@x>\n" for n in range(count)),
    "strangers with one email": lambda count: (f"N{n:07d} <all@x>\n" for n in range(count)),
    "a chain of names, by emails with two names": lambda count: (
        f"A{n:07d} <e{n:07d}@x>\nA{n + 1:07d} <e{n:07d}@x>\n" for n in shuffled(count // 2)),
    "a chain of names that are logins": lambda count: (f"a{n + 1:07d} <a{n:07d}@x>\n" for n in shuffled(count)),
    LONG_NAME: lambda count: itertools.chain((f"Jane {n} <j{n}@x>\n" for n in range(count // 50)),
                                             2 * [f"Jane {'L' * count} <jane@x>\n"]),
}


def suggest_tables(bench: Bench) -> dict[str, Table]:
    """How time and memory grow with the contacts."""
    bench.needs(VERIFY)
    mailmap, contacts = bench.folder / "mailmap", bench.folder / "contacts"
    words, rows = {SUGGEST: [bench.programs[VERIFY], "--suggest", "-", str(mailmap)]}, []
    for what, made in HARD.items():
        costs = []
        for count in [MILLION // 10, MILLION] if bench.is_full() else [1_000, 10_000]:
            emails = count // 50 if what == LONG_NAME else 0
            write_lines(mailmap, (f"<jane@x> <j{n}@x>\n" for n in range(emails)))
            write_lines(contacts, made(count))
            costs.append(must_succeed(bench.processes(words, contacts))[SUGGEST])
        few, many = costs
        rows.append([what, shown(few, "processor"), shown(many, "processor"),
                     ratio(many, few, TIME_GROWTH, "processor"), shown(few, "peak"), shown(many, "peak"),
                     ratio(many, few, PEAK_GROWTH, "peak")])
    head = ["contacts", "time of 100,000", "of a million", "grows by", "peak of 100,000", "of a million", "grows by"]
    return {"suggest": Table(head, rows)}
