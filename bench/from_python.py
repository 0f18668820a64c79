"""Times lookups by the package for Python, pygit2 or dulwich, and prints a line as mailmap_bench does.

    PYTHONPATH=python from_python.py WAY MAP CONTACTS

The ways `str`, `bytes`, `pygit2` and `dulwich` look single contacts up, in a mailmap that is open. By `list-bytes` and
`list-str` a list of lines is mapped, and by `file-bytes` and `file-str` a file, where the time begins with the reading
of the mailmap. It is processor time, the least of three rounds.
"""
import sys
import time
from collections import deque
from collections.abc import Callable, Iterable
from itertools import starmap
from pathlib import Path
from typing import Any

from gix_mailmap import Mailmap

LOOKUPS, ROUNDS = 100_000, 3
Work = Callable[[], object]


def drained(items: Iterable[object]) -> None:
    deque(items, maxlen=0)


def lookup_of(way: str, mailmap: Path) -> Callable[..., object]:
    if way == "pygit2":
        import pygit2

        return pygit2.Mailmap.from_buffer(mailmap.read_text(encoding="utf-8")).resolve
    read = Mailmap(mailmap.read_bytes())
    if way == "dulwich":
        from dulwich.mailmap import Mailmap as Dulwich

        # by its entries: it takes no file with a faulty line
        peer = Dulwich()
        for new_name, new_email, old_name, old_email in read:
            peer.add_entry((new_name, new_email), (old_name, old_email))
        return peer.lookup
    return read.lookup


def lookups(way: str, mailmap: Path, contacts: list[str]) -> Work:
    given: Any = [line.removesuffix(">").split(" <") for line in contacts]
    if way in ("bytes", "dulwich"):
        given = [tuple(text.encode() for text in contact) for contact in given]
    call = lookup_of(way, mailmap)
    return lambda: drained(map(call, given) if way == "dulwich" else starmap(call, given))


def of_list(way: str, mailmap: Path, lines: list[str]) -> Work:
    given: Any = lines if way == "list-str" else [line.encode() for line in lines]
    read = Mailmap(mailmap.read_bytes())
    return lambda: drained(read.map_contacts(given))


def of_file(way: str, mailmap: Path, contacts: Path) -> Work:
    how: Any = {"mode": "rb"} if way == "file-bytes" else {"encoding": "utf-8", "errors": "surrogateescape"}

    def work() -> None:
        with Mailmap(mailmap.read_bytes()) as read, contacts.open(**how) as file:
            drained(read.map_contacts(file))

    return work


def main() -> None:
    way, mailmap, contacts = sys.argv[1], Path(sys.argv[2]), Path(sys.argv[3])
    lines = contacts.read_text(encoding="utf-8").splitlines(keepends=way.startswith("list"))
    if way.startswith("file"):
        work = of_file(way, mailmap, contacts)
    elif way.startswith("list"):
        work = of_list(way, mailmap, lines)
    else:
        lines *= max(LOOKUPS // len(lines), 1)
        work = lookups(way, mailmap, lines)
    times = []
    for _ in range(ROUNDS):
        start = time.process_time_ns()
        work()
        times.append(time.process_time_ns() - start)
    print(f"{way} min_ns={min(times)} contacts={len(lines)}")


main()
