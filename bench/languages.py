"""Sets lookups from C beside the library's own and libgit2's, from several threads beside one, from Rust beside the C
call below it and the original, and from Python beside pygit2, dulwich and the whole process of mailmap_check.
"""
import itertools
import os
import platform
import random
import subprocess
import sys
from functools import partial
from importlib import metadata
from pathlib import Path

from make_maps import write_lines
from measuring import (
    BENCH, CHECK, HERE, KINDS, LIBGIT2, MILLION, ORIGINAL, TOP, Bench, Failed, Table, built, output, printed, ratio,
    shown,
)

LIBRARY = TOP / "crates/gix_mailmap_c/out/c"
# lines of the map, and how many of them each email has
SHAPES = [(100, 1), (10_000, 1), (100_000, 1), (10_000, 3), (10_000, 100)]
CALLS = 200_000
PYTHON = [sys.executable, f"{HERE}/from_python.py"]
LOOKUPS = {"str": "`lookup` of `str`", "bytes": "`lookup` of bytes", "pygit2": "pygit2", "dulwich": "dulwich"}
STREAMS = {"list-bytes": "a list of bytes", "list-str": "a list of `str`", "file-bytes": "a file of bytes",
           "file-str": "a file of `str`"}
# entries of the map, and how many of a million contacts differ
HISTORIES = [(10_000, 3_000), (100_000, 3_000), (10_000, MILLION)]


def c_tables(bench: Bench) -> dict[str, Table]:
    """The aims are 1.2 times the library's own time, and less than libgit2's."""
    bench.needs(BENCH, LIBGIT2)
    flags = ["-fopenmp", f"-I{TOP}/include", f"{LIBRARY}/libgix_mailmap.a", "-lgit2"]
    program, rows = built("c_lookups", bench.folder, *flags), []
    sizes = [lines for lines in bench.sizes if lines < MILLION]
    for kind, lines, contacts in itertools.product(KINDS, sizes, ["hits", "misses"]):
        words = [f"{bench.maps}/{kind}-{lines}.mailmap", f"{bench.maps}/{kind}-{lines}.{contacts}", "5"]
        library, handle, libgit2 = bench.calls({
            "library": [bench.programs[BENCH], "bench-answer", *words],
            "handle": [program, "gix", *words],
            LIBGIT2: [program, "libgit2", *words],
        }).values()
        rows.append([contacts, kind, f"{lines:,}", *map(shown, (library, handle, libgit2)), ratio(handle, library, 1.2),
                     ratio(handle, libgit2, 1.0)])
    head = ["lookups", "map", "lines", "library", "handle", "libgit2", "to the library", "to libgit2"]
    files = [f"{bench.maps}/mixed-{bench.sizes[1]}{suffix}" for suffix in (".mailmap", ".hits")]
    lines = output([program, "threads", *files, "1000"]).splitlines()
    threads = [[count, f"{int(lookups):,}", *more] for count, lookups, *more in map(str.split, lines)]
    return {"c": Table(head, rows),
            "threads": Table(["threads", "lookups a second", "times as many", "ns a lookup"], threads)}


def rust_tables(bench: Bench) -> dict[str, Table]:
    """Nanoseconds of a lookup by `try_resolve_ref`."""
    bench.needs(ORIGINAL)
    words = ["cargo", "build", "--quiet", "--release", "--manifest-path", f"{TOP}/tests/rust/answers/Cargo.toml",
             "--target-dir", f"{bench.folder}/rust"]
    library = {"GIX_MAILMAP_LIBRARY": f"{LIBRARY}/libgix_mailmap.a"}
    if subprocess.run(words, env=os.environ | library, capture_output=True).returncode != 0:
        raise Failed("cargo does not build the crate here")
    answers, rows = f"{bench.folder}/rust/release/answers", []
    for lines, each in SHAPES:
        inputs = rust_inputs(bench.folder, lines, each)
        crate, call, original = bench.calls({
            "crate": [answers, "bench-lookup", *inputs],
            "C call": [answers, "bench-lookup-c", *inputs],
            ORIGINAL: [bench.programs[ORIGINAL], "bench-lookup", *inputs],
        }).values()
        times = [f"{cost.time / CALLS:.0f}" for cost in (crate, call, original)]
        rows.append([f"{lines:,}, {each}", *times, ratio(crate, call), ratio(crate, original)])
    head = ["lines, and lines of one email", "the crate", "the C call", "the original", "to the C call",
            "to the original"]
    return {"rust": Table(head, rows)}


def rust_inputs(folder: Path, lines: int, each: int) -> list[str]:
    """A map, and contacts of which four in five are in it, in no order."""
    emails, mailmap, contacts = lines // each, folder / "map", folder / "contacts"
    old = [f"Name {n // emails} " if each > 1 else "" for n in range(lines)]
    write_lines(mailmap, (f"New {n} <new{n}@example.com> {old[n]}<Old{n % emails}@example.org>\n"
                          for n in range(lines)))
    numbers = [number * 7919 % (lines + lines // 4) for number in range(CALLS)]
    write_lines(contacts, (f"name {n // emails} <old{n % emails if n < lines else n}@Example.org>\n" for n in numbers))
    return [str(mailmap), str(contacts), "5"]


def python_versions() -> dict[str, str]:
    """The versions of Python and of the packages beside ours that are here."""
    here = {package.name: package.version for package in metadata.distributions()}
    return {"Python": platform.python_version()} | {name: here[name] for name in ("pygit2", "dulwich") if name in here}


def python_tables(bench: Bench) -> dict[str, Table]:
    if not list((TOP / "python/gix_mailmap").glob("_native*.so")):
        raise Failed("make extension has not built the module")
    _, *peers = python_versions()
    for name in {"pygit2", "dulwich"} - set(peers):
        bench.lacks(f"{name}, since {sys.executable} has no such package")
    maps = itertools.product(bench.sizes[::2], ["mixed", "sorted"], ["hits", "misses"])
    lookups = [lookup_row(bench, kind, lines, contacts, peers) for lines, kind, contacts in maps]
    streams = [stream_row(bench, entries, different) for entries, different in HISTORIES]
    return {"python": Table(["map", "lines", "contacts", *LOOKUPS.values()], lookups),
            "python lines": Table(["entries", "contacts that differ", *STREAMS.values(), CHECK], streams)}


def lookup_row(bench: Bench, kind: str, lines: int, contacts: str, peers: list[str]) -> list[str]:
    stem = f"{bench.maps}/{kind}-{lines}"
    found = bench.calls({way: [*PYTHON, way, f"{stem}.mailmap", f"{stem}.{contacts}"]
                         for way in ("str", "bytes", *peers)})
    each = {name: f"{cost.time / cost.counts['contacts']:.0f} ns" for name, cost in found.items()}
    for name in ("str", "bytes") if "pygit2" in found else []:
        each[name] += f" ({ratio(found[name], found['pygit2'])})"
    return [kind, f"{lines:,}", contacts, *[each.get(name, "") for name in LOOKUPS]]


def stream_row(bench: Bench, entries: int, different: int) -> list[str]:
    """A million contacts, of which some are different, by a mailmap. All is processor time."""
    count = MILLION if bench.is_full() else MILLION // 100
    mailmap, contacts = bench.folder / "map", bench.folder / "contacts"
    write_lines(mailmap, (f"New Name {n} <n{n}@example.com> <o{n}@example.org>\n" for n in range(entries)))
    people = [f"Some Person {n} <o{n}@example.org>\n" for n in range(min(different, count))]
    write_lines(contacts, people if different >= count else random.Random(1).choices(people, k=count))
    runs = {way: partial(printed, [*PYTHON, way, str(mailmap), str(contacts)]) for way in STREAMS}
    words = bench.mapping(mailmap)[CHECK]
    found = bench.in_turn(runs | {CHECK: partial(bench.process, CHECK, words, str(contacts))})
    program = found.pop(CHECK)
    cells = [f"{shown(cost, 'processor')} ({ratio(cost, program, what='processor')})" for cost in found.values()]
    return [f"{entries:,}", f"{different:,}", *cells, shown(program, "processor")]
