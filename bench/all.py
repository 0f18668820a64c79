#!/usr/bin/python3
"""Makes all tables of docs/BENCHMARKS.md and bench/results, and draws the charts.

    bench/all.py                      measures all, and writes it
    bench/all.py --only PART ..       measures these parts, and prints their tables
    bench/all.py --try [--only ..]    prints tables that are made of little input in little time

Before it, `make build lib extension` builds what is shipped, and `rt run` in crates/mailmap_bench what times calls.
Nothing else may run on the machine. The maps are made if they aren't there, in bench/out/maps, some 330 MB.

Peers are git, libgit2 (Debian's libgit2-dev), the original (cargo and its crate; tests/original/oracle.sh says how to
use local copies, and ORACLE_OPTIONS are its options), and for Python pygit2 and dulwich (Debian's python3-pygit2 and
python3-dulwich); charts need python3-matplotlib. What isn't here is skipped, which is said in the end and on the page:
the cells of such a peer are empty, and a part that can't be measured has the reason in place of its tables.
"""
import argparse
import datetime
import os
import re
import subprocess
import sys
import textwrap
import time
from collections.abc import Callable
from pathlib import Path

import calls
import families
import histories
import languages
import processes
from make_maps import make
from measuring import (
    BENCH, CHECK, GIT, HERE, LIBGIT2, MILLION, ORIGINAL, SHORTLOG, TOP, VERIFY, Bench, Failed, Table, built, output,
    scratch, settings,
)

MAPS, RESULTS = HERE / "out/maps", HERE / "results"
PAGES = [TOP / "docs/BENCHMARKS.md", *sorted(RESULTS.glob("*.md"))]
SIZES, FEW_SIZES = [1_000, 10_000, 100_000, MILLION], [1_000, 10_000, 100_000]
SECONDS = 2
# how each part is measured, and the tables that it makes
PARTS: dict[str, tuple[Callable[[Bench], dict[str, Table]], list[str]]] = {
    "processes": (processes.tables, ["processes", "all processes", "process memory"]),
    "calls": (calls.tables, ["all calls"]),
    "c": (languages.c_tables, ["c", "threads"]),
    "rust": (languages.rust_tables, ["rust"]),
    "python": (languages.python_tables, ["python", "python lines"]),
    "histories": (histories.history_tables, ["histories"]),
    "verify": (histories.verify_tables, ["verify"]),
    "silent": (histories.silent_tables, ["silent"]),
    "long texts": (histories.long_text_tables, ["long texts"]),
    "suggest": (histories.suggest_tables, ["suggest"]),
    "families": (families.tables, ["families", "family memory"]),
}
# a ratio or a peak in MiB that begins a cell, or a ratio that ends it in parentheses
NUMBER = re.compile(r"^[\d.]+(?=$| [✓✗M])|(?<=\()[\d.]+(?=\)$)")
# Rows of the summary: what, beside what, of which table, of which of its rows, the columns with ratios of times, and
# the column with a ratio of peaks or the two with peaks.
HISTORY = "program / it", "peak, its peak"
SUMMARY = [
    ("mapping contacts", "the fastest of git, libgit2 and the original", "processes", "^(?!empty)", "port / it", ""),
    ("mapping 100,000 contacts, one to three lines per email", "git", "processes", "^(mixed|sorted)", "", "port / git"),
    ("mapping 100,000 contacts, a hundred lines per email", "git", "processes", "^hundred", "", "port / git"),
    ("adversarial mailmaps", "the original", "families", "", "/ original", ""),
    ("comments, blank lines, one long line", "the original", "silent", "", "port / it", "peak, original's"),
    ("a million contacts of a history", "the original", "histories", "^a million.* original ", *HISTORY),
    ("a million contacts of a history", "git", "histories", "^a million.* git (?!shortlog)", *HISTORY),
    ("`mailmap_shortlog`, a million contacts", "`git shortlog -sne`", "histories", "git shortlog", *HISTORY),
    ("`mailmap_verify`", "`mailmap_check`, which only reads the mailmap", "verify", "", "ratio",
     "peak, peak of mailmap_check"),
    ("a lookup from C", "libgit2", "c", "", "to libgit2", ""),
    ("a lookup from Rust", "the original", "rust", "", "to the original", ""),
    ("a lookup from Python", "pygit2", "python", "", "`lookup` of `str`, `lookup` of bytes", ""),
    ("many contacts from Python", "`mailmap_check`", "python lines", "", ", ".join(languages.STREAMS.values()), ""),
]


def find_programs(bench: Bench) -> None:
    """Names the programs that are here."""
    for name in (CHECK, VERIFY, SHORTLOG, BENCH):
        program = TOP / "crates" / name / "out" / name
        if program.exists():
            bench.programs[name] = str(program)
        else:
            bench.lacks(f"{name}, since it is not built")
    bench.needs(CHECK)
    script = [TOP / "tests/original/oracle.sh", *os.environ.get("ORACLE_OPTIONS", "").split()]
    for name, build in {ORIGINAL: lambda: output(script).strip(),
                        LIBGIT2: lambda: built("libgit2_check", bench.folder, "-lgit2")}.items():
        try:
            bench.programs[name] = build()
        except (Failed, subprocess.CalledProcessError) as why:
            bench.lacks(f"{name}, since {why}")


def measured(bench: Bench, part: str) -> dict[str, Table | str]:
    """The tables of a part, or why there are none."""
    start = time.monotonic()
    tables, names = PARTS[part]
    try:
        found = tables(bench)
    except (Failed, subprocess.CalledProcessError) as why:
        bench.lacks(f"{part}, since {why}")
        found = dict.fromkeys(names, f"Not measured: {why}.")
    print(f"{part}: {time.monotonic() - start:.0f} s", file=sys.stderr, flush=True)
    return found


def machine(bench: Bench) -> str:
    """What is measured where and when. The commit is asked for before a chart is written."""
    cpu = re.search(r"model name\s*:\s*(.*)", Path("/proc/cpuinfo").read_text())
    versions = {"git": output(["git", "--version"]).split()[2]}
    if LIBGIT2 in bench.programs:
        versions["libgit2"] = output([bench.programs[LIBGIT2], "--version"]).strip()
    if ORIGINAL in bench.programs:
        lock = (TOP / "tests/original/oracle/Cargo.lock").read_text(encoding="utf-8")
        versions["the original with bstr"] = re.search(r'name = "bstr"\nversion = "(.*)"', lock)[1]
    peers = [f"{name} {version}" for name, version in (versions | languages.python_versions()).items()]
    commit = output(["git", "-C", TOP, "describe", "--always", "--dirty", "--exclude", "*"]).strip()
    day = datetime.date.today().strftime("%d %B %Y").lstrip("0")
    return (f"Measured on {day} at {commit}, with {os.cpu_count()} processors: {cpu[1] if cpu else 'unknown'}, "
            f"{os.uname().sysname}, with a load of {os.getloadavg()[0]:.1f} before; {', '.join(peers)}.")


def numbers(table: Table, chosen: str, columns: str) -> list[list[float]]:
    """The ratios or peaks in some columns of the chosen rows."""
    rows = [zip(table.head, row) for row in table.rows if re.search(chosen, " | ".join(row) + " ")]
    return [[float(found) for name, cell in row if name in columns.split(", ") for found in NUMBER.findall(cell)]
            for row in rows]


def spread(ratios: list[float]) -> str:
    if not ratios:
        return ""
    least, most = (f"{ratio:.2f}" for ratio in (min(ratios), max(ratios)))
    return least if least == most else f"{least} to {most}"


def summary(texts: dict[str, Table | str]) -> Table:
    """The smallest and the largest ratios of the other tables."""
    rows = []
    for what, beside, name, chosen, times, peaks in SUMMARY:
        table = texts.get(name)
        if isinstance(table, Table):
            of_time = sum(numbers(table, chosen, times), [])
            pairs = [row for row in numbers(table, chosen, peaks) if len(row) == len(peaks.split(", "))]
            of_peak = [row[0] / row[1] if "," in peaks else row[0] for row in pairs]
            rows.append([what, beside, spread(of_time), spread(of_peak)])
    return Table(["what", "beside", "time", "memory"], rows)


def listed(missing: list[str]) -> str:
    return "; ".join(missing) or "nothing"


def put_in(bench: Bench, texts: dict[str, Table | str]) -> None:
    """Puts each text in the pages below its mark, in place of what is there up to a blank line."""
    for page in PAGES:
        document = page.read_text(encoding="utf-8")
        for name in re.findall("<!-- (.*) -->\n", document):
            if name in texts:
                place = rf"(?<=<!-- {name} -->\n).+?\n(?=\n|$)"
                document = re.sub(place, lambda _: f"{texts[name]}\n", document, flags=re.DOTALL)
            else:
                bench.lacks(f"the text of {name} in {page.name}")
        page.write_text(document, encoding="utf-8")


def main() -> None:
    parser = argparse.ArgumentParser(description=__doc__, formatter_class=argparse.RawDescriptionHelpFormatter)
    parser.add_argument("--only", nargs="+", choices=PARTS, default=list(PARTS), metavar="PART")
    parser.add_argument("--try", dest="is_tried", action="store_true")
    given = parser.parse_args()
    is_written = not given.is_tried and given.only == list(PARTS)
    start, texts = time.monotonic(), {}
    sizes = FEW_SIZES if given.is_tried else SIZES
    make(MAPS, [lines for lines in sizes if not (MAPS / f"hundred-{lines}.100000.contacts").exists()])
    with scratch() as name:
        folder = Path(name)
        output(["git", "init", "-q", folder / "repository"], env=settings())
        seconds, charts = 0 if given.is_tried else SECONDS, RESULTS if is_written else folder
        bench = Bench({GIT: "git"}, MAPS, sizes, folder, built("measure", folder, "-static"), seconds, charts, [])
        find_programs(bench)
        where = machine(bench)
        for part in given.only:
            texts |= measured(bench, part)
        where += f" It took {(time.monotonic() - start) / 60:.0f} minutes. Missing: {listed(bench.missing)}."
        texts |= {"summary": summary(texts), "machine": textwrap.fill(where, 120, break_on_hyphens=False)}
        if is_written:
            put_in(bench, texts)
        else:
            print(*texts.values(), sep="\n\n")
    print(f"missing: {listed(bench.missing)}", file=sys.stderr)


if __name__ == "__main__":
    try:
        main()
    except Failed as error:
        sys.exit(f"all.py: {error}")
