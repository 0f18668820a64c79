"""Sets single calls of mailmap_bench beside those of the original, on the same maps. docs/BENCHMARKS.md says what
counts. The peak of building leaves out the file, and what the program takes for a walk over an empty one.
"""
from dataclasses import replace
from pathlib import Path

from measuring import BENCH, KINDS, ORIGINAL, Bench, Cost, Table, must_succeed, ratio, shown

PEAK = "peak of building"
BUILD, HITS, MISSES, LAST = "build", "lookups, hits", "lookups, misses", "a merge of one entry"
# the words of both programs: MAP is a file without its suffix, and N how often a run repeats what it times
CALLS = {
    "parse": "bench-parse MAP.mailmap N",
    BUILD: "bench-build MAP.mailmap N",
    HITS: "bench-lookup MAP.mailmap MAP.hits N",
    MISSES: "bench-lookup MAP.mailmap MAP.misses N",
    LAST: "bench-merge-last MAP.mailmap 20",
    "one merge per entry": "bench-merge1 MAP.mailmap",
    "check": "bench-check MAP.mailmap MAP.hits N",
    "compact": "bench-compact MAP.mailmap N",
    PEAK: "bench-build MAP.mailmap 1",
}
# the sizes of what isn't measured for all
SIZES = {"one merge per entry": [1_000, 10_000], "check": [100_000], "compact": [100_000]}
# port to original: everywhere, at 10,000 lines, and at 100,000 lines by the kind of map
AIMS_EVERYWHERE = {"parse": 0.6, HITS: 0.35, MISSES: 0.35}
AIMS_OF_10_000 = {"one merge per entry": 0.05}
AIMS_OF_100_000 = {
    (BUILD, "mixed"): 0.35, (BUILD, "sorted"): 0.7, (BUILD, "hundred"): 0.25,
    ("compact", "mixed"): 0.35, ("compact", "sorted"): 0.5, ("compact", "hundred"): 0.3,
    (PEAK, "mixed"): 0.5, (PEAK, "sorted"): 0.5, (PEAK, "hundred"): 0.2,
}
Costs = dict[str, Cost]


def aim(call: str, kind: str, lines: int) -> float | None:
    aims = {10_000: AIMS_OF_10_000.get(call), 100_000: AIMS_OF_100_000.get((call, kind))}
    return AIMS_EVERYWHERE.get(call, aims.get(lines))


def words(bench: Bench, call: str, stem: str, lines: int) -> dict[str, list[str]]:
    """The command lines of both programs. The original has no call for a merge of one entry."""
    names = [BENCH] if call == LAST else [BENCH, ORIGINAL]
    filled = CALLS[call].replace("MAP", stem).replace(" N", f" {max(400_000 // lines, 1)}")
    return {name: [bench.programs[name], *filled.split()] for name in names if name in bench.programs}


def peaks(bench: Bench, commands: dict[str, list[str]], file: Path) -> Costs:
    bench = replace(bench, seconds=min(bench.seconds, 0.5))
    walks = {name: [line[0], "bench-parse", "/dev/null"] for name, line in commands.items()}
    start, found = must_succeed(bench.processes(walks)), must_succeed(bench.processes(commands))
    beyond = {name: cost.peak - start[name].peak - file.stat().st_size for name, cost in found.items()}
    return {name: Cost(peak=max(more, 1)) for name, more in beyond.items()}


def measured(bench: Bench, call: str, kind: str, lines: int) -> Costs:
    """The shortest time of each program, but of the last merges the middle one; or the peaks."""
    stem = f"{bench.maps}/{kind}-{lines}"
    commands = words(bench, call, stem, lines)
    if call == PEAK:
        return peaks(bench, commands, Path(f"{stem}.mailmap"))
    return bench.calls(commands, "median_ns" if call == LAST else "min_ns")


def growth(call: str, cells: dict[int, Costs]) -> str:
    """By which factor the time of a lookup or a merge, or of building a line, grows from the first map to the last."""
    least, most = min(cells), max(cells)
    if least == most or call not in (BUILD, HITS, MISSES, LAST):
        return ""
    factors = []
    for name, last in cells[most].items():
        first = cells[least][name]
        more = {BUILD: most / least, LAST: 1}.get(call) or last.counts["contacts"] / first.counts["contacts"]
        factors.append(f"{last.time / first.time / more:.1f}")
    return ", ".join(factors)


def row(bench: Bench, call: str, kind: str) -> list[str]:
    sizes = [lines for lines in bench.sizes if lines in SIZES.get(call, bench.sizes)]
    cells = {lines: measured(bench, call, kind, lines) for lines in sizes}
    what, texts = "peak" if call == PEAK else "time", []
    for lines in bench.sizes:
        port, original = (cells.get(lines, {}).get(name) for name in (BENCH, ORIGINAL))
        both = [shown(port, what), ratio(port, original, aim(call, kind, lines), what)]
        texts.append(", ".join(filter(None, both)))
    return [call, kind, *texts, growth(call, cells) if cells else ""]


def tables(bench: Bench) -> dict[str, Table]:
    bench.needs(BENCH)
    head = ["call", "map", *[f"{lines:,} lines" for lines in bench.sizes], "grows by"]
    return {"all calls": Table(head, [row(bench, call, kind) for kind in KINDS for call in CALLS])}
