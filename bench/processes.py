"""Sets mailmap_check beside git, libgit2 and the original, as whole processes, on the same maps and contacts.

All write into a file in memory: into a pipe git would flush each answer. What is stopped isn't tried with more contacts
then.
"""
import itertools
from collections.abc import Iterator
from dataclasses import dataclass

from make_maps import COUNTS
from measuring import CHECK, GIT, KINDS, PEERS, STOP, Bench, Cost, Failed, Table, ratio, shown

# the port to the fastest peer, from 1,000 lines on; the port's peak to git's, at 100,000 lines
TIME_AIM = 0.6
PEAK_AIMS = {"mixed": 1.2, "hundred": 1.8}


@dataclass
class Cell:
    """A map and contacts, what each program cost, and how many of each peer's answers aren't the port's."""

    map: str
    lines: int
    contacts: int
    costs: dict[str, Cost]
    differing: dict[str, int]

    def fastest(self) -> str:
        """The name of the fastest peer, or nothing if there is none."""
        timed = [name for name in PEERS[1:] if name in self.costs and not self.costs[name].fault]
        return min(timed, key=lambda name: self.costs[name].time, default="")

    def named(self) -> list[str]:
        return [self.map, f"{self.lines:,}"]


def differing(bench: Bench, name: str) -> int:
    ours, theirs = (bench.answers(one).read_bytes().split(b"\n") for one in (CHECK, name))
    return sum(a != b for a, b in itertools.zip_longest(ours, theirs))


def measured(bench: Bench) -> Iterator[Cell]:
    for kind, lines in [("empty", 0), *itertools.product(KINDS, bench.sizes)]:
        faults: dict[str, Cost] = {}
        for contacts in COUNTS:
            stem = f"{bench.maps}/{kind}-{lines}"
            words = {name: line for name, line in bench.mapping(f"{stem}.mailmap").items() if name not in faults}
            costs = faults | bench.processes(words, f"{stem}.{contacts}.contacts", STOP)
            if costs[CHECK].fault:
                raise Failed(f"{CHECK}, {kind}, {lines} lines: {costs[CHECK].fault}")
            faults = {name: cost for name, cost in costs.items() if cost.fault}
            others = {name: differing(bench, name) for name in costs if name not in faults}
            yield Cell(kind, lines, contacts, costs, others)


def summary(cells: list[Cell]) -> Table:
    """A row for each map: the times for each number of contacts, and the peak for the most."""
    head = ["map", "lines"]
    for contacts in COUNTS:
        head += [f"{contacts:,} contacts", "fastest peer", "port / it"]
    rows: dict[tuple[str, int], list[str]] = {}
    for cell in cells:
        row = rows.setdefault((cell.map, cell.lines), cell.named())
        port, fastest, git = cell.costs[CHECK], cell.fastest(), cell.costs.get(GIT)
        row.append(shown(port))
        row.append(f"{fastest}, {shown(cell.costs[fastest])}" if fastest else "")
        row.append(ratio(port, cell.costs.get(fastest), TIME_AIM if cell.lines >= 1_000 else None))
        if cell.contacts == COUNTS[-1]:
            aim = PEAK_AIMS.get(cell.map) if cell.lines == 100_000 else None
            row += [shown(port, "peak"), shown(git, "peak"), ratio(port, git, aim, "peak")]
    return Table([*head, "peak", "git's peak", "port / git"], list(rows.values()))


def complete(cells: list[Cell], what: str) -> list[list[str]]:
    """The times or the peaks of all programs."""
    return [[*cell.named(), f"{cell.contacts:,}", *[shown(cell.costs.get(name), what) for name in PEERS]]
            for cell in cells]


def drawn(bench: Bench, cells: list[Cell]) -> None:
    try:
        from chart import charts
    except ImportError:
        bench.lacks("the charts, since matplotlib is not here")
    else:
        charts(cells, bench.charts)


def tables(bench: Bench) -> dict[str, Table]:
    cells = list(measured(bench))
    drawn(bench, cells)
    head, peers = ["map", "lines", "contacts", *PEERS], PEERS[1:]
    differing = [[f"{cell.differing[name]:,}" if name in cell.differing else "" for name in peers] for cell in cells]
    times = [row + counts for row, counts in zip(complete(cells, "time"), differing)]
    return {"processes": summary(cells),
            "all processes": Table([*head, *[f"{name} differs" for name in peers]], times),
            "process memory": Table(head, complete(cells, "peak"))}
