"""Measures how the processor time and the peak for each byte grow over the families of make_families.py.
bench/results/families.md says how.
"""
import resource
from collections.abc import Iterator
from dataclasses import dataclass, replace

from make_families import FAMILIES, Family, write
from measuring import ADDRESSES, CHECK, ORIGINAL, STOP, VERIFY, Bench, Cost, Table, digits, marked, ratio

COMPACT, ORIGINAL_COMPACT = "mailmap_check --compact", "original, compact"
WORDS = {CHECK: (CHECK, []), ORIGINAL: (ORIGINAL, ["check"]), COMPACT: (CHECK, ["--compact"]),
         ORIGINAL_COMPACT: (ORIGINAL, ["compact"]), VERIFY: (VERIFY, [])}
SIZES, FEW_SIZES = [10_000, 100_000, 300_000], [1_000, 10_000]
MOST_CONTACTS = 100_000
# which program is compared with which, and the largest allowed ratio of their times
BESIDE = {CHECK: (ORIGINAL, 1.0), COMPACT: (ORIGINAL_COMPACT, 1.0), VERIFY: (CHECK, 2.0)}
# a family may grow this much faster than the random map, which grows with n log n and cache misses
MORE_GROWTH = 2
# the allowed peak: this many times the files, and this many bytes per entry
FILE_SHARE, ENTRY_SHARE = 2, 200
Costs = dict[str, Cost]


@dataclass
class Cell:
    """A family with a number of lines: its bytes, its entries, and the cost of each program."""

    lines: int
    size: int
    entries: int
    costs: Costs


def commands(bench: Bench, mailmaps: list[str]) -> dict[str, list[str]]:
    return {name: [bench.programs[program], *more, *mailmaps] for name, (program, more) in WORDS.items()
            if program in bench.programs}


def cell(bench: Bench, family: Family, lines: int, faults: Costs) -> Cell:
    made = family.make(lines)
    sizes = [write(bench.folder / str(number), text) for number, text in enumerate(made.mailmaps)]
    mailmaps, contacts = [str(number) for number in range(len(sizes))], bench.folder / "contacts"
    size = sum(sizes) + write(contacts, made.contacts or [])
    words = {name: line for name, line in commands(bench, mailmaps).items()
             if name not in faults and (made.contacts is None or name in (CHECK, ORIGINAL))}
    costs = faults | bench.processes(words, contacts, STOP)
    for name in mailmaps:
        (bench.folder / name).unlink()
    return Cell(lines, size, made.entries, costs)


def cells(bench: Bench, family: Family) -> Iterator[Cell]:
    faults: Costs = {}
    for lines in SIZES if bench.is_full() else FEW_SIZES:
        if lines <= MOST_CONTACTS or family.make(0).contacts is None:
            found = cell(bench, family, lines, faults)
            faults = {name: cost for name, cost in found.costs.items() if cost.fault}
            yield found


@dataclass
class Results:
    """The cells of a family, and what each program costs over an empty mailmap."""

    starts: Costs
    cells: list[Cell]

    def rates(self, program: str, what: str = "processor") -> dict[int, float]:
        """The cost for each byte by the number of lines, from the fewest on that take a fifth of what an empty mailmap
        does.
        """
        start, found = getattr(self.starts.get(program, Cost()), what), {}
        for one in self.cells:
            if program in one.costs and not one.costs[program].fault:
                net = max(getattr(one.costs[program], what) - start, 0)
                if found or 5 * net >= start:
                    found[one.lines] = net / one.size
        return found

    def growth(self, program: str) -> float:
        """The factor between the time for a byte at the most lines and that at the fewest; 0 if there is none."""
        found = self.rates(program)
        return found[max(found)] / found[min(found)] if len(found) > 1 else 0

    def fault(self, program: str) -> str:
        """Why a program was stopped, if it was."""
        faults = [one.costs[program].fault for one in self.cells if program in one.costs]
        return next(filter(None, faults), "")

    def times(self, program: str, allowed: float) -> list[str]:
        """The nanoseconds for each byte at the most lines; how they grow, and in parentheses how those of the other
        program do; and the larger ratio of the two at the last two sizes.
        """
        beside, aim = BESIDE[program]
        if program not in self.cells[0].costs:
            return ["", "", ""]
        found, grows, other = self.rates(program), self.growth(program), self.growth(beside)
        shown = marked(f"{grows:.2f}", grows, allowed) if grows else ""
        ratios = [ratio(one.costs.get(program), one.costs.get(beside), aim, "processor") for one in self.cells[-2:]]
        most = max(filter(None, ratios), key=lambda text: float(text.split()[0]), default="")
        stopped = self.fault(beside)
        return [
            self.fault(program) or (digits(found[max(found)]) if found else ""),
            f"{shown} ({other:.2f})" if shown and other else shown,
            f"{stopped} there" if stopped else most,
        ]

    def peaks(self, program: str) -> list[str]:
        """The peak for each byte at the most lines, and its share of what is allowed."""
        last = self.cells[-1]
        cost = last.costs.get(program)
        if cost is None or cost.fault:
            return [cost.fault if cost else "", ""]
        peak = max(cost.peak - self.starts[program].peak, 0)
        share = peak / (FILE_SHARE * last.size + ENTRY_SHARE * last.entries)
        return [digits(peak / last.size), marked(f"{share:.2f}", share, 1)]


def measured(bench: Bench) -> dict[str, Results]:
    bench = replace(bench, seconds=min(bench.seconds, 1))
    resource.setrlimit(resource.RLIMIT_AS, (ADDRESSES, resource.RLIM_INFINITY))
    (bench.folder / "0").write_bytes(b"")
    starts = bench.processes(commands(bench, ["0"]))
    found = {name: Results(starts, list(cells(bench, family))) for name, family in FAMILIES.items()}
    resource.setrlimit(resource.RLIMIT_AS, (resource.RLIM_INFINITY, resource.RLIM_INFINITY))
    return found


def tables(bench: Bench) -> dict[str, Table]:
    found = measured(bench)
    allowed = {program: found["random"].growth(program) * MORE_GROWTH for program in BESIDE}
    times, peaks = [], []
    for name, some in found.items():
        last = some.cells[-1]
        times.append([name, FAMILIES[name].what, *sum((some.times(one, allowed[one]) for one in BESIDE), [])])
        peaks.append([name, f"{last.size:,}", f"{last.entries:,}", *sum(map(some.peaks, BESIDE), [])])
    of_time = sum(([name, "grows by", f"/ {beside}"] for name, (beside, _) in BESIDE.items()), [])
    of_peak = sum(([name, "of what is allowed"] for name in BESIDE), [])
    return {
        "families": Table(["ns a byte of", "what it is", *of_time], times),
        "family memory": Table(["bytes a byte of", "bytes", "entries", *of_peak], peaks),
    }
