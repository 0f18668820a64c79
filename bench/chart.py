"""Draws what processes.py measured: the time of the whole process and its peak memory, over the lines of the map. Both
axes are logarithmic; the empty map is at their left end. If a program was stopped, its line ends there.
"""
import itertools
from pathlib import Path
from typing import Any

import matplotlib

matplotlib.use("Agg")
from matplotlib import pyplot
from matplotlib.axes import Axes
from matplotlib.ticker import EngFormatter, Formatter, StrMethodFormatter

from processes import Cell

KINDS = {"mixed": "mixed", "sorted": "sorted by email", "hundred": "a hundred lines an email"}
# colour, mark, and width of each program's line
LOOKS = {
    "mailmap_check": ("#c2410c", "o", 2.4),
    "original": ("#1d4ed8", "s", 1.4),
    "git": ("#15803d", "^", 1.4),
    "libgit2": ("#6b7280", "D", 1.4),
}
# the position of the empty map
EMPTY = 100


def panel(axes: Axes, cells: list[Cell], what: str, unit: float, text: Formatter) -> None:
    """The figures of each program over the lines."""
    for program, (colour, mark, width) in LOOKS.items():
        there = [cell for cell in cells if program in cell.costs and not cell.costs[program].fault]
        figures = [getattr(cell.costs[program], what) / unit for cell in there]
        axes.plot([cell.lines or EMPTY for cell in there], figures, color=colour, marker=mark, markersize=4,
                  linewidth=width, label=program)
    axes.set_xscale("log")
    axes.set_yscale("log", base=2 if what == "peak" else 10)
    axes.set_xticks([cell.lines or EMPTY for cell in cells], [f"{cell.lines:,}" for cell in cells])
    axes.minorticks_off()
    axes.yaxis.set_major_formatter(text)
    axes.grid(color="#e5e7eb", linewidth=0.7)
    axes.tick_params(labelsize=8)


def drawn(path: Path, cells: list[Cell], title: str, *figure: Any) -> None:
    """A row of panels for each number of contacts, with a panel for each kind of map."""
    rows = sorted({cell.contacts for cell in cells})
    size = (10.5, 3 * len(rows) + 0.7)
    whole, grid = pyplot.subplots(len(rows), len(KINDS), figsize=size, sharex=True, sharey=True, squeeze=False)
    for axes, (contacts, kind) in zip(grid.flat, itertools.product(rows, KINDS)):
        panel(axes, [cell for cell in cells if cell.map in (kind, "empty") and cell.contacts == contacts], *figure)
        axes.set_title(f"{KINDS[kind]}; {contacts:,} contacts", fontsize=9)
    whole.supxlabel("lines of the map", fontsize=9)
    whole.suptitle(title, fontsize=11)
    handles, names = grid[0][0].get_legend_handles_labels()
    whole.legend(handles, names, frameon=False, fontsize=9, loc="upper center", bbox_to_anchor=(0.5, 0.95), ncol=4)
    whole.tight_layout(rect=(0, 0, 1, 0.95))
    whole.savefig(path, metadata={"Date": None})
    pyplot.close(whole)


def charts(cells: list[Cell], folder: Path) -> None:
    """Writes both charts. Equal figures give equal bytes, and text stays text."""
    matplotlib.rcParams.update({"svg.hashsalt": "mailmap_check", "svg.fonttype": "none", "axes.spines.top": False,
                                "axes.spines.right": False})
    drawn(folder / "benchmarks.svg", cells, "Time of the whole process", "time", 1e9, EngFormatter("s"))
    drawn(folder / "benchmarks-memory.svg", cells, "Peak memory of the whole process", "peak", 2**20,
          StrMethodFormatter("{x:g} MiB"))
