"""Runs programs in turn, and writes costs and tables. The benchmarks and some tests share it."""
import itertools
import os
import re
import signal
import subprocess
import sys
import tempfile
import time
from collections.abc import Callable, Mapping, Sequence
from dataclasses import dataclass, field
from functools import partial
from pathlib import Path
from typing import Any

HERE = Path(__file__).resolve().parent
TOP = HERE.parent
KINDS = ["mixed", "sorted", "hundred"]
MILLION = 1_000_000
CHECK, ORIGINAL, GIT, LIBGIT2 = PEERS = ["mailmap_check", "original", "git", "libgit2"]
VERIFY, SHORTLOG, BENCH = "mailmap_verify", "mailmap_shortlog", "mailmap_bench"
# after how many seconds of processor time a program is stopped that may take very long, and at how many addresses
STOP, ADDRESSES = 10, 4 << 30
# the most rounds of a cell, and how many times the seconds of a cell a first round takes that is the only one
MOST_ROUNDS, LONG = 50, 3


class Failed(Exception):
    """An error that is reported in one line, without a traceback."""


def scratch() -> "tempfile.TemporaryDirectory[str]":
    """A temporary directory, in memory if the system has one there, so that writes don't wait for a disk."""
    return tempfile.TemporaryDirectory(dir="/dev/shm" if Path("/dev/shm").is_dir() else None)


def built(name: str, folder: str | Path, *flags: str | Path) -> str:
    """Builds a C program of this directory into another, and returns its path."""
    program = Path(folder) / name
    subprocess.run(["cc", "-O2", "-o", program, HERE / f"{name}.c", *flags], check=True)
    return str(program)


def output(words: Sequence[str | Path], **more: Any) -> str:
    """The output of a program."""
    done = subprocess.run(words, stdin=subprocess.DEVNULL, capture_output=True, text=True, **more)
    if done.returncode != 0:
        raise Failed(f"{' '.join(map(str, words))}: {(done.stderr.splitlines() or ['no reason given'])[-1]}")
    return str(done.stdout)


def settings() -> dict[str, str]:
    """The environment, without anyone's settings of git, and with the package for Python."""
    own = {"GIT_CONFIG_NOSYSTEM": "1", "GIT_CONFIG_GLOBAL": "/dev/null", "PYTHONPATH": f"{TOP}/python"}
    return {**os.environ, **own}


@dataclass
class Run:
    """A run of a program: its times in nanoseconds, its peak in bytes, its status, and its standard error."""

    nanos: int
    peak: int
    status: int
    processor: int
    complaints: str


def run(measure: str, words: Sequence[str], stdin: str = "/dev/null", stdout: str = "/dev/null", seconds: float = 600,
        **more: Any) -> Run:
    """Runs a program once, from start to end, with measure.c."""
    line = [measure, str(seconds), stdin, stdout, *words]
    ended = subprocess.run(line, capture_output=True, text=True, errors="replace", **more)
    if ended.returncode != 0:
        raise Failed(f"{measure}: status {ended.returncode}")
    nanos, kib, status, processor = map(int, ended.stdout.split())
    return Run(nanos, kib * 1024, status, processor, ended.stderr)


def succeeded(program: str | Path, ended: Run) -> bool:
    """Whether a run succeeded. mailmap_verify ends with 1 if it has findings."""
    return ended.status == 0 or (ended.status == 1 and Path(program).name == VERIFY)


@dataclass(frozen=True)
class Cost:
    """What some runs took: the least nanoseconds from start to end and of the processor, the largest peak in bytes, and
    what they counted; or in one word why there is none.
    """

    time: int = 0
    processor: int = 0
    peak: int = 0
    fault: str = ""
    counts: Mapping[str, int] = field(default_factory=dict)

    def after(self, before: "Cost | None") -> "Cost":
        if before is None or self.fault:
            return self
        least = [min(getattr(self, what), getattr(before, what)) for what in ("time", "processor")]
        return Cost(*least, max(self.peak, before.peak), counts=self.counts)


@dataclass(frozen=True)
class Bench:
    """The programs that are here by their names, the folder of the maps and their sizes, a folder in memory for input
    and output, the program measure.c, how many seconds a cell may take, a folder for charts, and what is missing.
    """

    programs: dict[str, str]
    maps: Path
    sizes: Sequence[int]
    folder: Path
    measure: str
    seconds: float
    charts: Path
    missing: list[str]

    def lacks(self, what: str) -> None:
        print(f"missing: {what}", file=sys.stderr, flush=True)
        self.missing.append(what)

    def is_full(self) -> bool:
        return MILLION in self.sizes

    def needs(self, *names: str) -> None:
        for name in names:
            if name not in self.programs:
                raise Failed(f"{name} is not here")

    def mapping(self, mailmap: str | Path, names: Sequence[str] = PEERS) -> dict[str, list[str]]:
        """The command lines that answer contacts by a mailmap, of the programs that are here."""
        git = ["-C", f"{self.folder}/repository", "-c", f"mailmap.file={mailmap}", "check-mailmap", "--stdin"]
        words = {CHECK: [str(mailmap)], ORIGINAL: ["check", str(mailmap)], GIT: git, LIBGIT2: [str(mailmap)]}
        return {name: [self.programs[name], *words[name]] for name in names if name in self.programs}

    def in_turn(self, runs: Mapping[str, Callable[[], Cost]]) -> dict[str, Cost]:
        """What each program costs. They run in turn until the time of a cell is used up, at least twice, or once if
        that takes long; what has a fault runs once.
        """
        found: dict[str, Cost] = {}
        used = 0.0
        for number in range(MOST_ROUNDS):
            if number > 0 and used > self.seconds * (LONG if number == 1 else 1):
                break
            for name in [name for name in runs if name not in found or not found[name].fault]:
                start = time.monotonic()
                found[name] = runs[name]().after(found.get(name))
                used += 0 if found[name].fault else time.monotonic() - start
        return found

    def processes(
        self, commands: Mapping[str, list[str]], stdin: str | Path = "/dev/null", stop: int = 600, **stdins: str
    ) -> dict[str, Cost]:
        """What whole processes cost, which are stopped after so many seconds of processor time. `stdins` are for those
        with another standard input.
        """
        return self.in_turn({name: partial(self.process, name, words, stdins.get(name, str(stdin)), stop)
                             for name, words in commands.items()})

    def process(self, name: str, words: list[str], stdin: str, stop: int = 600) -> Cost:
        """One run in the folder, so that the names of very many files may be short."""
        # or the time to free the memory of the last answers would count
        self.answers(name).unlink(missing_ok=True)
        ended = run(self.measure, words, stdin, str(self.answers(name)), stop, cwd=self.folder, env=settings())
        if ended.status == 128 + signal.SIGXCPU:
            return Cost(fault=f"> {stop} s")
        if not succeeded(words[0], ended):
            return Cost(fault=f"> {ADDRESSES >> 30} GiB" if "memory" in ended.complaints else f"status {ended.status}")
        return Cost(ended.nanos, ended.processor, ended.peak)

    def answers(self, name: str) -> Path:
        """The file with the last output of a program."""
        return self.folder / f"{re.sub(r'[^a-z0-9]+', '-', name)}.answers"

    def calls(self, commands: Mapping[str, list[str]], figure: str = "min_ns") -> dict[str, Cost]:
        """What calls cost that programs time themselves. All must have counted the same."""
        found = self.in_turn({name: partial(printed, words, figure) for name, words in commands.items()})
        for one, other in itertools.combinations(found.values(), 2):
            if any(one.counts[key] != other.counts[key] for key in one.counts.keys() & other.counts.keys()):
                raise Failed(f"not the same counts: {found}")
        return found


def printed(words: list[str], figure: str = "min_ns") -> Cost:
    """What mailmap_bench or a peer of it prints in one line: nanoseconds, and what was counted."""
    numbers = {key: int(number) for key, number in re.findall(r"(\w+)=(\d+)", output(words, env=settings()))}
    counts = {key: number for key, number in numbers.items() if not key.endswith("_ns") and key != "iters"}
    return Cost(numbers[figure], numbers[figure], counts=counts)


def must_succeed(found: dict[str, Cost]) -> dict[str, Cost]:
    for name, cost in found.items():
        if cost.fault:
            raise Failed(f"{name}: {cost.fault}")
    return found


def duration(nanos: float) -> str:
    unit, size = next((u for u in [("s", 1e9), ("ms", 1e6), ("µs", 1e3)] if nanos >= u[1]), ("ns", 1.0))
    return f"{digits(nanos / size)} {unit}"


def digits(number: float) -> str:
    """Three digits, without decimals from 100 on."""
    return f"{number:.0f}" if number >= 100 else f"{number:.3g}"


def mebibytes(count: float) -> str:
    return f"{count / 2**20:.1f} MiB"


def shown(cost: Cost | None, what: str = "time") -> str:
    """A time or a peak, or why there is none."""
    if cost is None:
        return ""
    return cost.fault or (mebibytes if what == "peak" else duration)(getattr(cost, what))


def ratio(one: Cost | None, other: Cost | None, aim: float | None = None, what: str = "time") -> str:
    """A ratio of two costs, marked if there is an aim."""
    if not one or not other or one.fault or other.fault:
        return ""
    found = getattr(one, what) / max(getattr(other, what), 1)
    return marked(f"{found:.3f}" if found < 0.1 else f"{found:.2f}", found, aim)


def marked(text: str, number: float, aim: float | None) -> str:
    return text if aim is None else f"{text} {'✓' if number <= aim else '✗'}"


@dataclass(frozen=True)
class Table:
    """A table in Markdown. What looks like a number stands at the right."""

    head: Sequence[str]
    rows: Sequence[Sequence[str]]

    def __str__(self) -> str:
        columns = zip(*self.rows)
        line = ["--:" if all(re.match(r"[\d>]|$", cell) for cell in column) else "---" for column in columns]
        return "\n".join(f"| {' | '.join(cells)} |" for cells in [self.head, line, *self.rows])
