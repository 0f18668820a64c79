#!/usr/bin/env python3
"""Proves and builds crates, and before them the crates that they use.

    prove.py CRATE..

It prints a line for each crate when it is done. All that rt says of a crate is in crates/CRATE/out/prove.log. A crate
of which nothing has changed since it was proved is left as it is.

Crates of which neither uses the other are proved side by side. Two calls of rt in one folder can't do that: each wants
the crates below for itself. So each crate is proved in a folder of its own, with copies of its files and the libraries
that it uses as they are built.
"""
import hashlib
import os
import re
import shutil
import subprocess
import sys
import tempfile
import threading
import time
from concurrent.futures import FIRST_COMPLETED, ThreadPoolExecutor, wait
from pathlib import Path

TOP = Path(__file__).resolve().parents[1]
# the parts of a crate that a proof reads
PARTS = ("src", "specs", "proofs")
# Crates side by side, one job each: a second job for a crate takes a fifth more processor time. The crate that the
# longest chain of crates waits for comes first.
PROCESSORS = len(os.sched_getaffinity(0))
FOUND = re.compile(r"so far: (\d+) of (\d+) functions checked")
PROVED = re.compile(r"^logic=proved functions=(\d+)", re.MULTILINE)


def files_of(folder):
    """The files of a crate that a proof reads."""
    return sorted(file for part in PARTS for file in (folder / part).rglob("*") if file.is_file())


def sums_of(folder):
    """The path and the checksum of each of these files."""
    for file in files_of(folder):
        yield f"{file.relative_to(folder)}\n".encode() + hashlib.sha256(file.read_bytes()).digest()


def lines_by_crate(text):
    """The lines of a crates.txt by crate, without comments: `CRATE: USED ..` or `CRATE staticlib: USED ..`."""
    lines = [line.partition("#")[0].strip() for line in text.splitlines()]
    return {line.partition(":")[0].split()[0]: line for line in lines if line}


class Crate:
    def __init__(self, line, uses, of_kit):
        name, *kind = line.partition(":")[0].split()
        self.name, self.line, self.uses, self.of_kit = name, line, uses, of_kit
        self.is_static = "staticlib" in kind
        self.folder = TOP / "crates" / name
        self.is_program = (self.folder / "src/main.rt").is_file()
        self.progress = ""

    def below(self):
        """The crates that it uses, directly and indirectly."""
        return {each for used in self.uses for each in (used, *used.below())}

    def made(self):
        """The file that rt builds."""
        return self.folder / "out" / (self.name if self.is_program else f"lib{self.name}.a" if self.is_static else "rlib")


def read_crates():
    """The crates of this repository by name."""
    lines, crates = lines_by_crate((TOP / "crates.txt").read_text()), {}

    def crate(name):
        if name not in crates:
            words = lines[name].partition(":")[2].split()
            of_kit = [used for used in words if used not in lines]
            crates[name] = Crate(lines[name], [crate(used) for used in words if used in lines], of_kit)
        return crates[name]

    for name in lines:
        crate(name)
    return crates


def digest(crate, known):
    """A hash of all that the proof of a crate reads."""
    if crate.name not in known:
        made = hashlib.sha256(crate.name.encode())
        for sum in sums_of(crate.folder):
            made.update(sum)
        for used in crate.uses:
            made.update(digest(used, known).encode())
        known[crate.name] = made.hexdigest()
    return known[crate.name]


def kit():
    """The version of the toolchain; empty if there is none, as where a built copy is installed."""
    rt = shutil.which("rt")
    return subprocess.run([rt, "version"], capture_output=True, check=True, text=True).stdout.strip() if rt else ""


def is_done(crate, known, version):
    noted = crate.folder / "out/proved"
    sum, _, by = noted.read_text().partition(" ") if noted.is_file() else ("", "", "")
    return sum == digest(crate, known) and by.startswith(version) and crate.made().exists()


def link(source, target):
    try:
        os.link(source, target)
    except OSError:
        shutil.copy2(source, target)


def fill(room, crate):
    """Fills the directory in which a crate is proved with its files and the libraries it uses."""
    (room / "crates.txt").write_text("".join(each.line + "\n" for each in [crate, *crate.below()]))
    for each in [crate, *crate.below()]:
        for part in PARTS:
            if (each.folder / part).is_dir():
                shutil.copytree(each.folder / part, room / "crates" / each.name / part)
    for each in crate.below():
        shutil.copytree(each.folder / "out/rlib", room / "crates" / each.name / "out/rlib", copy_function=link)
    # what an earlier proof has stored
    if (crate.folder / "out").is_dir():
        shutil.move(crate.folder / "out", room / "crates" / crate.name / "out")


def follow(running, crate, log):
    """Writes rt's output to the log."""
    with open(log, "w", encoding="utf-8") as file:
        for line in running.stdout:
            file.write(line)
            found = FOUND.search(line)
            if found:
                crate.progress = f"{crate.name} {found[1]} of {found[2]}"


def prove(crate, known, version):
    """Proves a crate. Returns whether that succeeded, and a message."""
    begun, sum = time.monotonic(), digest(crate, known)
    crate.progress = crate.name
    with tempfile.TemporaryDirectory(prefix="prove-") as folder:
        room = Path(folder)
        fill(room, crate)
        out, log = room / "crates" / crate.name / "out", room / "log"
        out.mkdir(exist_ok=True)
        for stale in "proved", crate.name:
            (out / stale).unlink(missing_ok=True)
        words = ["rt", "run" if crate.is_program else "lib", "--jobs", "1"]
        words += ["--", "--help"] if crate.is_program else []
        try:
            with subprocess.Popen(
                words, cwd=out.parent, stdin=subprocess.DEVNULL, stdout=subprocess.PIPE, stderr=subprocess.STDOUT,
                encoding="utf-8", errors="replace",
            ) as running:
                follow(running, crate, log)
                _, status, used = os.wait4(running.pid, 0)
                running.returncode = os.waitstatus_to_exitcode(status)
            # the status of `rt run` is the program's own
            is_proved = (out / crate.made().name).exists() and (crate.is_program or not running.returncode)
            functions = PROVED.findall(log.read_text(encoding="utf-8"))
            if is_proved:
                (out / "proved").write_text(f"{sum} {version}")
            shutil.move(log, out / "prove.log")
        finally:
            shutil.move(out, crate.folder / "out")
    # rt reuses a library if another copy of this repository on the machine has proved the same files
    what = f"{functions[-1]} functions proved" if functions else "as another copy on this machine proved it"
    took = f"{time.monotonic() - begun:.0f} s, and {used.ru_utime + used.ru_stime:.0f} s of processor time"
    return is_proved, f"{what if is_proved else 'NOT PROVED'} in {took}"


class Report:
    """Prints a line for each crate that is done and, on a terminal, a line about those in progress."""

    def __init__(self, count):
        self.count, self.done = count, 0
        self.is_terminal = sys.stdout.isatty()
        self.lock = threading.Lock()

    def line(self, text):
        with self.lock:
            print(("\r\x1b[K" if self.is_terminal else "") + text, flush=True)

    def ended(self, crate, what):
        self.done += 1
        self.line(f"[{self.done:2} of {self.count}] {crate.name}: {what}")

    def at_work(self, crates):
        if self.is_terminal:
            with self.lock:
                columns = shutil.get_terminal_size().columns
                print("\r\x1b[K" + "; ".join(crate.progress for crate in crates)[: columns - 1], end="", flush=True)


def chain(crate, above):
    """The amount of proving on the longest chain of crates from this one to the last that waits for it."""
    size = sum(file.stat().st_size for file in files_of(crate.folder))
    return size + max((chain(each, above) for each in above[crate.name]), default=0)


def prove_all(crates, known, version):
    """Proves crates, those with the longest chain first. Returns those that aren't proved."""
    above = {crate.name: [other for other in crates if crate in other.uses] for crate in crates}
    length = {crate.name: chain(crate, above) for crate in crates}
    waiting = sorted(crates, key=lambda crate: -length[crate.name])
    report, running, failed = Report(len(crates)), {}, []
    with ThreadPoolExecutor(PROCESSORS) as pool:
        while running or waiting and not failed:
            unproved = {*waiting, *running.values(), *failed}
            ready = [crate for crate in waiting if not unproved & {*crate.uses}] if not failed else []
            for crate in ready[: PROCESSORS - len(running)]:
                waiting.remove(crate)
                running[pool.submit(prove, crate, known, version)] = crate
            for ended in wait(running, timeout=1, return_when=FIRST_COMPLETED).done:
                crate = running.pop(ended)
                is_proved, what = ended.result()
                report.ended(crate, what)
                failed += [crate] * (not is_proved)
            report.at_work(running.values())
    report.line("") if report.is_terminal else None
    return failed


def main(names):
    crates = read_crates()
    unknown = [name for name in names if name not in crates]
    if unknown or not names:
        sys.exit(f"prove: no crate {unknown[0]} in crates.txt" if unknown else __doc__)
    version, known, todo, seen = kit(), {}, [], set()

    def need(crate):
        """Adds a crate that isn't proved, after those that it uses."""
        if crate in seen:
            return
        seen.add(crate)
        for used in crate.uses:
            need(used)
        if not is_done(crate, known, version):
            todo.append(crate)

    for name in names:
        need(crates[name])
    if todo and not version:
        sys.exit(f"prove: {todo[0].name} has to be proved, and there is no toolchain here (rt)")
    if todo:
        print(f"Proving {len(todo)} crates for {', '.join(names)}. From nothing this takes minutes.", flush=True)
    failed = prove_all(todo, known, version)
    for crate in failed:
        print(f"{crate.name} is not proved. {crate.folder.relative_to(TOP)}/out/prove.log ends with:", file=sys.stderr)
        print(*(crate.folder / "out/prove.log").read_text().splitlines()[-20:], sep="\n", file=sys.stderr)
    sys.exit(1 if failed else 0)


if __name__ == "__main__":
    main(sys.argv[1:])
