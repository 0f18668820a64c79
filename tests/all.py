#!/usr/bin/env python3
"""Proves and builds what is shipped, and then runs all tests.

    all.py [PART ..]

With parts, runs only these, on what is already built. Each part prints what it does, and what it took in seconds and in
processor time. Its output has lines `WORD: N passed, M failed`; a part without such a line counts as one test. What
can't run here prints a line `skipped: WHAT, since WHY`, and counts as skipped only. The last line of the output is the
sum.
"""
import os
import re
import shutil
import subprocess
import sys
import tempfile
import time
from concurrent.futures import ThreadPoolExecutor, as_completed
from pathlib import Path

TOP = Path(__file__).resolve().parents[1]
COUNTS = re.compile(r"^(?:\w[\w ]*: )?(\d+) passed, (\d+) failed$", re.MULTILINE)
SKIPPED = re.compile(r"^skipped: ", re.MULTILINE)
# printed by Python's unittest
RAN = re.compile(r"^Ran (\d+) tests?", re.MULTILINE)
# the programs as they are shipped, which need no library, and the one that prints in hex
PROGRAMS = "mailmap_check", "mailmap_verify", "mailmap_shortlog"
CHECK, VERIFY, SHORTLOG = (f"crates/{name}/out/static/{name}" for name in PROGRAMS)
# a library can be preloaded only into programs that are linked with others
DYNAMIC = " ".join(f"crates/{name}/out/{name}" for name in PROGRAMS)
DUMP = "crates/mailmap_dump/out/mailmap_dump"
LIBRARY, CALLS = "crates/gix_mailmap_c/out/c", "crates/out_of_memory/out/out_of_memory"
# Parts run in parallel, because most of them use one processor.
AT_A_TIME = max(1, len(os.sched_getaffinity(0)) - 1)
BUILD = ("proves and builds the programs, the libraries for C and the package for Python",
         "make --no-print-directory proved build lib extension")
CROSS = "aarch64-linux-gnu-gcc"
# What each part does, and its command, the longest first.
PARTS = {
    "library": ("runs the tests in Rattle, without proving them", "tests/library.sh"),
    "out_of_memory": ("refuses each request for memory of the library's calls in turn",
                      f"tests/out_of_memory.py {CALLS}"),
    "cases": ("makes the stored cases again and compares them", "tests/cases.sh"),
    "vendored": ("copies the library's crates into another repository", "tests/vendor.py"),
    "original": ("compares answers with those of the Rust original", f"tests/original/compare.py {CHECK} {DUMP}"),
    "edges": ("runs programs on odd arguments, paths and streams", f"tests/edges/run.py {CHECK} {VERIFY} {SHORTLOG}"),
    "verify": ("compares mailmap_verify with a model", f"tests/verify/run.py {VERIFY}"),
    "suggest": ("compares suggested lines with two models and git", f"tests/suggest/run.py {VERIFY} {SHORTLOG}"),
    "accepted": ("appends suggested lines, and asks what git answers then",
                 f"tests/suggest/accepted.py {VERIFY} {CHECK}"),
    "git_contacts": ("compares the findings about git's answers with git's own",
                     f"tests/git_contacts.py {VERIFY} {CHECK}"),
    "shortlog": ("compares mailmap_shortlog with a model and git", f"tests/shortlog/run.py {SHORTLOG}"),
    "failures": ("runs programs when files, streams or memory fail", f"tests/failures.sh {CHECK} {VERIFY} {SHORTLOG}"),
    "refusals": ("refuses each request for memory of the programs in turn",
                 f"tests/refusals.py {DYNAMIC}"),
    "replacing": ("makes the calls fail by which a file is replaced", f"tests/replacing.py {DYNAMIC.split()[1]}"),
    "turns": ("runs programs whose reads and writes are short, interrupted or fail", f"tests/turns.py {DYNAMIC}"),
    "memory": ("measures the memory for hostile mailmaps", f"tests/memory.py {CHECK} {VERIFY} {SHORTLOG}"),
    "streams": ("runs programs on streamed contacts", f"tests/streams.py {CHECK} {VERIFY}"),
    "examples": ("runs the examples on the pages", f"tests/examples.py {CHECK} {VERIFY} {SHORTLOG}"),
    "pages": ("checks that everything that the pages name exists", "tests/pages.py"),
    "manual": ("checks the manual pages", "tests/manual.sh"),
    "completion": ("completes words as bash does", f"tests/completion.sh {VERIFY}"),
    "layout": ("checks the layout of code, definitions and proofs", "tests/layout.sh"),
    "not_compiling": ("checks that some code doesn't compile", "tests/not_compiling/run.py"),
    "C": ("tests the libraries for C", f"tests/c/run.sh {LIBRARY}"),
    "Python": ("tests wheels of the package for Python", f"tests/python/run.sh {LIBRARY}"),
    "Python_source": ("tests the package for Python in the source tree", f"tests/python/source.sh {LIBRARY}"),
    "Python_memory": ("refuses memory to the package for Python, and looks for leaks",
                      f"tests/python/memory.sh {LIBRARY}"),
    "Rust": ("tests the crate for Rust", f"tests/rust/run.py {LIBRARY}/libgix_mailmap.a"),
    "static": ("runs the programs in a folder with nothing else", f"tests/static.sh {CHECK} {VERIFY} {SHORTLOG}"),
    **{f"aarch64_{part}": (f"tests {part} for aarch64 by an emulator", f"tests/aarch64.sh {part}")
       for part in ("programs", "verify", "suggest", "shortlog", "libraries", "packages", "wheel")},
    "pre_commit": ("runs the hooks for pre-commit", f"tests/pre_commit.sh {VERIFY}"),
    "installed": ("runs the programs of docs/C.md over an installed copy", "tests/c/installed.sh"),
    "shipped": ("installs a copy and the tarball, without the toolchain", "tests/ship.sh"),
    "debian": ("builds, installs and removes the Debian packages", "tests/debian.sh"),
}


class Took:
    """How long something took: in seconds, and in seconds of processors, its own and those of all that it called."""

    def __init__(self):
        self.begun, self.wall, self.processor = time.monotonic(), 0, 0

    def end(self, used):
        self.wall, self.processor = time.monotonic() - self.begun, used.ru_utime + used.ru_stime

    def __str__(self):
        return f"took {self.wall:.0f} s, and {self.processor:.0f} s of processor time"


def run(command, **more):
    """Runs a command. Returns its status, its output if `stdout` is a pipe, and what it took."""
    took = Took()
    with subprocess.Popen(command.split(), cwd=TOP, stdin=subprocess.DEVNULL, **more) as process:
        said = process.stdout.read() if process.stdout else ""
        _, status, used = os.wait4(process.pid, 0)
        process.returncode = os.waitstatus_to_exitcode(status)
    took.end(used)
    return process.returncode, said, took


def run_part(name):
    return run(PARTS[name][1], stdout=subprocess.PIPE, stderr=subprocess.STDOUT, encoding="utf-8", errors="replace")


def counts_of(status, said):
    """How many of a part's tests passed, how many failed, and how many things were skipped."""
    found = [[int(count) for count in counts] for counts in COUNTS.findall(said)] or [[int(status == 0 and not SKIPPED.search(said)), 0]]
    passed, failed = map(sum, zip(*found))
    passed += sum(map(int, RAN.findall(said))) if status == 0 else 0
    return passed, max(failed, int(status != 0)), len(SKIPPED.findall(said))


def counted(passed, failed, skipped):
    return f"{passed} passed, {failed} failed" + (f", {skipped} skipped" if skipped else "")


def builds_for_arm():
    """Whether gcc's compiler for aarch64 is here, with a C library."""
    with tempfile.TemporaryDirectory() as folder:
        words = [CROSS, "-static", "-x", "c", "-", "-o", f"{folder}/program"]
        program = b"int main(void) { return 0; }"
        return bool(shutil.which(CROSS)) and subprocess.run(words, input=program, capture_output=True).returncode == 0


def build():
    """Returns whether the build succeeded, for aarch64, too, where that is possible. Its output is printed as it
    comes."""
    print(f"== build: {BUILD[0]}", flush=True)
    status = 0
    for words in [BUILD[1], *[f"{BUILD[1]} ARCH=aarch64"] * builds_for_arm()]:
        one, _, took = run(words)
        status = max(status, one)
        print(f"   {words} {took}", flush=True)
    return status == 0


def run_parts(names):
    """The counts of all parts, and their processor time. A part's output is printed when it has ended."""
    sums, processor = (0, 0, 0), 0
    for name in names:
        print(f"   to do: {name}, {PARTS[name][0]}", flush=True)
    with ThreadPoolExecutor(AT_A_TIME) as pool:
        parts = {pool.submit(run_part, name): name for name in names}
        for ended in as_completed(parts):
            status, said, took = ended.result()
            counts = counts_of(status, said)
            print(f"== {parts[ended]}: {PARTS[parts[ended]][0]}\n{said}", end="")
            print(f"   {parts[ended]} {took}: {counted(*counts)}", flush=True)
            sums, processor = tuple(map(sum, zip(sums, counts))), processor + took.processor
    return sums, processor


def main(names):
    unknown = [name for name in names if name not in PARTS]
    if unknown:
        sys.exit(f"tests: no part {unknown[0]}; there are {', '.join(PARTS)}")
    sums, processor = (0, 1, 0), 0
    is_built = bool(names) or build()
    begun = time.monotonic()
    if is_built:
        sums, processor = run_parts(names or PARTS)
    else:
        print("   What is shipped isn't built, so nothing of it can be tested.")
    minutes, seconds = divmod(round(time.monotonic() - begun), 60)
    print(f"all tests took {minutes} min {seconds} s, and {processor / 60:.1f} min of processor time")
    print(counted(*sums))
    sys.exit(1 if sums[1] else 0)


main(sys.argv[1:])
