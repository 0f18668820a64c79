#!/usr/bin/env python3
"""Runs the programs on odd arguments, paths and streams, and on many lines, and compares all that they print.

    run.py MAILMAP_CHECK MAILMAP_VERIFY MAILMAP_SHORTLOG

Prints a line for what each group of runs shows. What is expected comes from the manual pages, from the model in
tests/model, from git if it is here, or from a rule by which many lines were made.
"""
import itertools
import os
import shutil
import sys
from pathlib import Path

sys.dont_write_bytecode = True
TESTS = Path(__file__).resolve().parents[1]
sys.path += [str(TESTS), str(TESTS / "model"), str(TESTS.parent / "bench")]
import many
import paths
import reads
import runs
import tasks
from measuring import scratch
from ways import CONTACTS, MAILMAP, PROGRAMS


def main(programs):
    programs = [Path(program).resolve() for program in programs]
    failed = 0
    with scratch() as folder:
        os.chdir(folder)
        # another user has to reach the programs
        os.chmod(folder, 0o755)
        for program, name in zip(programs, PROGRAMS, strict=True):
            shutil.copy(program, name)
        Path("mailmap").write_bytes(MAILMAP)
        Path("contacts").write_bytes(CONTACTS)
        for line in itertools.chain(paths.shows(), tasks.shows(), reads.shows(), many.shows()):
            print(line if runs.failed == failed else f"FAILED: {line}", flush=True)
            failed = runs.failed
        os.chdir("/")
    print(f"edges: {runs.passed} passed, {runs.failed} failed")
    sys.exit(1 if runs.failed else 0)


main(sys.argv[1:])
