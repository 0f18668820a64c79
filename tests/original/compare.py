#!/usr/bin/env python3
"""Compares mailmap_check and mailmap_dump with the Rust original, on hostile and realistic buffers.

    compare.py MAILMAP_CHECK MAILMAP_DUMP [MODE ..]

With modes, runs only their cases.

A line of cases.jsonl is a case: its mode, the buffers, the standard input, and the original's status and output; texts
are in hex. cases.py made the buffers from a seed. The answers come from the program in the directory oracle, which uses
the unchanged Rust crate and prints dumps as mailmap_dump does. It takes a fault's line from the buffer, and replaces
the original's `{line_number}` in the fault's text by the number.
"""
import json
import subprocess
import sys
import tempfile
from collections import Counter
from pathlib import Path


def command(programs, mode, paths):
    check, dump = programs
    if mode == "check":
        return [check, *paths]
    if mode == "compact":
        return [check, "--compact", *paths]
    return [dump, mode, *paths]


def run(programs, case, folder):
    paths = []
    for number, file in enumerate(case["files"]):
        path = folder / str(number)
        path.write_bytes(bytes.fromhex(file))
        paths.append(str(path))
    words = command(programs, case["mode"], paths)
    return subprocess.run(words, input=bytes.fromhex(case["input"]), capture_output=True)


def main():
    programs = [str(Path(word).resolve()) for word in sys.argv[1:3]]
    modes = sys.argv[3:]
    cases = [json.loads(line) for line in open(Path(__file__).with_name("cases.jsonl"), encoding="ascii")]
    agreed, failed = Counter(), 0
    with tempfile.TemporaryDirectory() as folder:
        for number, case in enumerate(cases, 1):
            if modes and case["mode"] not in modes:
                continue
            done = run(programs, case, Path(folder))
            if (done.returncode, done.stdout.hex(), done.stderr) == (case["status"], case["answer"], b""):
                agreed[case["mode"]] += 1
            else:
                failed += 1
                print(f"case {number}, {case['mode']}: {done.stdout.hex()}, expected {case['answer']}")
    counts = ", ".join(f"{count} of {mode}" for mode, count in agreed.items())
    print(f"beside the original: {counts}")
    print(f"original: {agreed.total()} passed, {failed} failed")
    sys.exit(1 if failed or not agreed or len(cases) != 600 else 0)


main()
