#!/usr/bin/env python3
"""Tests the crate in rust/gix_mailmap: its own tests and the examples of its documentation, the stored answers of the
original, and the program of docs/RUST.md.

    run.py LIBRARY               over this static library
    run.py --installed PREFIX    only the page's program, over what is installed
"""
import os
import re
import shutil
import subprocess
import sys
import tempfile
from pathlib import Path

TOP = Path(__file__).resolve().parents[2]
CRATE, ANSWERS, PAGE = TOP / "rust/gix_mailmap", TOP / "tests/rust/answers", TOP / "docs/RUST.md"
PASSED = re.compile(r"^test result: \w+\. (\d+) passed; (\d+) failed", re.MULTILINE)


def cargo(words, folder, **environment):
    """The output of cargo, after which the test ends if it fails."""
    done = subprocess.run(["cargo", *words, "--offline"], cwd=folder, env={**os.environ, **environment},
                          stdin=subprocess.DEVNULL, stdout=subprocess.PIPE, stderr=subprocess.STDOUT, text=True)
    if done.returncode != 0:
        sys.exit(f"cargo {' '.join(words)} fails:\n{done.stdout}")
    return done.stdout


def copied(source, target):
    """A copy of a package. cargo writes a lock file beside the original."""
    shutil.copytree(source, target, ignore=shutil.ignore_patterns("target", "Cargo.lock"))
    return target


def own_tests(folder, environment):
    found = PASSED.findall(cargo(["test"], copied(CRATE, folder / "own"), **environment))
    passed, failed = (sum(map(int, counts)) for counts in zip(*found))
    print(f"Rust: {passed} passed, {failed} failed")


def stored_answers(folder, environment):
    copied(ANSWERS, folder / "tests/rust/answers")
    copied(CRATE, folder / "rust/gix_mailmap")
    cargo(["build", "--quiet", "--release"], folder / "tests/rust/answers", **environment)
    program = folder / "target/release/answers"
    subprocess.run([TOP / "tests/original/compare.py", program, program], check=True)


def page_program(folder, environment):
    """The program of the page, in a package as the page shows it, beside a folder gix_mailmap with the crate."""
    manifest, program, printed = (
        re.search(rf"^```{kind}\n(.*?)^```$", PAGE.read_text(encoding="utf-8"), re.MULTILINE | re.DOTALL)[1]
        for kind in ("toml", "rust", "text")
    )
    (folder / "contacts/src").mkdir(parents=True)
    (folder / "contacts/Cargo.toml").write_text(manifest, encoding="utf-8")
    (folder / "contacts/src/main.rs").write_text(program, encoding="utf-8")
    cargo(["build", "--quiet"], folder / "contacts", **environment)
    done = subprocess.run([folder / "target/debug/contacts"], capture_output=True, text=True)
    if (done.stdout, done.stderr) != (printed, ""):
        sys.exit(f"the program of docs/RUST.md prints:\n{done.stdout}{done.stderr}")
    print("page: 1 passed, 0 failed")


def main(library, prefix=None):
    if not shutil.which("cargo"):
        print("skipped: there is no cargo here, so the crate for Rust is not tested\nRust: 0 passed, 0 failed")
        return
    with tempfile.TemporaryDirectory() as name:
        folder = Path(name)
        environment = {"CARGO_TARGET_DIR": str(folder / "target")}
        if prefix:
            (folder / "gix_mailmap").symlink_to(Path(prefix).resolve() / "share/gix_mailmap")
            page_program(folder, environment)
            return
        environment["GIX_MAILMAP_LIBRARY"] = str(Path(library).resolve())
        copied(CRATE, folder / "gix_mailmap/rust/gix_mailmap")
        for test in (own_tests, stored_answers, page_program):
            test(folder, environment)
            sys.stdout.flush()


main(*sys.argv[1:])
