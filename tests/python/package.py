"""The package as it is shipped: its wheel.

    package.py WHEEL..

If two wheels are given, their bytes have to be equal.
"""
import base64
import csv
import hashlib
import os
import re
import subprocess
import sys
import tempfile
import unittest
import zipfile
from pathlib import Path

import gix_mailmap

TOP = Path(__file__).resolve().parents[2]
SOURCE = TOP / "python" / "gix_mailmap"
VERSION = (TOP / "VERSION").read_text(encoding="ascii").strip()
INFO = f"gix_mailmap-{VERSION}.dist-info"
PROGRAMS = ("mailmap_check", "mailmap_shortlog", "mailmap_verify")
SCRIPTS = [f"gix_mailmap-{VERSION}.data/scripts/{name}" for name in PROGRAMS]
WHEELS = [Path(name) for name in sys.argv[1:]]


def read(name):
    with zipfile.ZipFile(WHEELS[0]) as wheel:
        return wheel.read(name)


class Wheel(unittest.TestCase):
    def test_what_is_in_it(self):
        """The programs, one file that loads, and no source in C."""
        names = [path.name for path in SOURCE.iterdir() if path.suffix in (".py", ".pyi")]
        wanted = {f"gix_mailmap/{name}" for name in [*names, "py.typed", "_native.abi3.so"]}
        wanted |= {f"{INFO}/{name}" for name in ("LICENSE", "METADATA", "WHEEL", "RECORD", "top_level.txt")}
        wanted.update(SCRIPTS)
        with zipfile.ZipFile(WHEELS[0]) as wheel:
            self.assertEqual(set(wheel.namelist()), wanted)
            modes = {wheel.getinfo(name).external_attr >> 16 & 0o777 for name in SCRIPTS}
        self.assertEqual(modes, {0o755})
        record = csv.reader(read(f"{INFO}/RECORD").decode().splitlines())
        for name, digest, length in record:
            if not name.endswith("RECORD"):
                data = read(name)
                hashed = base64.urlsafe_b64encode(hashlib.sha256(data).digest()).decode().rstrip("=")
                self.assertEqual((digest, length), (f"sha256={hashed}", str(len(data))))
            wanted.remove(name)
        self.assertFalse(wanted)

    def test_it_is_for_each_later_python(self):
        self.assertRegex(WHEELS[0].name, rf"^gix_mailmap-{re.escape(VERSION)}-cp311-abi3-manylinux_2_17_x86_64\.whl$")
        said = read(f"{INFO}/WHEEL").decode()
        self.assertIn("\nRoot-Is-Purelib: false\nTag: cp311-abi3-manylinux_2_17_x86_64\n", said)

    def test_it_needs_no_newer_glibc_than_its_name_says(self):
        minors = re.findall(rb"\0GLIBC_2\.(\d+)", read("gix_mailmap/_native.abi3.so"))
        self.assertTrue(minors)
        self.assertLessEqual(max(map(int, minors)), 17)

    def test_it_is_the_same_each_time(self):
        self.assertEqual(len({path.read_bytes() for path in WHEELS}), 1)

    def test_the_installed_metadata_says_what_that_of_the_wheel_does(self):
        metadata = read(f"{INFO}/METADATA").decode()
        self.assertTrue(metadata.startswith(f"Metadata-Version: 2.1\nName: gix-mailmap\nVersion: {VERSION}\n"))
        lines = (TOP / "packaging" / "METADATA.in").read_text(encoding="ascii").splitlines()
        fields = {line.partition(":")[0] for line in lines}
        self.assertLessEqual({"Author-email", "License", "Project-URL"}, fields)
        for line in lines:
            self.assertIn(line.replace("@VERSION@", VERSION) + "\n", metadata)

    def test_its_version_is_that_of_the_c_library(self):
        page = (TOP / "include" / "gix_mailmap.pc.in").read_text(encoding="ascii")
        self.assertIn("\nVersion: @VERSION@\n", page)
        self.assertEqual(gix_mailmap.__version__, VERSION)


class Programs(unittest.TestCase):
    """The programs in the environment that the wheel was installed into, whether or not the shell finds them."""
    WORDS = ["-f", "json", "--stdin-name", "m", "-"]
    FAULTY = "plain\n"

    def run_words(self, *words):
        return subprocess.run(words, input=self.FAULTY, env={"PATH": "/usr/bin"}, capture_output=True, text=True)

    def test_they_run(self):
        for name in PROGRAMS:
            done = self.run_words(Path(sys.executable).with_name(name), "--version")
            self.assertEqual((done.returncode, done.stderr), (0, ""))
            self.assertIn(VERSION, done.stdout)

    def test_the_module_runs_mailmap_verify(self):
        done = self.run_words(sys.executable, "-m", "gix_mailmap", *self.WORDS)
        by_name = self.run_words(Path(sys.executable).with_name("mailmap_verify"), *self.WORDS)
        self.assertEqual((done.returncode, done.stdout, done.stderr), (1, by_name.stdout, ""))
        self.assertIn("no-email", done.stdout)


class Setup(unittest.TestCase):
    """What setup.py refuses. It needs setuptools."""

    def refusal(self, command, **environment):
        with tempfile.TemporaryDirectory() as folder:
            run = subprocess.run(
                [os.environ["SETUP_PYTHON"], "setup.py", "--quiet", *command.split(), folder], cwd=TOP,
                env=os.environ | environment, capture_output=True, text=True,
            )
            self.assertEqual((run.returncode, os.listdir(folder)), (1, []))
            return run.stderr

    def test_no_library(self):
        said = self.refusal("build_ext --build-lib", GIX_MAILMAP_LIBRARY="/not/there.a")
        self.assertRegex(said, "there is no static library at /not/there.a: .*`make lib`.*GIX_MAILMAP_LIBRARY")

    def test_no_source_distribution(self):
        self.assertIn("a source distribution can't build the library", self.refusal("sdist --dist-dir"))


if __name__ == "__main__":
    unittest.main(argv=sys.argv[:1])
