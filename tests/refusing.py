"""Runs programs in which one request for memory is refused, by a library that is preloaded (refusing.c).

Freed memory is filled with other bytes, so that a read of it would show.
"""
import os
import subprocess
from pathlib import Path

HERE = Path(__file__).resolve().parent
# A program makes fewer requests.
MOST = 5_000


class Refusing:
    """Is built in the folder in which the programs run."""

    def __init__(self):
        self.library = os.path.abspath("refusing.so")
        flags = ["-std=c11", "-O1", "-fPIC", "-shared", "-Wall", "-Wextra", "-Werror"]
        subprocess.run([os.environ.get("CC", "cc"), *flags, HERE / "refusing.c", "-o", self.library], check=True)
        # gets a byte from a program that made the request
        self.note = os.memfd_create("note")

    def run(self, number, command, stdin=b""):
        """The status and the output of a run that is refused the request of this number, and whether it was."""
        env = {"LD_PRELOAD": self.library, "REFUSED": str(number), "NOTE": str(self.note), "MALLOC_PERTURB_": "165"}
        before = os.fstat(self.note).st_size
        done = subprocess.run(command, input=stdin, capture_output=True, env=env, pass_fds=[self.note], timeout=60)
        return (done.returncode, done.stdout, done.stderr), os.fstat(self.note).st_size > before

    def runs(self, command, stdin=b""):
        """These results for one request after another, up to that of the run that makes fewer."""
        for number in range(MOST):
            result, was_refused = self.run(number, command, stdin)
            yield result, was_refused
            if not was_refused:
                return
        raise SystemExit(f"{command} makes {MOST} requests for memory or more")
