#!/usr/bin/env python3
"""Makes each call of the system fail that `mailmap_verify --prune --in-place` makes to replace a file.

    replacing.py MAILMAP_VERIFY

The failure is reported, the file has its old text and nothing is left beside it. Only a new owner isn't needed. The
program has to be one that is linked with the C library, since failing.c is preloaded.
"""
import errno
import os
import subprocess
import sys
import tempfile
from pathlib import Path

sys.dont_write_bytecode = True
HERE = Path(__file__).resolve().parent
OLD, NEW = b"N <a@x>\nM <m@y>\nN <a@x>\n", b"M <m@y>\nN <a@x>\n"
# The call that fails, with this error, and the message for it; none if the file is replaced.
FAILURES = [
    ("", 0, b""),
    ("fchown", errno.EPERM, b""),
    ("create", errno.EACCES, b"Permission denied"),
    ("create", errno.EROFS, b"Read-only file system"),
    ("create", errno.ENAMETOOLONG, b"File name too long"),
    ("create", errno.EEXIST, b"the file of its name and .lock exists"),
    ("fchmod", errno.EPERM, b"Permission denied"),
    ("write", errno.ENOSPC, b"No space left on device"),
    ("write", errno.EDQUOT, b"Disk quota exceeded"),
    ("half", errno.ENOSPC, b"No space left on device"),
    ("half", errno.EFBIG, b"File too large"),
    ("fsync", errno.EIO, b"cannot be written"),
    ("fsync", errno.ENOSPC, b"No space left on device"),
    ("rename", errno.EACCES, b"Permission denied"),
    ("rename", errno.EROFS, b"Read-only file system"),
    ("rename", errno.ENOSPC, b"No space left on device"),
]


def main(program):
    passed = failed = 0
    program = Path(program).resolve()
    with tempfile.TemporaryDirectory() as folder:
        os.chdir(folder)
        flags = ["-std=c11", "-O1", "-fPIC", "-shared", "-Wall", "-Wextra", "-Werror"]
        subprocess.run([os.environ.get("CC", "cc"), *flags, HERE / "failing.c", "-o", "failing.so", "-ldl"], check=True)
        for call, error, why in FAILURES:
            for name in "first", "second":
                Path(name).write_bytes(OLD)
            env = {"LD_PRELOAD": os.path.abspath("failing.so"), "CALL": call, "ERROR": str(error)}
            words = [program, "--prune", "--in-place", "first", "second"]
            done = subprocess.run(words, capture_output=True, env=env, timeout=60)
            said = b"mailmap_verify: first: cannot be replaced: " + why + b"\n" if why else b""
            has = done.returncode, done.stdout, done.stderr, *(Path(name).read_bytes() for name in ("first", "second"))
            text = OLD if why else NEW
            want = 2 if why else 0, b"", said, text, text
            beside = sorted({*os.listdir()} - {"first", "second", "failing.so"})
            if has == want and not beside:
                passed += 1
            else:
                failed += 1
                print(f"{call} fails with {error}: {has} and {beside} beside it, and not {want}")
        os.chdir("/")
    print(f"replacing: {passed} passed, {failed} failed")
    sys.exit(1 if failed else 0)


main(sys.argv[1])
