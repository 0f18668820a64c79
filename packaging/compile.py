#!/usr/bin/env python3
"""Compiles proved programs and static libraries for another processor than that of this machine.

    compile.py ARCH CRATE..

The code of a program becomes the object file crates/CRATE/out/ARCH/CRATE.o, and that of a static library the archive
crates/CRATE/out/ARCH/libCRATE.a. The crates have to be proved and built by prove.py before. Only the crate itself is
read again, with what its proof has stored: the libraries that it uses are the same for all processors. A crate of which
nothing has changed since it was compiled is left as it is.

rt builds for x86-64 only. So this calls the compiler below it, with the words that rt would use.
"""
import subprocess
import sys
from concurrent.futures import ThreadPoolExecutor

import toolchain
from prove import PROCESSORS, digest, is_done, kit, read_crates

TARGETS = {"aarch64": "aarch64-unknown-linux-gnu"}


def made(crate, arch):
    """The file that the crate is compiled to."""
    return crate.folder / "out" / arch / (f"{crate.name}.o" if crate.is_program else f"lib{crate.name}.a")


def words(crate, arch):
    """The command that compiles a crate."""
    root = crate.folder / ("src/main.rt" if crate.is_program else "src/lib.rt")
    given = toolchain.words("build", crate.name, root, crate.uses, crate.of_kit)
    given += [] if crate.is_program else ["--crate-type", "staticlib"]
    given += ["--incremental", crate.folder / "out/incremental", "--jobs", "1", "--target", TARGETS[arch]]
    given += ["--toolchain", toolchain.folder() / "toolchain", "--backend", "llvm", "-o", made(crate, arch)]
    return [*map(str, given)]


def compile_crate(crate, arch, version, known):
    """Compiles a crate, unless that is done. Returns whether it succeeded."""
    noted, sum = made(crate, arch).with_name("compiled"), f"{digest(crate, known)} {version}"
    if noted.is_file() and noted.read_text() == sum and made(crate, arch).exists():
        return True
    if not version:
        print(f"{crate.name} has to be compiled for {arch}, and there is no toolchain here (rt)", file=sys.stderr)
        return False
    noted.parent.mkdir(parents=True, exist_ok=True)
    noted.unlink(missing_ok=True)
    done = subprocess.run(
        words(crate, arch), cwd=crate.folder, stdin=subprocess.DEVNULL, stdout=subprocess.PIPE,
        stderr=subprocess.STDOUT, encoding="utf-8", errors="replace",
    )
    if done.returncode == 0:
        noted.write_text(sum)
        print(f"{crate.name} is compiled for {arch}", flush=True)
        return True
    print(f"{crate.name} is not compiled for {arch}:", *done.stdout.splitlines()[-20:], sep="\n", file=sys.stderr)
    return False


def main(arch, names):
    crates, version, known = read_crates(), kit(), {}
    unknown = [name for name in names if name not in crates or not (crates[name].is_program or crates[name].is_static)]
    if arch not in TARGETS or unknown or not names:
        sys.exit(f"compile: no program and no static library: {unknown[0]}" if unknown else __doc__)
    for name in names:
        if not is_done(crates[name], known, version):
            sys.exit(f"compile: {name} isn't proved: run packaging/prove.py {name} before")
    with ThreadPoolExecutor(PROCESSORS) as pool:
        sys.exit(not all([*pool.map(lambda name: compile_crate(crates[name], arch, version, known), names)]))


if __name__ == "__main__":
    main(sys.argv[1] if len(sys.argv) > 1 else "", sys.argv[2:])
