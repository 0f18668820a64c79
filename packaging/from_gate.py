#!/usr/bin/env python3
"""Takes over what the gate has just proved and built in this folder, so that `make test` proves none of it again.

`rt ci` leaves the programs in crates/*/out, as LLVM builds them, and the libraries that they were proved over. It checks
the library for C, but doesn't build it. So that is built here, over the same libraries, which proves this one crate
again. `make test` leaves out crates that are noted as proved.
"""
import subprocess

from prove import digest, kit, read_crates
from toolchain import folder, words


def main():
    version, known = kit(), {}
    for crate in read_crates().values():
        if crate.is_static:
            print(f"Building {crate.name} over the libraries that the gate has proved", flush=True)
            built = words("build", crate.name, "src/lib.rt", crate.uses, crate.of_kit)
            built += ["--crate-type", "staticlib", "--toolchain", str(folder() / "toolchain"), "--backend", "llvm"]
            built += ["--jobs", "4", "-o", f"out/lib{crate.name}.a"]
            subprocess.run(built, cwd=crate.folder, stdin=subprocess.DEVNULL, check=True)
        # the object file is linked statically, too; the gate doesn't keep it from one run to the next
        has_object = not crate.is_program or crate.made().with_suffix(".o").is_file()
        if crate.made().is_file() and has_object:
            (crate.folder / "out/proved").write_text(f"{digest(crate, known)} {version}")


main()
