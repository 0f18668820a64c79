"""The words with which rt calls the compiler below it, for what rt has no command for.

A crate is read over the libraries in crates/*/out/rlib, as prove.py or the gate has left them. rt itself takes only
libraries that another `rt` command of the same kind has built, and proves all others again.
"""
import shutil
from pathlib import Path


def folder():
    """The toolchain's folder."""
    return Path(shutil.which("rt")).resolve().parents[1]


def words(verb, name, root, uses, of_kit):
    """The command that checks or builds a crate with this name and root file, with what uses it has of the repository
    and of the toolchain."""
    kit, below = folder(), {each for used in uses for each in (used, *used.below())}
    made = [kit / "bin/rattle", verb, "--crate-name", name, root]
    for each in ["std", *of_kit]:
        made += ["--extern", f"{each}={kit}/rlibs/{each}.rlib"]
    made += ["-L", f"dependency={kit}/rlibs"]
    for used in uses:
        made += ["--extern", f"{used.name}={used.folder}/out/rlib/{used.name}.rlib"]
    for used in sorted(below, key=lambda each: each.name):
        made += ["-L", f"dependency={used.folder}/out/rlib"]
    made += ["--antt-project", kit / "rattle/logic/antt-project.json", "--logic-built", kit / "logic_built"]
    return [*map(str, made), "--links", f"{name}="]
