#!/usr/bin/env python3
"""Lists what contracts promise, which docs/MODEL.md has only for the main promises.

    promises.py [CRATE ..]

For each module of the crates, of all if none is named, it prints the public functions with the names of their clauses,
a `.` for one without a name, the laws, and the mutants that change the module.
"""
import re
import sys
from collections import defaultdict
from pathlib import Path

TOP = Path(__file__).resolve().parents[1]
# a type or a trait that functions belong to, a function, or a clause
PART = re.compile(
    r"^(?:impl(?:<[^{]*?>)? (?P<trait>[^{]* for )?(?:\w+::)*|(?P<pub_trait>pub trait ))(?P<owner>\w+)"
    r"|^ *(?P<public>pub )?(?:pub\(crate\) )?(?:extern \"C\" )?fn (?P<function>\w+)"
    r"|^ +ensures(?: (?P<clause>\w+))? \{", re.MULTILINE)


def functions(text):
    """The public functions of a module, and those of traits, with the names of their clauses."""
    owner, of_trait, found, clauses = "", False, {}, []
    for part in PART.finditer(text):
        if part["owner"]:
            owner, of_trait = f"{part['owner']}::", bool(part["trait"] or part["pub_trait"])
        elif part["function"]:
            owner, clauses = owner if part[0].startswith(" ") else "", []
            if part["public"] or owner and of_trait:
                found[owner + part["function"]] = clauses
        else:
            clauses.append(part["clause"] or ".")
    return {name: clauses for name, clauses in found.items() if clauses}


def mutants(crate):
    """The mutants of a crate, by the file that they change."""
    found = defaultdict(list)
    for edit in sorted((crate / "must-fail").glob("*.edit")):
        for file in sorted(set(re.findall(r"^file: *(\S+)", edit.read_text(), re.MULTILINE))):
            found[file].append(edit.stem)
    return found


def main(names):
    for crate in sorted(TOP.glob("crates/*")):
        changed = mutants(crate)
        for file in sorted(crate.glob("src/**/*.rt")) if not names or crate.name in names else []:
            listed = functions(file.read_text())
            inside = str(file.relative_to(crate))
            if listed or changed[inside]:
                print(f"{crate.name}/{inside}")
            for name, clauses in listed.items():
                print(f"    {name}: {', '.join(clauses)}")
            for mutant in changed[inside]:
                print(f"    refused: {mutant}")


main(sys.argv[1:])
