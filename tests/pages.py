#!/usr/bin/env python3
"""Checks that everything that the pages name exists.

In all pages: files, links, laws, commands of the Makefile, crates. In docs/MODEL.md: the clauses that it quotes, to the
letter but for spaces. In docs/ARCHITECTURE.md: the arrows of the graph, which are those of crates.txt. In these two and
in CONTRIBUTING.md: all other names in code. Also, that each module says in its first line what it does, and each file
of definitions what it defines.
"""
import re
import sys
from itertools import pairwise
from pathlib import Path

TOP = Path(__file__).resolve().parents[1]
GUIDE, MODEL, ARCHITECTURE = (TOP / name for name in ("CONTRIBUTING.md", "docs/MODEL.md", "docs/ARCHITECTURE.md"))
PAGES = [TOP / "README.md", GUIDE, *sorted(TOP.glob("docs/*.md")), *sorted(TOP.glob("bench/results/*.md")),
         TOP / "python/README.md"]
# a path of this repository in code or as the target of a link
PATH = re.compile(
    r"(?<![\w/.<-])((?:crates|tests|bench|debian|docs|packaging|python|rust|include|sample|man|c)/[\w./-]*[\w/])")
# a link, and the heading in the page
LINK = re.compile(r"\]\(([^)#:]*)#?([^):]*)\)")
# what is built, and isn't in the repository
BUILT = re.compile(r"/out(/|$)")
# what a line of a source file declares: the type of an impl, a function, a clause, a type or the like, a variant
DECLARED = re.compile(
    r"^(?:impl(?:<[^{]*?>)? (?:[^{]* for )?(?:\w+::)*|pub trait )(?P<owner>\w+)"
    r"|^ *(?:pub(?:\(crate\))? )?(?:extern \"C\" )?fn (?P<function>\w+)"
    r"|^ +(?:ensures|ghost) (?P<clause>\w+)(?: =|:)? \{"
    r"|^(?:pub(?:\(crate\))? )?(?:struct|enum|const) (?P<item>\w+)"
    r"|^    (?:pub(?:\(crate\))? )?(?P<part>[A-Za-z]\w*)\b(?=[:({,])", re.MULTILINE)
# what a line of a file of definitions declares: a definition, a record, a field or a constructor
DEFINED = re.compile(r"^(?: *pub (?:record |data )?|(?:abbrev|unfoldable) pub |  )(\w+)(?= [:({])", re.MULTILINE)
# names of the language, the toolchain and the standard library
KNOWN = set("Ok Err None Some Result Less Model Debug collect ensures requires slice_index_or rt make".split())


class Sources:
    """What the crates declare."""

    def __init__(self):
        # A module is also there after the one that it is in, and a function after its type, its module and its crate.
        self.names = {file.name for file in (*TOP.glob("*"), *TOP.glob("crates/*/*"))}
        self.names.update(re.findall(r"\bgix_mailmap_\w+", (TOP / "include/gix_mailmap.h").read_text()))
        for file in TOP.glob("crates/*/src/**/*.rt"):
            crate, _, *inner = file.relative_to(TOP / "crates").with_suffix("").parts
            self.names.update((crate, *inner), map("::".join, pairwise((crate, *inner))))
            self.read(file.read_text(), crate, file.stem)
        for file in TOP.glob("crates/*/specs/*.antt"):
            self.names.update(DEFINED.findall(file.read_text()))

    def read(self, text, crate, module):
        owner = ""
        for found in DECLARED.finditer(text):
            kind, name = found.lastgroup, found[found.lastgroup]
            self.names.add(name)
            if kind in ("function", "item"):
                owner = owner if found[0].startswith(" ") else ""
                self.names.update(f"{place}::{name}" for place in (owner, module, crate))
            elif kind == "owner":
                owner = name


def unknown(text, sources):
    """The names in the text's code that are declared nowhere."""
    text = re.sub(r"^```.*?^```|^    .*?$", "", text, flags=re.DOTALL | re.MULTILINE)
    there = sources.names | KNOWN
    for name in set(re.findall(r"`((?:\w+::)*[A-Za-z]\w+)(?: [a-z ]+)?`", text)):
        parts = name.split("::")
        yield from (f"nothing is named {part}" for part in {parts[0], *map("::".join, pairwise(parts))} - there)


def functions_named(crate, name):
    """The text of each function of a crate with this name, from there to the next function."""
    for file in TOP.glob(f"crates/{crate}/src/**/*.rt"):
        pattern = rf"\bfn {name}\b.*?(?=\n *(?:pub(?:\(crate\))? )?fn |\Z)"
        for found in re.finditer(pattern, file.read_text(), re.DOTALL):
            yield " ".join(found[0].split())


def model(sources):
    """The names in docs/MODEL.md that don't exist, and the clauses that aren't as they are quoted."""
    text = MODEL.read_text()
    for function, crate, clause in re.findall(r"`([\w:]+)`\s+of\s+`(\w+)`:\n\n((?:    .*\n)+)", text):
        if not any(" ".join(clause.split()) in there for there in functions_named(crate, function.split("::")[-1])):
            yield f"{function} of {crate} has no clause {clause.strip()}"
    if text.count("\n    ensures ") != len(re.findall(r"`\s+of\s+`\w+`:\n\n    ensures ", text)):
        yield "a clause without its function and crate"
    for file in TOP.glob("crates/*/specs/*.antt"):
        if file.stem != "Lib" and not file.read_text().startswith("-- "):
            yield f"{file.relative_to(TOP)} doesn't say what it defines"
    yield from unknown(text, sources)


def reached(crate, uses):
    """The crates below a crate."""
    return uses[crate].union(*(reached(used, uses) for used in uses[crate]))


def architecture(sources):
    """The mistakes of docs/ARCHITECTURE.md about crates and modules."""
    text = ARCHITECTURE.read_text()
    lines = [line.replace(" staticlib", "").split(":") for line in (TOP / "crates.txt").read_text().splitlines()]
    uses = {crate: set(used.split()) & {name for name, _ in lines} for crate, used in lines}
    # a crate that is reached through another one has no arrow of its own
    arrows = {(crate, used) for crate in uses for used in uses[crate]
              if not any(used in reached(other, uses) for other in uses[crate])}
    drawn = set(re.findall(r"^ *(\w+) --> (\w+)$", text, re.MULTILINE))
    yield from (f"the graph and crates.txt differ in {' --> '.join(arrow)}" for arrow in arrows ^ drawn)
    yield from unknown(text, sources)


def silent_modules():
    """The modules whose first line doesn't say what they do."""
    for file in TOP.glob("crates/*/src/**/*.rt"):
        if not file.read_text().startswith("//! "):
            yield f"docs/ARCHITECTURE.md: {file.relative_to(TOP)} doesn't say what it does"


def headings(text):
    """The headings of a page, as links have them."""
    lines = re.findall(r"^#+ (.*)$", text, re.MULTILINE)
    return {re.sub(r"[^\w -]", "", line.lower()).replace(" ", "-") for line in lines}


def missing(sources):
    """The names on a page that don't exist."""
    targets = set(re.findall(r"^([a-z_]+):", (TOP / "Makefile").read_text(), re.MULTILINE))
    yield from (f"docs/MODEL.md: {what}" for what in model(sources))
    yield from (f"docs/ARCHITECTURE.md: {what}" for what in architecture(sources))
    yield from silent_modules()
    yield from (f"CONTRIBUTING.md: {what}" for what in unknown(GUIDE.read_text(), sources))
    for page in PAGES:
        text, name = page.read_text(), page.relative_to(TOP)
        for path in set(PATH.findall(text)):
            if not BUILT.search(path) and not (TOP / path).exists() and not list(TOP.glob(path + ".*")):
                yield f"{name}: no file {path}"
        for path, heading in set(LINK.findall(text)):
            target = page.parent / path if path else page
            if not target.exists() or heading and heading not in headings(target.read_text()):
                yield f"{name}: a link to {path}#{heading}"
        for law in set(re.findall(r"\blaw_\w+", text)) - sources.names:
            yield f"{name}: no law {law}"
        for target in set(re.findall(r"`make ([a-z_]+)", text)) - targets:
            yield f"{name}: no command make {target}"
        for crate in set(re.findall(r"`(mailmap_[a-z_]+)`", text)) - sources.names:
            yield f"{name}: no crate {crate}"


found = list(missing(Sources()))
print(*found, sep="\n", end="\n" if found else "")
print(f"pages: {len(PAGES) - len({line.split(':')[0] for line in found})} passed, {len(found)} failed")
sys.exit(1 if found else 0)
