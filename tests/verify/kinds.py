"""Compares the lists of the kinds of findings: those of the program, of its pages, and of what calls the library.

Who adds a kind and forgets one of these learns it here. The names, and their order, are those that the program lists
for an unknown kind. The header numbers the kinds that need no contacts, in the order in which they came; for two of
them it has another name. The lines of the manual's findings are compared with those of the stored cases.
"""
import json
import re
from pathlib import Path

from runs import run, wants

TOP = Path(__file__).resolve().parents[2]
# the first kind that is only found with contacts
WITH_CONTACTS = "unneeded"
IN_HEADER = {"unclosed-email": "MISSING_CLOSING_BRACKET", "unclosed-second-email": "UNCLOSED_SECOND"}
# Where kinds have numbers: what is before and after them in the file, and the name and the number.
NUMBERED = {
    "include/gix_mailmap.h": ("enum gix_mailmap_kind {", "}", r"^    GIX_MAILMAP_(\w+) = (\d+)\b"),
    "python/gix_mailmap/_results.py": ("class Kind(IntEnum):", "@classmethod", r"^    (\w+) = (\d+)  #: \w"),
    "rust/gix_mailmap/src/sys.rs": ("numbers of gix_mailmap_kind", "///", r"^pub\(crate\) const (\w+): u32 = (\d+);"),
}


def found(file, before, after, pattern):
    """What a pattern finds in a part of a file."""
    part = (TOP / file).read_text(encoding="utf-8").partition(before)[2].partition(after)[0]
    return re.findall(pattern, part, re.MULTILINE)


def distinct(names):
    return list(dict.fromkeys(names))


def in_manual():
    """The kinds in the headings of the manual's findings."""
    names = found("man/mailmap_verify.1", ".SH FINDINGS\n", "\n.SH ", r'\[([a-z\\-]+)\]"$')
    return distinct(name.replace("\\-", "-") for name in names)


def manual_lines():
    """The lines of the manual's findings as patterns. What alternates with text, in italics, stands for anything."""
    for line in found("man/mailmap_verify.1", ".SH FINDINGS\n", "\n.SH ", r"^\.IB ((?:.*\\\n)*.*)$"):
        parts = re.findall(r'"[^"]*"|[^\s"]+', line.replace("\\\n", " "))
        texts = [re.escape(text.strip('"').replace("\\-", "-").replace("\\(aq", "'")) for text in parts]
        texts[::2] = [".*"] * len(texts[::2])
        # a contact without a name begins with its email
        yield re.compile("".join(texts).replace(r".*\ <", r"(.*\ )?<"), re.DOTALL)


def stored_lines():
    """The lines of all stored findings, also of those about contacts."""
    for name in "cases.jsonl", "git.jsonl", "explained.jsonl":
        for case in open(Path(__file__).with_name(name), encoding="ascii"):
            stored = json.loads(case)
            for part in {"verify", "with_contacts"} & stored.keys():
                yield from bytes.fromhex(stored[part][1]).decode(errors="replace").splitlines()


def wants_manual():
    """Checks that each stored line is one of the manual's, and each of the manual's is stored."""
    lines, patterns = set(stored_lines()), list(manual_lines())
    unknown = [line for line in sorted(lines) if not any(pattern.fullmatch(line) for pattern in patterns)]
    unused = [pattern.pattern for pattern in patterns if not any(map(pattern.fullmatch, lines))]
    wants_kinds("lines of the manual", (unknown, unused), ([], []))


def on_page():
    """The kinds in the examples of docs/VERIFY.md. Those of contacts come as the lines of the contacts do."""
    names = distinct(found("docs/VERIFY.md", "\n## Errors\n", "\n## Recipes\n", r"^[\w.]+:\d+: \w+: .* \[([a-z-]+)\]$"))
    count = names.index(WITH_CONTACTS) if WITH_CONTACTS in names else 0
    return names[:count], sorted(names[count:])


def wants_kinds(what, names, wanted):
    wants(f"kinds: {what}", (0, names, b""), 0, wanted)


def kinds(program):
    names = re.search(rb"^kinds: (.*)$", run(program, ["-e", ""])[2], re.MULTILINE)[1].decode().split()
    count = names.index(WITH_CONTACTS)
    usage = run(program, ["--help"])[1].decode()
    wants_kinds("--help", re.search(r"^Kinds: ([^.]*)\.$", usage, re.MULTILINE)[1].replace(",", "").split(), names)
    wants_kinds("the manual", in_manual(), names)
    wants_manual()
    wants_kinds("docs/VERIFY.md", on_page(), (names[:count], sorted(names[count:])))
    wants_numbers([IN_HEADER.get(name, name.upper().replace("-", "_")) for name in names[:count]])


def wants_numbers(names):
    """Checks that what calls the library has these kinds, each with the number that the header gives it."""
    in_header = [name for name, _ in found("include/gix_mailmap.h", *NUMBERED["include/gix_mailmap.h"])]
    wants_kinds("the header", sorted(in_header), sorted(names))
    for file, how in NUMBERED.items():
        wants_kinds(file, found(file, *how), [(name, str(number)) for number, name in enumerate(in_header, 1)])
    file, variants = "rust/gix_mailmap/src/findings.rs", [name.title().replace("_", "") for name in in_header]
    wants_kinds(f"{file}, declared", found(file, "pub enum Kind {", "\n}", r"^    ([A-Z]\w+)(?:,| \{)$"), variants)
    made = found(file, "fn kind(", "\n}", r"sys::(\w+) => Kind::(\w+)")
    wants_kinds(f"{file}, made", made, [*zip(in_header, variants)])
