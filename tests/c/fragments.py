#!/usr/bin/env python3
"""Prints a C file with a function for each code fragment in README.md, docs/C.md and the comments of the header. What a
fragment uses but doesn't declare is declared before it.
"""
import re
from pathlib import Path

TOP = Path(__file__).resolve().parents[2]

BEFORE = """#include <gix_mailmap.h>
#include <stdio.h>
#include <stdlib.h>

static gix_mailmap *map;
static gix_mailmap_stream *stream;
static gix_mailmap_status status;
static gix_mailmap_named mailmaps[2], history;
static gix_mailmap_field new_name, new_email;
static const char *text, *part, *team, *own, *contacts;
static size_t text_len, part_len, team_len, own_len, contacts_len, needed, taken, count;
static char name[256], email[256], out[65536];
"""


def fragments(name):
    """The C blocks that aren't whole programs, and indented paragraphs that end as C code does."""
    text = (TOP / name).read_text(encoding="utf-8")
    if name.endswith(".h"):
        text = re.sub(r"^(?: \* ?)?", "", re.sub(r"^(?! \*).*", "", text, flags=re.M), flags=re.M)
    blocks = r"^```(\w*)\n(.*?)^```$"
    for kind, block in re.findall(blocks, text, re.M | re.S):
        if kind == "c" and "int main" not in block:
            yield block
    for lines in re.findall(r"(?:^    .*\n)+", re.sub(blocks, "", text, flags=re.M | re.S), re.M):
        if re.search(r"[;}]$", lines.rstrip()):
            yield lines


def main():
    print(BEFORE)
    every = [one for name in ("README.md", "docs/C.md", "include/gix_mailmap.h") for one in fragments(name)]
    for number, fragment in enumerate(every):
        print(f"int part_{number}(void);\nint part_{number}(void)\n{{\n{fragment}    return 0;\n}}\n")


main()
