#!/usr/bin/env python3
"""Extracts the C program, the Python program and their expected output from a page into a directory.

    page.py PAGE FOLDER
"""
import re
import sys
from pathlib import Path


def only(page, kind):
    found = re.findall(rf"^```{kind}\n(.*?)^```$", page, re.MULTILINE | re.DOTALL)
    if len(found) != 1:
        sys.exit(f"page.py: expected one block of {kind}, and found {len(found)}")
    return found[0]


def main():
    page = Path(sys.argv[1]).read_text(encoding="utf-8")
    folder = Path(sys.argv[2])
    for kind, name in [("c", "example.c"), ("python", "example.py"), ("text", "printed")]:
        (folder / name).write_text(only(page, kind), encoding="utf-8")


main()
