"""The findings of `report` and `findings`, compared with what mailmap_verify is to print, and with what it prints.

    reported.py CASES

CASES are mailmaps and contacts with the lines that mailmap_verify is to print. Its objects of JSON are those of the
program in the package.
"""
import base64
import json
import subprocess
import sys
import tempfile
from pathlib import Path

from gix_mailmap import Named, Notice, Place, findings, report


def as_program(folder, names, form):
    """What the program in the package prints in a format."""
    words = [sys.executable, "-m", "gix_mailmap", "-f", form, "--contacts", "c", *names]
    return subprocess.run(words, cwd=folder, stdout=subprocess.PIPE, check=False).stdout


def text_of(member):
    return member["text"].encode() if "text" in member else base64.b64decode(member["bytes"])


def named_of(found):
    return Named(*(text_of(found[key]) if key in found else None for key in ("name", "email")), found.get("count"))


def notice_of(found):
    at, beside = found.get("at"), found.get("beside")
    other = None if at is None else Place(text_of(at["file"]), at["line"])
    second = None if beside is None else named_of(beside)
    file, message = text_of(found["file"]), text_of(found["message"])
    return Notice(file, found["line"], found["level"], found["kind"], message, other, named_of(found), second)


def decoded(item):
    """Bytes as the `str` in which lone surrogates stand for what isn't UTF-8."""
    return item.decode(errors="surrogateescape") if isinstance(item, bytes) else item


def in_str(notice):
    at, named, beside = (one if one is None else type(one)(*map(decoded, one)) for one in notice[-3:])
    return Notice(*map(decoded, notice[:-3]), at, named, beside)


def is_as_wanted(case, folder):
    texts = {b"m%d" % place: bytes.fromhex(file) for place, file in enumerate(case["files"], 1)}
    mailmaps, contacts = list(texts.items()), (b"c", bytes.fromhex(case["contacts"]))
    for name, text in (*mailmaps, contacts):
        (Path(folder) / name.decode()).write_bytes(text)
    printed, annotations = (as_program(folder, [name.decode() for name in texts], form) for form in ("json", "github"))
    found = [notice_of(json.loads(line)) for line in printed.split(b"\n")[:-1]]
    of_str = [tuple(map(decoded, pair)) for pair in (contacts, *mailmaps)]
    return (
        report(mailmaps, contacts) == bytes.fromhex(case["with_contacts"][1])
        and report(mailmaps, contacts, "json") == printed
        and report(mailmaps, contacts, "github") == annotations
        and findings(mailmaps, contacts) == found
        and (findings(of_str[1:], of_str[0]) == list(map(in_str, found)))
    )


def main():
    passed = failed = 0
    with tempfile.TemporaryDirectory() as folder:
        for number, case in enumerate(map(json.loads, open(sys.argv[1], encoding="ascii")), 1):
            is_ok = is_as_wanted(case, folder)
            passed, failed = passed + is_ok, failed + (not is_ok)
            if not is_ok:
                print(f"case {number}: other findings")
    print(f"findings from Python: {passed} passed, {failed} failed")
    sys.exit(1 if failed or not passed else 0)


main()
