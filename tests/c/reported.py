#!/usr/bin/env python3
"""Compares findings that come from C with those that mailmap_verify is to print for the stored mailmaps and contacts.

    reported.py STORED

STORED is the program of stored.c. Its lines must be the stored ones. Each object of JSON must have what the line of the
same finding has: the file, the line, the level, the message, which is escaped in the line, and the kind. Each finding in
words must have what its object has, with the other line, names, emails and numbers. Each annotation must be that of the
line.
"""
import base64
import json
import subprocess
import sys
import tempfile
from pathlib import Path

TESTS = Path(__file__).resolve().parents[1]
sys.dont_write_bytecode = True
sys.path += [str(TESTS), str(TESTS / "model"), str(TESTS / "verify")]
from formats import annotation
from shown import shown


def text_of(member):
    return member["text"].encode() if "text" in member else base64.b64decode(member["bytes"])


def line_of(found):
    """The line for an object. The other line that it refers to, if there is one, is in one of the files."""
    file, message = text_of(found["file"]), text_of(found["message"])
    assert found.get("at") is None or found["at"]["line"] > 0 and text_of(found["at"]["file"])[:1] in (b"m", b"c")
    words = b"%b:%d: %b: %b [%b]" % (file, found["line"], found["level"].encode(), message, found["kind"].encode())
    return shown(words)


def words_of(found):
    """The numbers and the texts in hex, as stored.c prints them, for an object."""
    none = {"text": ""}
    at, beside = found.get("at", {"line": 0, "file": none}), found.get("beside", {})
    texts = [text_of(found["file"]), found["level"].encode(), found["kind"].encode(), text_of(found["message"])]
    texts += [text_of(one) for one in (
        at["file"], *(named.get(key, none) for named in (found, beside) for key in ("name", "email")),
    )]
    numbers = found["line"], at["line"], found.get("count", 0), beside.get("count", 0)
    return f"{' '.join(map(str, numbers))} {' '.join(text.hex() or '.' for text in texts)}\n".encode()


def said(program, form, folder, mailmaps):
    names = [f"m{number}" for number in range(1, mailmaps + 1)]
    return subprocess.run([program, form, "c", *names], cwd=folder, stdout=subprocess.PIPE, check=True).stdout


def main():
    program, passed, failed = Path(sys.argv[1]).resolve(), 0, 0
    with tempfile.TemporaryDirectory() as folder:
        for number, case in enumerate(map(json.loads, open(TESTS / "verify/explained.jsonl", encoding="ascii")), 1):
            texts = {f"m{place}": file for place, file in enumerate(case["files"], 1)} | {"c": case["contacts"]}
            for name, text in texts.items():
                (Path(folder) / name).write_bytes(bytes.fromhex(text))
            forms = "gcc", "json", "github", "notices"
            lines, objects, annotations, words = (said(program, form, folder, len(case["files"])) for form in forms)
            wanted, found = bytes.fromhex(case["with_contacts"][1]), [json.loads(one) for one in objects.split(b"\n")[:-1]]
            for_github = b"".join(annotation(line) + b"\n" for line in wanted.split(b"\n")[:-1])
            if (lines == wanted == b"".join(map(line_of, found)) and words == b"".join(map(words_of, found))
                    and annotations == for_github):
                passed += 1
            else:
                failed += 1
                print(f"case {number}: {lines}, {objects}, {annotations} and {words}, expected {wanted}")
    print(f"findings from C: {passed} passed, {failed} failed")
    sys.exit(1 if failed or not passed else 0)


main()
