"""The original's stored answers, compared with the package gix_mailmap.

    stored.py CASES
"""
import json
import sys
from collections import Counter

import gix_mailmap
from gix_mailmap import Kind, Mailmap

# the words of the original for each fault
FAULTS = {
    Kind.NO_EMAIL: "Line {} does not contain an email",
    Kind.MISSING_CLOSING_BRACKET: "{}: Missing closing bracket '>' in email",
    Kind.EMPTY_EMAIL: "{}: Email must not be empty",
    Kind.NOTHING_TO_MAP: "{}: Emails without a name or email to map to are invalid",
}


def shown(text):
    return "-" if text is None else text.hex() or "."


def line(entry):
    """An entry as a mailmap line."""
    new_email = b"" if entry.new_email is None else b" <" + entry.new_email + b"> "
    return b" " + (entry.new_name or b"") + new_email + (entry.old_name or b"") + b" <" + entry.old_email + b">\n"


def entries(mailmap):
    listed = mailmap.entries()
    assert [mailmap[place] for place in range(len(mailmap))] == listed
    return "".join(f"E {' '.join(shown(text) for text in entry)}\n" for entry in listed).encode()


def parsed(text):
    """The lines of a mailmap in bytes, which have to be those of the same mailmap in a `str`."""
    lines = gix_mailmap.parse(text)
    of_str = text.decode(errors="surrogateescape")
    for line, same in zip(lines, gix_mailmap.parse(of_str), strict=True):
        assert line[:2] == same[:2]
        for place, of_same in zip(line[2:], same[2:]):
            assert place is of_same is None or text[place] == of_str[of_same].encode(errors="surrogateescape")
    return "".join(
        f"F {FAULTS[line.kind].format(line.number)} {shown(text[line.text])}\n" if line.kind is not None
        else f"E {' '.join(shown(None if place is None else text[place]) for place in line[3:])}\n"
        for line in lines
    ).encode()


def resolved(mailmap, pairs):
    answers = ""
    for pair in pairs.decode().splitlines():
        name, email = (bytes.fromhex(digits.replace(".", "")) for digits in pair.split()[:2])
        found = mailmap.lookup(name, email)
        assert (found.is_name_given or found.name == name) and (found.is_email_given or found.email == email)
        name, email = found.name if found.is_name_given else None, found.email if found.is_email_given else None
        answers += f"{shown(name)} {shown(email)}\n"
    return answers.encode()


def answer(mode, mailmap, text):
    if mode == "entries":
        return entries(mailmap)
    if mode == "resolve":
        return resolved(mailmap, text)
    whole = b"".join(line(entry) for entry in mailmap)
    return gix_mailmap.compact(whole) if mode == "compact" else checked(mailmap, whole, text)


def checked(mailmap, whole, contacts):
    """Compares `check` with `map_contacts` of bytes and of `str`."""
    answers = gix_mailmap.check(whole, contacts)
    *ended, last = contacts.split(b"\n")
    lines = [line + b"\n" for line in ended] + [last] * bool(last)
    assert b"".join(line + b"\n" for line in mailmap.map_contacts(lines)) == answers
    texts = [line.decode(errors="surrogateescape") for line in lines]
    assert "".join(f"{text}\n" for text in mailmap.map_contacts(texts)).encode(errors="surrogateescape") == answers
    return answers


def main():
    agreed, failed = Counter(), 0
    for number, case in enumerate(map(json.loads, open(sys.argv[1], encoding="ascii")), 1):
        mode = case["mode"]
        files = [bytes.fromhex(file) for file in case["files"]]
        with Mailmap(*files) as mailmap:
            given = b"".join(map(parsed, files)) if mode == "parse" else answer(mode, mailmap, bytes.fromhex(case["input"]))
        if given.hex() == case["answer"] and case["status"] == 0:
            agreed[mode] += 1
        else:
            failed += 1
            print(f"case {number}, {mode}: {given.hex()}, expected {case['answer']}")
    modes = ", ".join(f"{count} of {mode}" for mode, count in agreed.items())
    print(f"beside the original, by Python: {modes}")
    print(f"stored: {agreed.total()} passed, {failed} failed")
    sys.exit(1 if failed or not agreed else 0)


main()
