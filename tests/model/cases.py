#!/usr/bin/env python3
"""Makes the stored cases of tests/verify, tests/suggest and tests/shortlog, or checks them.

    cases.py             makes them again with the seed that is stored beside this file
    cases.py SEED        makes them with another seed, and stores that
    cases.py --check     writes nothing, and fails if a stored case isn't the one that the stored seed makes

The seed makes up the mailmaps and contacts (buffers.py, people.py), and the answers are the model's. For two files of
tests/suggest another program, which isn't here, made up mailmaps, contacts and answers: a second opinion. So in these
only words of the answers may change.
"""
import json
import re
import sys
from collections.abc import Callable
from pathlib import Path
from typing import NamedTuple

sys.dont_write_bytecode = True
from buffers import Writer
from contacts import explain, verify_contacts
from findings import prune, verify
from mailmap import lines
from people import PeopleWriter
from shortlog import shortlog
from shown import shown_text
from suggest import suggest

TESTS = Path(__file__).resolve().parent.parent
SEED = Path(__file__).with_name("seed")


def hexed(texts):
    return [text.hex() for text in texts]


def names_of(files):
    return [b"m%d" % number for number in range(1, len(files) + 1)]


# ---- the stored line of a case, from the files of the case

def verified(files):
    status, printed = verify(files, names_of(files))
    case = {"files": hexed(files), "verify": [status, printed.hex()]}
    if len(files) == 1:
        status, *texts = prune(files[0], b"m1")
        case["prune"] = [status, *hexed(texts)]
    return case


def verified_case(writer, count):
    return verified([writer.mailmap() for _ in range(count)])


def explained_case(writer, count):
    files, contacts = [writer.mailmap() for _ in range(count)], writer.contacts()
    explained = explain(files, names_of(files), contacts)
    status, printed = verify_contacts(files, names_of(files), contacts, b"c")
    return {
        "files": hexed(files), "contacts": contacts.hex(),
        "explained": explained.hex(), "with_contacts": [status, printed.hex()],
    }


def shortlog_case(writer, count):
    files, contacts = [writer.mailmap() for _ in range(count)], writer.contacts()
    printed = [shortlog(files, contacts, by_count, email) for by_count in (False, True) for email in (False, True)]
    return {"files": hexed(files), "contacts": contacts.hex(), "shortlog": hexed(printed)}


def suggested_case(writer, count):
    """In some cases the last mailmap has what was suggested before, as somebody judged it."""
    files, contacts = [writer.mailmap() for _ in range(count)], writer.contacts()
    if files and writer.choices.chance(0.5):
        files[-1] += writer.judged(suggest(files, contacts))
        contacts += writer.contacts() if writer.choices.chance(0.3) else b""
    status, printed = verify_contacts(files, names_of(files), contacts, b"c")
    return {
        "files": hexed(files), "contacts": contacts.hex(), "suggest": suggest(files, contacts).hex(),
        "with_contacts": [status, printed.hex()],
    }


# ---- the cases of another program

OTHERS = "suggest/cases.jsonl", "suggest/small.jsonl"
FOUND = re.compile(rb"^c:(\d+): (\w+): (.*) \[([a-z-]+)\]$", re.MULTILINE)
WORD = re.compile(rb"[^\s<>()]+")


def answered(case):
    """A case with the model's answers."""
    files, contacts = [bytes.fromhex(file) for file in case["files"]], bytes.fromhex(case["contacts"])
    _, printed = verify_contacts(files, names_of(files), contacts, b"c")
    found = [[int(number), level.decode(), kind.decode(), words.hex()]
             for number, level, words, kind in FOUND.findall(printed)]
    return {**case, "suggest": suggest(files, contacts).hex(), "findings": found}


def facts(case):
    """What the answers say, in whatever words: entries, levels and kinds, and of comments and messages the numbers, and
    the words that entries of the mailmaps or contacts have, too, or that were cut.
    """
    *files, contacts = (bytes.fromhex(text) for text in (*case["files"], case["contacts"]))
    entries = [line for file in files for line in lines(file) if not line.startswith(b"#")]
    words = WORD.findall(b" ".join([*entries, contacts]))
    given = {*words, *map(shown_text, words)}

    def kept(text):
        return [word for word in WORD.findall(text) if word in given or re.search(rb"\d|\.\.$", word)]

    suggested = lines(bytes.fromhex(case["suggest"]))
    found = [(line, level, kind, kept(bytes.fromhex(words))) for line, level, kind, words in case["findings"]]
    return [kept(line) if line.startswith(b"# ") else line for line in suggested], found


def reworded(file):
    """The lines of a file with the model's answers, if these differ from the stored ones only in words."""
    for number, line in enumerate(lines((TESTS / file).read_bytes()), 1):
        case = json.loads(line)
        wanted = answered(case)
        if facts(wanted) != facts(case):
            sys.exit(f"model: tests/{file}:{number} has another answer, not only other words")
        yield json.dumps(wanted).encode("ascii") + b"\n"


# ---- the files

class Made(NamedTuple):
    """How a file is made: its writer, each case, the share of long lines, and how many cases have no mailmap, one, two
    and three.
    """
    writer: type
    case: Callable
    long: float
    counts: list


FILES = {
    "verify/cases.jsonl": Made(Writer, verified_case, 0, [0, 240, 72, 88]),
    "verify/git.jsonl": Made(Writer, verified_case, 0.022, [0, 230, 78, 92]),
    "verify/explained.jsonl": Made(Writer, explained_case, 0.022, [0, 230, 78, 92]),
    "suggest/made.jsonl": Made(PeopleWriter, suggested_case, 0.01, [140, 340, 90, 30]),
    "shortlog/cases.jsonl": Made(Writer, shortlog_case, 0.005, [0, 230, 78, 92]),
}


def made(file, seed):
    """The lines of a file. Each case has a seed of its own, so that adding a case doesn't change others."""
    how = FILES[file]
    for size, count in enumerate(how.counts):
        for number in range(1, count + 1):
            writer = how.writer(f"{seed} {file} {size} {number}", how.long)
            yield json.dumps(how.case(writer, size)).encode("ascii") + b"\n"


def wanted_lines(file, seed):
    return list(made(file, seed) if file in FILES else reworded(file))


def check(seed):
    """The number of stored cases, if all of them are those that the seed makes, or that have the model's answers."""
    total = 0
    for file in *FILES, *OTHERS:
        stored, wanted = lines((TESTS / file).read_bytes()), wanted_lines(file, seed)
        for number in range(max(len(stored), len(wanted))):
            if stored[number:number + 1] != wanted[number:number + 1]:
                sys.exit(f"model: tests/{file}:{number + 1} is not the case that `make cases SEED={seed}` makes")
        total += len(wanted)
    return total


def main(arguments):
    if arguments == ["--check"]:
        seed = int(SEED.read_text())
        print(f"model: {check(seed)} stored cases are those of seed {seed}")
    elif not arguments or len(arguments) == 1 and arguments[0].isdecimal():
        seed = int(arguments[0] if arguments else SEED.read_text())
        for file, cases in [(file, wanted_lines(file, seed)) for file in (*FILES, *OTHERS)]:
            (TESTS / file).write_bytes(b"".join(cases))
        SEED.write_text(f"{seed}\n")
        print(f"model: made the cases of seed {seed}")
    else:
        sys.exit(__doc__)


if __name__ == "__main__":
    main(sys.argv[1:])
