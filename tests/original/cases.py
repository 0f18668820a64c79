#!/usr/bin/env python3
"""Makes the stored cases: buffers from a seed, and what the Rust original answers to them.

    cases.py ORACLE [SEED]       writes cases.jsonl, and the seed beside it; without SEED it is the one that is there
    cases.py --check [ORACLE]    makes the cases of the stored seed again, and compares them with the stored ones

ORACLE is the program whose path oracle.sh prints. Without it, --check compares the modes, the buffers and the standard
inputs, and with it the statuses and the answers, too. The same seed gives the same bytes, on any machine.

The cases of `parse` are also the stored run of crates/mailmap_dump, which `rt ci` repeats. Both forms write that, too,
or compare it.
"""
import argparse
import json
import random
import re
import subprocess
import sys
import tempfile
from pathlib import Path

HERE = Path(__file__).resolve().parent
CASES, SEED = HERE / "cases.jsonl", HERE / "seed"
DUMP = HERE.parent.parent / "crates" / "mailmap_dump"
# how many cases of each mode have one mailmap, two, three and so on
PLAN = {
    "parse": [120],
    "resolve": [82, 25, 13],
    "compact": [67, 34, 15, 2, 2],
    "check": [66, 34, 17, 2, 1],
    "entries": [66, 36, 14, 2, 2],
}
# Unicode's white space, except for the line feed
WHITE = [character.encode() for character in
         "\t\v\f\r \x85\xa0\u1680\u2000\u2001\u2002\u2003\u2004\u2005\u2006\u2007\u2008\u2009\u200a"
         "\u2028\u2029\u202f\u205f\u3000"]
# similar characters that aren't white space, and bytes that aren't UTF-8
NEARLY_WHITE = [character.encode() for character in
                "\0\x1c\x1f\x7f\x84\x86\xa1\xad\u1681\u180e\u200b\u200c\u200d\u201e\u2030\u2060\u3001\ufeff\U00010020"]
NEARLY_WHITE += [b"\x80", b"\x85", b"\xa0", b"\xa8", b"\xc2", b"\xe1\x9a", b"\xe2\x80", b"\xe2", b"\xe3\x80", b"\xe3",
                 b"\xc0\xa0", b"\xe0\x82\xa0", b"\xf0\x80\x80\xa0", b"\xed\xa0\x80", b"\xf0\x90\x80", b"\xff", b"\xfe"]
NAMES = [b"", b"", b"", b"A", b"a b", b"aB", b"b", b"#", b"a>b", b"--", b"\xff", "Ä".encode(), "ä".encode()]
EMAILS = [b"", b"", b"", b"A", b"a", b"b", b"a b", b"a<b", b"#", b"a@x", b"A@X", b"\xff", "ä@x".encode()]
# neighbours of the letters in byte order, and letters that only Unicode folds
FOLDED = [b"zi", b"z@", b"z[", b"z_", b"z`", b"z{", b"@", b"\xff", b"\xe1zz", "sß".encode(), "ä@z".encode(),
          "\u017f".encode(), "\u212a".encode()]
PEOPLE = ["Jane Doe", "Joe R. Developer", "J\u00f6rg M\u00fcller", "\u5f35\u4f1f", "O'Neill, P.", "jdoe", "x", "root"]
PLACES = ["example.com", "old.example.com", "Example.COM", "users.noreply.example.org", "localhost", "x"]
LINE_ENDS = [[b"\n"], [b"\n"], [b"\r\n"], [b"\n", b"\r\n", b"\r\r\n", b"\n\n", b"\n\r\n"]]


class Draws:
    """Choices by a seed. Uses only `random()`, because other methods can change between versions of Python."""

    def __init__(self, seed):
        self.random = random.Random(seed).random

    def below(self, count):
        return int(self.random() * count)

    def one(self, choices):
        return choices[self.below(len(choices))]

    def some(self, choices, most):
        return [self.one(choices) for _ in range(self.below(most + 1))]

    def chance(self, share):
        return self.random() < share


def cased(draws, text):
    """The text, often with some ASCII letters in the other case."""
    if draws.chance(0.5):
        return text
    return b"".join(bytes([byte]).swapcase() if draws.chance(0.5) else bytes([byte]) for byte in text)


def padded(draws, text):
    """The text, often with white space or similar characters around it."""
    if draws.chance(0.3):
        return text
    before, after = ([draws.one(NEARLY_WHITE if draws.chance(0.15) else WHITE) for _ in range(draws.below(4))]
                     for _ in range(2))
    return b"".join([*before, text, *after])


# Kinds of mailmaps. Each returns a function that makes lines with the same keys.

def hostile(draws):
    def line():
        parts = [b"#"] if draws.chance(0.05) else []
        for _ in range(draws.one([1, 2, 2, 2, 3])):
            parts += [padded(draws, draws.one(NAMES)), b"<", padded(draws, draws.one(EMAILS)), b">"]
        if draws.chance(0.15):
            parts.pop(draws.below(len(parts)))
        if draws.chance(0.2):
            parts.append(padded(draws, draws.one(NAMES)))
        return b"".join(parts)
    return line


def soup(draws):
    pieces = draws.one([[b"<", b">", b"#", b"a", b"A", b"b", b" ", b"\t", b"\r"],
                        [b"<", b">", b"<", b">", b"a", *WHITE],
                        [b"<", b">", b"a", *NEARLY_WHITE]])
    return lambda: b"".join(draws.some(pieces, 14))


def keyed(draws, names, emails):
    """Lines of all forms. Their new names and emails tell them apart."""
    def line():
        new_name, new_email = b"N%d" % draws.below(100), b"<m%d>" % draws.below(100)
        old_name, old_email = cased(draws, draws.one(names)), b"<%s>" % cased(draws, draws.one(emails))
        return b" ".join(draws.one([
            [new_name, old_email],
            [new_email, old_email],
            [new_name, new_email, old_email],
            [new_email, old_name, old_email],
            [new_name, new_email, old_name, old_email],
        ]))
    return line


def folded(draws):
    few = [b"", *(draws.one(FOLDED) for _ in range(3))]
    return keyed(draws, few, few)


def alike(draws):
    """Keys with a common prefix, because a search may compare several bytes at a time."""
    stem = b"abcdefghijklmnopqrstuvwxyz"[: draws.one([3, 7, 8, 9, 15, 16, 17, 24])]
    tails = [b"", b"\0", b"a", b"aa", b"b", b"@x", b"\x7f", b"\xff", *(b"%d" % number for number in range(30))]
    keys = [stem[:-1], *(stem + tail for tail in tails[: draws.one([4, 8, len(tails)])])]
    return keyed(draws, keys, keys) if draws.chance(0.5) else keyed(draws, keys, keys[:2])


def realistic(draws):
    people = [(draws.one(PEOPLE), draws.one(PLACES)) for _ in range(5)]

    def person():
        name, place = draws.one(people)
        return name, f"<{name.split()[0].lower()}@{draws.one([place, place, draws.one(PLACES)])}>"

    def line():
        (name, email), (old_name, old_email) = person(), person()
        text = draws.one([f"{name} {old_email}", f"{name} {email} {old_email}", f"{email} {old_email}",
                          f"{name} {email} {old_name} {old_email}", f"{email} {old_name} {old_email}",
                          f"{name} {email} {old_email} # since 2019", f"# {name}", "", f"{name} {email[1:]}", name])
        return cased(draws, text.encode()) if draws.chance(0.2) else text.encode()
    return line


KINDS = [hostile, hostile, hostile, soup, folded, folded, alike, realistic]


def buffer(draws, line):
    """A mailmap of a few lines, rarely of many. It can be cut off, start with a byte order mark, or be empty."""
    ends, most = draws.one(LINE_ENDS), 200 if draws.chance(0.01) else 12
    text = b"".join(line() + draws.one(ends) for _ in range(draws.below(most + 1)))
    if draws.chance(0.3):
        text = text[:-1]
    if draws.chance(0.1):
        text = text[:draws.below(len(text) + 1)]
    return b"\xef\xbb\xbf" + text if draws.chance(0.03) else text


def mailmaps(draws, count):
    """Mailmaps with the same keys, or some with others."""
    line = draws.one(KINDS)(draws)
    lines = [draws.one(KINDS)(draws) if draws.chance(0.1) else line for _ in range(count)]
    return [buffer(draws, line) for line in lines]


AROUND = re.compile(b"(?:%s)*(.*?)(?:%s)*" % ((b"|".join(map(re.escape, WHITE)),) * 2), re.DOTALL)


def trimmed(text):
    return AROUND.fullmatch(text)[1]


def keys(files):
    """The names and emails of all lines."""
    halves = [half for file in files for half in re.findall(b"([^<>\n]*)<([^>\n]*)>", file)]
    return [(trimmed(name), trimmed(email)) for name, email in halves] or [(b"", b"")]


def some_key(draws, known):
    """A name and an email. A mailmap can have both, one or none of them."""
    (name, email), (other, _) = draws.one(known), draws.one(known)
    name = draws.one([name, name, other, draws.one(NAMES)])
    email = email if draws.chance(0.85) else draws.one(EMAILS)
    return cased(draws, name), cased(draws, email)


def pairs(draws, files):
    """Lines NAME EMAIL in hex."""
    found = [some_key(draws, keys(files)) for _ in range(1 + draws.below(12))]
    return "".join(f"{name.hex() or '.'} {email.hex() or '.'}\n" for name, email in found).encode()


def contacts(draws, files):
    """Lines of contacts: most from the mailmap's names and emails, some hostile, and some lines of the mailmap."""
    known, lines, ends = keys(files), b"\n".join(files).split(b"\n"), draws.one(LINE_ENDS)
    text = b""
    for _ in range(draws.below(14)):
        name, email = some_key(draws, known)
        text += draws.one([
            b"%s <%s>" % (name, email),
            b"%s <%s>" % (name, email),
            b"%s<%s>%s" % (padded(draws, name), padded(draws, email), draws.one(NAMES)),
            cased(draws, draws.one(lines)),
            hostile(draws)(),
            draws.one([b"", b"--", b"not a contact", b"a <b", b"b> <", b"#", b"\xff", email, name]),
        ]) + draws.one(ends)
    return text[:-1] if draws.chance(0.3) else text


def made(seed):
    """The cases, without the answers."""
    draws = Draws(seed)
    for mode, counts in PLAN.items():
        for count, cases in enumerate(counts, 1):
            for _ in range(cases):
                files = mailmaps(draws, count)
                given = {"resolve": pairs, "check": contacts}.get(mode)
                stdin = given(draws, files) if given else b""
                yield {"mode": mode, "files": [file.hex() for file in files], "input": stdin.hex()}


def answered(oracle, case, folder):
    """A case with the original's answer."""
    paths = [folder / str(number) for number in range(len(case["files"]))]
    for path, file in zip(paths, case["files"]):
        path.write_bytes(bytes.fromhex(file))
    done = subprocess.run([oracle, case["mode"], *paths], input=bytes.fromhex(case["input"]), capture_output=True)
    if done.returncode != 0 or done.stderr:
        sys.exit(f"{oracle} {case['mode']}: status {done.returncode} {done.stderr.decode(errors='replace').strip()}")
    return {**case, "status": done.returncode, "answer": done.stdout.hex()}


def dumped(cases):
    """The files of the stored run of mailmap_dump. Its arguments are parse, 000, 001 and so on."""
    walks = [case for case in cases if case["mode"] == "parse"]
    files = {DUMP / "data" / f"{number:03}": case["files"][0] for number, case in enumerate(walks)}
    files[DUMP / "stdout"] = "".join(case["answer"] for case in walks)
    return {path: bytes.fromhex(digits) for path, digits in files.items()}


def write(oracle, seed):
    with tempfile.TemporaryDirectory() as folder:
        cases = [answered(oracle, case, Path(folder)) for case in made(seed)]
    CASES.write_text("".join(json.dumps(case) + "\n" for case in cases), encoding="ascii", newline="\n")
    SEED.write_text(f"{seed}\n", encoding="ascii", newline="\n")
    for path, text in dumped(cases).items():
        path.write_bytes(text)
    print(f"original: {len(cases)} cases of seed {seed} are stored")


def check(oracle, seed):
    stored = CASES.read_bytes().decode("ascii").split("\n")[:-1]
    cases = list(made(seed))
    if len(stored) != len(cases):
        sys.exit(f"{CASES}: there are {len(stored)} cases, and seed {seed} has {len(cases)}")
    with tempfile.TemporaryDirectory() as folder:
        for number, (line, case) in enumerate(zip(stored, cases), 1):
            wanted = json.dumps(answered(oracle, case, Path(folder))) if oracle else json.dumps(case)[:-1] + ", "
            if not (line == wanted if oracle else line.startswith(wanted)):
                sys.exit(f"{CASES}:{number}: this is not the case of seed {seed}, which is\n{wanted}")
    for path, text in dumped(map(json.loads, stored)).items():
        if path.read_bytes() != text:
            sys.exit(f"{path}: the stored run of mailmap_dump isn't that of {CASES}")
    answers = "their answers are the original's" if oracle else "their answers were not compared"
    print(f"original: {len(stored)} stored cases are those of seed {seed}; {answers}")


def main():
    parser = argparse.ArgumentParser(description=__doc__, formatter_class=argparse.RawDescriptionHelpFormatter)
    parser.add_argument("--check", action="store_true")
    parser.add_argument("oracle", nargs="?")
    parser.add_argument("seed", nargs="?", type=int)
    given = parser.parse_args()
    if (given.check and given.seed is not None) or not (given.check or given.oracle):
        parser.error("either ORACLE and perhaps SEED, or --check and perhaps ORACLE")
    seed = int(SEED.read_text(encoding="ascii")) if given.seed is None else given.seed
    (check if given.check else write)(given.oracle and str(Path(given.oracle).resolve()), seed)


main()
