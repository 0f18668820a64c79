#!/usr/bin/env python3
"""Runs mailmap_verify on hostile and other mailmaps, and compares its status and every byte of its output.

    run.py MAILMAP_VERIFY

A line of cases.jsonl and of git.jsonl is a case: its mailmaps, which become the files m1, m2 and so on, and the status
and the output; with one file, also the status, the output and the text on standard error of `--prune`. Texts are in
hex. Some lines of git.jsonl are so long that git reads them in parts.

A line of explained.jsonl has mailmaps, contacts, the output of `--explain`, and the status and the output of
`--contacts` with the contacts in the file c.

`make cases` makes these files with tests/model. A seed determines the mailmaps and contacts, which use few names and
emails, so that lines match; git reads many of the lines in another way. The answers are those of a model written from
the definitions alone, which looks at the whole list of entries each time: a line has no effect if the list without it
has the same normal list, tried line by line.
"""
import base64
import json
import os
import subprocess
import sys
import tempfile
from pathlib import Path

sys.dont_write_bytecode = True
sys.path.append(str(Path(__file__).resolve().parent.parent))
import runs
from repository import QUIET, has_git
from runs import run, wants
# the files beside this one
from formats import annotations, fields
from hostile import CURE, LIMIT, REFUSED, hostile
from in_place import in_place, in_place_case
from kinds import in_manual, kinds

VERSION = (Path(__file__).resolve().parents[2] / "VERSION").read_bytes().strip()


def wants_case(program, what, files, status, printed, pruning):
    """Checks the named files; a single file also as standard input, pruned, and pruned again."""
    names = [f"m{number}" for number in range(1, len(files) + 1)]
    for name, file in zip(names, files):
        Path(name).write_bytes(file)
    wants(what, run(program, names), status, printed)
    if pruning is None:
        return
    ended, pruned, said = pruning
    wants(f"{what}, standard input", run(program, ["--stdin-name", "m1", "-"], files[0]), status, printed)
    wants(f"{what}, pruned", run(program, ["--prune", "m1"]), ended, pruned, said)
    in_place_case(program, what, files[0], ended, pruned, said)
    words = ["--prune", "--stdin-name", "m1", "-"]
    wants(f"{what}, standard input pruned", run(program, words, files[0]), ended, pruned, said)
    if ended == 0:
        wants(f"{what}, pruned twice", run(program, ["--prune", "-"], pruned), 0, pruned)


def stored(program, name):
    cases = [json.loads(line) for line in open(Path(__file__).with_name(name), encoding="ascii")]
    for number, case in enumerate(cases, 1):
        files = [bytes.fromhex(file) for file in case["files"]]
        status, printed = case["verify"]
        pruning = case.get("prune")
        if pruning is not None:
            pruning = (pruning[0], *map(bytes.fromhex, pruning[1:]))
        wants_case(program, f"{name}:{number}", files, status, bytes.fromhex(printed), pruning)
    return len(cases)


def explained(program):
    cases = [json.loads(line) for line in open(Path(__file__).with_name("explained.jsonl"), encoding="ascii")]
    for number, case in enumerate(cases, 1):
        names = [f"m{file}" for file in range(1, len(case["files"]) + 1)]
        for name, file in zip(names, case["files"]):
            Path(name).write_bytes(bytes.fromhex(file))
        contacts, printed = bytes.fromhex(case["contacts"]), bytes.fromhex(case["explained"])
        wants(f"contacts {number}", run(program, ["--explain", *names], contacts), 0, printed)
        wants_beside(program, f"contacts {number}", names, contacts, *case["with_contacts"])
    return len(cases)


def wants_beside(program, what, names, contacts, status, printed):
    """Checks the output for mailmaps and contacts in a file, and with contacts on standard input."""
    printed = bytes.fromhex(printed)
    Path("c").write_bytes(contacts)
    wants(f"{what} beside mailmaps", run(program, ["--contacts", "c", *names]), status, printed)
    words = ["--contacts", "-", "--stdin-name", "c", *names]
    wants(f"{what} of standard input beside mailmaps", run(program, words, contacts), status, printed)


def explanations(program):
    """Each line behind a field is named. Control bytes are escaped. `-` is a file."""
    Path("team").write_bytes(b"Jane Doe <jane@x> <jd@old>\n<j@y> <jd@old>\n")
    Path("\x1b").write_bytes(b"\nJoe \x1b[1m <joe@x>\n")
    contacts = b"jd <JD@old>\njoe <JOE@x>\n\x7f\n \t\r\n\n <jd@old> end\nbob\x00 <bob@x>"
    printed = (
        b"jd <JD@old> is Jane Doe <j@y> by team:1, team:2\n"
        b"joe <JOE@x> is Joe \\x1b[1m <joe@x> by \\x1b:2\n"
        b"\\x7f is no contact\n"
        b"<jd@old> is Jane Doe <j@y> by team:1, team:2\n"
        b"bob\\x00 <bob@x> is not mapped\n"
    )
    wants("explanations", run(program, ["--explain", "team", "\x1b"], contacts), 0, printed)
    wants("explanations after --", run(program, ["--explain", "--", "team", "\x1b"], contacts), 0, printed)
    wants("explanations by no mailmap", run(program, ["--explain"], b"jd <JD@old>\n"), 0, b"jd <JD@old> is not mapped\n")
    said = b"mailmap_verify: -: No such file or directory\n"
    wants("explanations by -", run(program, ["--explain", "-"], contacts), 2, b"", said)


def beside(program):
    """The mailmap can be standard input, or missing. Control bytes are escaped. Lines can be long and many."""
    Path("team").write_bytes(b"Jane Doe <jane@x> <jd@old>\nJoe <joe@x>\n")
    Path("\x1b").write_bytes(b"jd <JD@old>\njane\x1b <JANE@x>\r\n\n \t\nplain\nJane Doe <q@x>\njd <JD@old>\n")
    unneeded = b"team:2: warning: no contact needs it [unneeded]\n"
    said = (
        b"\\x1b:2: warning: jane\\x1b <JANE@x> (1) has the email of Jane Doe <jane@x> (2) [same-email]\n"
        b"\\x1b:5: error: no contact [no-contact]\n"
        b"\\x1b:6: note: Jane Doe <q@x> (1) has the name of Jane Doe <jane@x> (2) [same-name]\n"
    )
    contacts, team = Path("\x1b").read_bytes(), Path("team").read_bytes()
    wants("contacts", run(program, ["--contacts", "\x1b", "team"]), 1, unneeded + said)
    wants("contacts and --", run(program, ["--contacts", "\x1b", "--", "team"]), 1, unneeded + said)
    shown = unneeded.replace(b"team", b"<stdin>") + said
    for words in ["-"], ["--", "-"]:
        wants("a mailmap of standard input", run(program, ["--contacts", "\x1b", *words], team), 1, shown)
    shown = unneeded + said.replace(b"\\x1b:", b"<stdin>:")
    wants("contacts of standard input", run(program, ["--contacts", "-", "team"], contacts), 1, shown)
    wants("contacts without a mailmap", run(program, ["--contacts", "-"], b"J <j@x>\nJ <j@y>\n"), 0,
          b"<stdin>:2: note: J <j@y> (1) has the name of J <j@x> (1) [same-name]\n")
    wants("no contacts", run(program, ["--contacts", "-", "team"]), 1, unneeded.replace(b"2", b"1") + unneeded)
    said = b"mailmap_verify: -: No such file or directory\n"
    wants("- beside -", run(program, ["--contacts", "-", "-"], contacts), 2, b"", said)
    for file in "--", "--help":
        Path(f"./{file}").write_bytes(b"J <j@x>\n")
        wants("an option as a file", run(program, ["--contacts", file, "--", "m0"], b""), 2, b"",
              b"mailmap_verify: m0: No such file or directory\n")
        wants("an option as a file", run(program, ["--contacts", file, "-"], b"J <j@x>\n"), 0, b"")


def many_beside(program, size=1 << 20):
    """Recurring contacts add no findings, however many there are. Each can be long."""
    long, short = b"x" * size, b"x" * LIMIT + b".."
    contacts = b"Joe <joe@x>\n" * 100_000 + long + b" <joe@x>\n" + long + b"\n" + long + b" <joe@x>"
    Path("team").write_bytes(b"Joe <joe@x> <joe@y>\n")
    printed = (
        b"team:1: warning: no contact needs it [unneeded]\n"
        b"<stdin>:100001: warning: " + short + b" <joe@x> (2) has the email of Joe <joe@x> (100000) [same-email]\n"
        b"<stdin>:100002: error: no contact [no-contact]\n"
    )
    wants("long contacts", run(program, ["--contacts", "-", "team"], contacts), 1, printed)
    contacts = b"".join(b"J%d <J%d@x>\n" % (k % 5000, k % 5000) for k in range(20_000))
    wants("many contacts", run(program, ["--contacts", "-"], contacts), 0, b"")
    contacts += contacts.lower()
    alike = b"<stdin>:%d: warning: j%d <j%d@x> (4) has the email of J%d <J%d@x> (4) [same-email]\n"
    printed = b"".join(alike % (20_001 + k, k, k, k, k) for k in range(5000))
    wants("many contacts that are alike", run(program, ["--contacts", "-"], contacts), 1, printed)


def hostile_beside(program, size=10_000_000):
    """Lines of contacts can have any length and any bytes, and the last one needs no line feed."""
    long = b"x" * size
    no_contact = b"<stdin>:1: error: no contact [no-contact]\n"
    zeros = b"<stdin>:2: warning: j\\x00 <J@X\\x00> (1) has the email of J\\x00 <j@x\\x00> (1) [same-email]\n"
    for what, contacts, status, printed in [
        ("a long name", long + b" <j@x>", 0, b""),
        ("a long email", b"J <" + long + b">", 0, b""),
        ("a long line", long, 1, no_contact),
        ("brackets that open", b"<" * size, 1, no_contact),
        ("brackets that close", b">" * size, 1, no_contact),
        ("empty emails", b"<>" * (size // 2), 0, b""),
        ("spaces", b" " * size, 0, b""),
        ("line feeds", b"\n" * size, 0, b""),
        ("zero bytes", b"\0" * size, 1, no_contact),
        ("zero bytes in contacts", b"J\0 <j@x\0>\nj\0 <J@X\0>", 1, zeros),
    ]:
        wants(f"hostile contacts: {what}", run(program, ["--contacts", "-"], contacts), status, printed)


def file_names(program):
    """Files are named by the bytes of their arguments, as often as they are given."""
    names = ["a b:c", "./ä", "--help", "a b:c"]
    for name in names:
        Path(name).write_bytes(b"plain\n")
    printed = b"".join(name.encode() + b":1: error: no email in brackets [no-email]\n" for name in names)
    wants("names of files", run(program, ["--", *names]), 1, printed)
    said = b"mailmap_verify: ./--prune: No such file or directory\n"
    wants("a file named as an option", run(program, ["./--prune"]), 2, b"", said)


# what follows the message about an unknown value, before the usage
HELPS = {
    b"unknown level": b"levels: error warning note\n",
    b"unknown format": b"formats: gcc json github\n",
    b"unknown kind": b"kinds: %b\n" % " ".join(in_manual()).encode(),
}
USAGE_LINE = (
    b"usage: mailmap_verify [--prune [--in-place] | --explain | --contacts CONTACTS | --suggest CONTACTS]\n"
    b"     [-S LEVEL] [-e KIND,..] [-f FORMAT] [--stdin-name NAME] [--] [FILE..] | --help | --version\n"
)


def options(program):
    """Options are parsed from left to right, also after files, up to `--`. The first error counts."""
    status, printed, said = run(program, ["--help"])
    wants("help", (status, printed[:22], said), 0, b"usage: mailmap_verify ")
    for words in [
        ["-h"], ["--help", "missing"], ["--prune", "--help"], ["-h", "--version"], ["--explain", "-h", "missing"],
        ["missing", "-h"], ["-S", "error", "--help"], ["--help", "-S"],
    ]:
        wants(f"help: {words}", run(program, words), 0, printed)
    version = b"mailmap_verify " + VERSION + b"\n"
    for words in ["--version"], ["--prune", "--version", "missing"], ["--version", "--help"], ["missing", "--version"]:
        wants(f"the version: {words}", run(program, words), 0, version)
    for words, wrong in [
        (["--foo", "m1"], b"unknown option: --foo"),
        (["m1", "--foo"], b"unknown option: --foo"),
        (["--prune", "-x", "m1"], b"unknown option: -x"),
        (["--foo", "--help"], b"unknown option: --foo"),
        (["--prune=m1"], b"unknown option: --prune=m1"),
        (["-\xff\x1b"], b"unknown option: -\xc3\xbf\\x1b"),
        (["-Serror"], b"unknown option: -Serror"),
        (["-e=no-effect"], b"unknown option: -e=no-effect"),
        (["--prune", "--prune", "m1"], b"a second mode: --prune"),
        (["--prune", "m1", "--explain"], b"a second mode: --explain"),
        (["--prune", "--contacts"], b"a second mode: --contacts"),
        (["--contacts", "c", "--contacts", "c"], b"a second mode: --contacts"),
        (["--suggest", "c", "--contacts=c"], b"a second mode: --contacts=c"),
        (["--contacts", "c", "--suggest", "c"], b"a second mode: --suggest"),
        (["--contacts"], b"no file after --contacts"),
        (["--suggest"], b"no file after --suggest"),
        (["m1", "-S"], b"no level after -S"),
        (["--severity"], b"no level after --severity"),
        (["-e"], b"no kind after -e"),
        (["--format"], b"no format after --format"),
        (["--stdin-name"], b"no name after --stdin-name"),
        (["-S", "fatal"], b"unknown level: fatal"),
        (["--severity="], b"unknown level: "),
        (["-S", "Error"], b"unknown level: Error"),
        (["-e", "no-effect,foo,bar"], b"unknown kind: foo"),
        (["--exclude=no-effect,\x1b"], b"unknown kind: \\x1b"),
        (["-e", ""], b"unknown kind: "),
        (["-f", "xml"], b"unknown format: xml"),
        (["--prune", "-S", "error"], b"--prune takes no --severity"),
        (["-e", "no-effect", "--prune"], b"--prune takes no --exclude"),
        (["--prune", "--format=gcc"], b"--prune takes no --format"),
        (["--explain", "--stdin-name", "m"], b"--explain takes no --stdin-name"),
        (["-e", "no-effect", "m1", "--explain"], b"--explain takes no --exclude"),
        (["--suggest", "c", "-S", "note"], b"--suggest takes no --severity"),
        (["--suggest", "c", "-f", "json", "m1"], b"--suggest takes no --format"),
        (["--prune", "-S", "error", "--foo"], b"--prune takes no --severity"),
        (["--foo", "--prune", "-S", "error"], b"unknown option: --foo"),
        (["--in-place", "m1"], b"--in-place needs --prune"),
        (["--in-place", "--", "m1"], b"--in-place needs --prune"),
        (["m1", "--in-place", "--suggest", "c"], b"--in-place needs --prune"),
        (["--in-place", "--prune", "--prune"], b"a second mode: --prune"),
        (["--prune", "--in-place=m1"], b"unknown option: --in-place=m1"),
        (["--in-place", "--prune", "--stdin-name=m", "m1"], b"--prune --in-place takes no --stdin-name"),
    ]:
        said = b"mailmap_verify: " + wrong + b"\n" + HELPS.get(wrong.split(b":")[0], b"") + USAGE_LINE
        wants(f"a misuse: {words}", run(program, words), 2, b"", said)
    Path("-x").write_bytes(b"plain\n")
    found = b":1: error: no email in brackets [no-email]\n"
    for words in ["--", "-x"], ["--severity", "note", "--", "-x"]:
        wants("after --", run(program, words), 1, b"-x" + found)
    wants("pruned after --", run(program, ["--prune", "--", "-x"]), 0, b"plain\n")
    for words in ["-"], ["--", "-"]:
        wants(f"standard input: {words}", run(program, words, b"plain\n"), 1, b"<stdin>" + found)
        wants(f"standard input pruned: {words}", run(program, ["--prune", *words], b"plain\n"), 0, b"plain\n")
    said = b"mailmap_verify: -: No such file or directory\n"
    wants("- among files", run(program, ["-x", "-"]), 2, b"", b"mailmap_verify: unknown option: -x\n" + USAGE_LINE)
    wants("- among files", run(program, ["--", "-x", "-"]), 2, b"", said)


MARK = b"\xef\xbb\xbf"
MARKED = b"m:1: warning: byte order mark: delete it [byte-order-mark]\n"
COMMENT = b"m:%d: warning: the name begins with #, which begins a comment only as the first byte of a line [comment-in-line]\n"
# A mailmap, and what is found in it. git 2.39 and mailmap_check take the mark for a part of the first line.
MARKS = [
    (MARK, MARKED),
    (MARK + b"\n", MARKED),
    (MARK + b"# why\n", MARKED),
    (MARK + b"# Jane <jane@x>\n", MARKED),
    (MARK + b"Jane <jane@x> <jd@y>\n", MARKED),
    (MARK + b"Jane <jane@x>\n", MARKED),
    (MARK + b" Jane <jane@x>\n", MARKED),
    (MARK + MARK + b"Jane <jane@x>\n", MARKED),
    (MARK + b"plain\n", MARKED + b"m:1: error: no email in brackets [no-email]\n"),
    (MARK + b"<jane@x>\n", MARKED + b"m:1: error: an email alone maps nothing [nothing-to-map]\n"),
    (MARK + b"Joe <joe@x> joe\n", MARKED + b"m:1: warning: ignored text: joe" + CURE + b" [ignored-text]\n"),
    (MARK + b" # Joe <joe@x>\n", MARKED + COMMENT % 1),
    (MARK + b"Joe < joe@x >\n", MARKED + b"m:1: warning: git reads it as Joe < joe@x > [git-reads]\n"),
    # the new name is Jane, whatever the entries make of it
    (MARK + b"Jane <jane@x> <jd@y>\nJane <jane@x>\n", MARKED),
    (MARK + b"Jane <jane@x> <jd@y>\nJane Doe <jane@x>\n",
     MARKED + b"m:1: warning: Jane <jane@x> is itself mapped, to Jane Doe <jane@x> by m:2 [itself-mapped]\n"),
    (MARK + b"Jane <jane@x>\nJane <jane@x>\n", MARKED + b"m:1: warning: no effect: m:2 says the same [no-effect]\n"),
    (MARK + b"Jane <jane@x>\nJ <jane@x>\n", MARKED + b"m:1: warning: no effect: m:2 says something else [no-effect]\n"),
    # no byte order mark
    (b"\n" + MARK + b"Jane <jane@x>\n", b""),
    (b" " + MARK + b"Jane <jane@x>\n", b""),
    (b"Jane <jane@x> " + MARK + b"jd <jd@y>\n", b""),
    (MARK[:2] + b"Jane <jane@x>\n", b""),
    (MARK[:2], b"m:1: error: no email in brackets [no-email]\n"),
    (MARK[:2] + b"\xbeJane <jane@x>\n", b""),
    # a comment begins with the first byte of a line
    (b" # Jane <j@x>\n", COMMENT % 1),
    (b"Joe <joe@x> # not <old@x>\n", COMMENT % 1),
    (b"<joe@x> #<old@x>\n", COMMENT % 1),
    (b"\t#1 <joe@x> #2 <old@x>\n", COMMENT % 1),
    (b"Joe <joe@x> # not <old@x> #\n", b"m:1: warning: ignored text: # [ignored-text]\n" + COMMENT % 1),
    (b" #1 <joe@x> joe <old\n", b"m:1: error: the second '<' has no '>' [unclosed-second-email]\n" + COMMENT % 1),
    (b"# Jane <j@x>\n", b""),
    (b"Jane # <j@x>\n", b""),
    (b"Jane <#j@x> Joe # <#@x>\n", b""),
    (b"Jane <j@x> # why\n", b"m:1: warning: ignored text: # why [ignored-text]\n"),
]

# A mailmap, contacts, and git's answers: a mark and a `#` become a part of a name.
GIT_ANSWERS = [
    (MARK + b"Jane <jane@x> <jd@y>\n", b"jd <jd@y>\n", MARK + b"Jane <jane@x>\n"),
    (MARK + b"# Jane <jane@x>\n", b"J <jane@x>\n", MARK + b"# Jane <jane@x>\n"),
    (b"\n" + MARK + b"Jane <jane@x>\n", b"J <jane@x>\n", MARK + b"Jane <jane@x>\n"),
    (b" # Jane <j@x>\n", b"jd <j@x>\n", b"# Jane <j@x>\n"),
    (b"Joe <joe@x> # not <old@x>\n", b"# not <old@x>\nold <old@x>\n", b"Joe <joe@x>\nold <old@x>\n"),
]


def marks_as_git():
    if not has_git("byte order marks and names like comments beside git"):
        return
    subprocess.run(["git", "init", "-q", "."], check=True, env=QUIET)
    for mailmap, contacts, answers in GIT_ANSWERS:
        Path(".mailmap").write_bytes(mailmap)
        ended = subprocess.run(["git", "check-mailmap", "--stdin"], input=contacts, capture_output=True, env=QUIET)
        wants(f"what git answers with {mailmap}", (ended.returncode, ended.stdout, ended.stderr), 0, answers)
    Path(".mailmap").unlink()


def marks(program):
    marks_as_git()
    for mailmap, printed in MARKS:
        Path("m").write_bytes(mailmap)
        wants(f"what is found in {mailmap}", run(program, ["m"]), 1 if printed else 0, printed)
    # each mailmap may begin with one
    Path("m").write_bytes(b"plain\n" + MARK + b"Jane <jane@x>\n")
    Path("n").write_bytes(MARK + b"Jo <jo@x>\n")
    printed = b"m:1: error: no email in brackets [no-email]\n" + MARKED.replace(b"m:", b"n:", 1)
    wants("two mailmaps, one with a mark", run(program, ["m", "n"]), 1, printed)
    wants("a mark that is left out", run(program, ["-e", "byte-order-mark", "n"]), 0, b"")
    wants("a mark that stays", run(program, ["--prune", "n"]), 0, MARK + b"Jo <jo@x>\n")
    return len(MARKS)


ALIKE = b" (they look the same)"
# The names of two contacts with one email, each with how it is shown, and whether they look the same: whether they are
# equal in NFC without characters of the general categories Cf, Zl and Zp.
NAMES = [
    (b"Jos\xc3\xa9", b"Jos\xc3\xa9", b"Jose\xcc\x81", b"Jose\xcc\x81", True),
    (b"Jose", b"Jose", b"Jo\xe2\x80\x8bse", b"Jo\\u200bse", True),
    (b"Jo\xc2\xadse", b"Jo\\u00adse", b"Jo\xef\xbb\xbfse", b"Jo\\ufeffse", True),
    (b"Jo\xe2\x80\xa8se", b"Jo\\u2028se", b"Jo\xe2\x80\xa9se", b"Jo\\u2029se", True),
    (b"Jose\xf3\xa0\x81\xbf", b"Jose\\U000e007f", b"\xe2\x81\xa0Jose", b"\\u2060Jose", True),
    (b"Jos\xc3\xa9", b"Jos\xc3\xa9", b"Jose\xe2\x80\x8d\xcc\x81", b"Jose\\u200d\xcc\x81", True),
    (b"\xe2\x84\xaaim", b"\xe2\x84\xaaim", b"Kim", b"Kim", True),
    (b"n" * 256 + b"a", b"n" * 256 + b"..", b"n" * 256 + b"b", b"n" * 256 + b"..", True),
    (b"\xe2\x80\x8b", b"\\u200b", b"\xe2\x80\x8c", b"\\u200c", True),
    (b"Jose", b"Jose", b"jose", b"jose", False),
    (b"Jose", b"Jose", b"Jos\xc3\xa9", b"Jos\xc3\xa9", False),
    (b"Jo se", b"Jo se", b"Jo\xc2\xa0se", b"Jo\xc2\xa0se", False),
    (b"\xef\xac\x81n", b"\xef\xac\x81n", b"fin", b"fin", False),
    (b"A", b"A", b"\xd0\x90", b"\xd0\x90", False),
    (b"A\x01", b"A\\x01", b"A", b"A", False),
    (b"A\xff", b"A\xff", b"A\xfe", b"A\xfe", False),
    (b"A\xff", b"A\xff", b"A\xff\xe2\x80\x8b", b"A\xff\\u200b", False),
    # GitHub takes `##[` for a command
    (b"##[a", b"##\\x5ba", b"J ###[[b##[", b"J ###\\x5b[b##\\x5b", False),
    (b"#[a# #[", b"#[a# #[", b"##\xff[##\xc3\xa9[##\x01[##", b"##\xff[##\xc3\xa9[##\\x01[##", False),
    (b"#\xe2\x80\x8b#[", b"#\\u200b#[", b"##[", b"##\\x5b", True),
]


def look_alikes(program):
    for one, shown_one, other, shown_other, alike in NAMES:
        printed = b"<stdin>:2: warning: %b <m@x> (1) has the email of %b <m@x> (1)%b [same-email]\n"
        printed %= shown_other, shown_one, ALIKE if alike else b""
        contacts = b"%b <m@x>\n%b <m@x>\n" % (one, other)
        wants(f"{contacts}", run(program, ["--contacts", "-", "-e", "git-answers"], contacts), 1, printed)
    # a note, an entry, and JSON, in which nothing is escaped
    contacts = b"Jos\xc3\xa9 Lee <j@x>\nJose\xcc\x81 Lee <j@y>\n"
    wants("a name that looks like another", run(program, ["--contacts", "-"], contacts), 0,
          b"<stdin>:2: note: Jose\xcc\x81 Lee <j@y> (1) has a name like Jos\xc3\xa9 Lee <j@x> (1) (they look the same) "
          b"[similar-name]\n")
    Path("m").write_bytes(b"Jo <j@x> <o@x>\nJ\xc2\xado <j@x>\n")
    wants("a contact that is mapped to one that looks the same", run(program, ["m"]), 1,
          b"m:1: warning: Jo <j@x> is itself mapped, to J\\u00ado <j@x> by m:2 (they look the same) [itself-mapped]\n")
    status, printed, said = run(program, ["-f", "json", "m"])
    message = {"text": "Jo <j@x> is itself mapped, to J\xado <j@x> by m:2 (they look the same)"}
    wants("an object about names that look the same", (status, json.loads(printed)["message"], said), 1, message)
    return len(NAMES)


def filters(program):
    """Findings below a level and of some kinds are left out. A level makes notes count."""
    Path("team").write_bytes(b"Jane Doe <jane@x> <jd@old>\nplain\nJ <j@y> ignored\n")
    Path("c").write_bytes(b"jd <JD@old>\nJ <j@y>\nplain\nJane <JANE@x>\nJane Doe <q@x>\n")
    error = b"team:2: error: no email in brackets [no-email]\n"
    warning = b"team:3: warning: ignored text: ignored" + CURE + b" [ignored-text]\n"
    for words, status, printed in [
        ([], 1, error + warning),
        (["-S", "note"], 1, error + warning),
        (["--severity=warning"], 1, error + warning),
        (["--severity", "error"], 1, error),
        (["-S", "error", "-S", "note"], 1, error + warning),
        (["-e", "no-email"], 1, warning),
        (["-e", "no-email,no-effect"], 1, warning),
        (["-e", "no-email", "--exclude=ignored-text"], 0, b""),
        (["-S", "error", "-e", "no-email"], 0, b""),
        (["--exclude", "ignored-text,no-email,git-reads"], 0, b""),
        (["--format", "gcc", "--stdin-name", "x"], 1, error + warning),
    ]:
        wants(f"filters before a file: {words}", run(program, [*words, "team"]), status, printed)
        wants(f"filters after a file: {words}", run(program, ["team", *words]), status, printed)
        shown = printed.replace(b"team:", b"a\\x1b:")
        wants(f"filters and a name: {words}", run(program, [*words, "--stdin-name=a\x1b", "-"], Path("team").read_bytes()),
              status, shown)
    note = b"c:5: note: Jane Doe <q@x> (1) has the name of Jane Doe <jane@x> (1) [same-name]\n"
    alike = b"c:4: warning: Jane <JANE@x> (1) has the email of Jane Doe <jane@x> (1) [same-email]\n"
    none = b"c:3: error: no contact [no-contact]\n"
    for words, status, printed in [
        (["-e", "no-email,ignored-text,no-contact,same-email"], 0, note),
        (["-e", "no-email,ignored-text,no-contact,same-email", "-S", "note"], 1, note),
        (["-e", "no-email,ignored-text,no-contact", "-S", "warning"], 1, alike),
        (["-S", "error"], 1, error + none),
        (["-S", "error", "-e", "no-contact"], 1, error),
        (["-e", "no-email,ignored-text"], 1, none + alike + note),
    ]:
        wants(f"filters and contacts: {words}", run(program, ["--contacts", "c", "team", *words]), status, printed)
        shown = printed.replace(b"c:", b"name:")
        wants(f"filters, contacts and a name: {words}",
              run(program, ["team", *words, "--stdin-name", "name", "--contacts=-"], Path("c").read_bytes()), status, shown)
    Path("otherwise").write_bytes(b"N < a@x >\n")
    wants("a name while pruning", run(program, ["--prune", "--stdin-name", "team", "-"], b"N < a@x >\n"), 2, b"",
          b"mailmap_verify: git reads team:1 otherwise\n")


def objects(program):
    """As JSON, each finding is an object. What isn't UTF-8 is in Base64, and nothing is escaped twice."""
    def text(plain):
        return {"text": plain}

    def named(name, email, count):
        return {"name": text(name), "email": text(email), "count": count}

    Path("team").write_bytes(b"N <a@x>\nN <a@x>\nplain\nJ <j@y> \x1b\"\\\xe2\x80\xae\nK <k@y> \xff\n")
    Path("c").write_bytes(b"a <a@x>\nb <b@x>\nB <B@x>\nplain\nN <q@x>\nj <j@y>\nk <k@y>\n")
    effect = {"file": text("team"), "line": 1, "level": "warning", "kind": "no-effect",
              "message": text("no effect: team:2 says the same"), "at": {"file": text("team"), "line": 2}}
    email = {"file": text("team"), "line": 3, "level": "error", "kind": "no-email", "message": text("no email in brackets")}
    ignored = {"file": text("team"), "line": 4, "level": "warning", "kind": "ignored-text",
               "message": text("ignored text: \x1b\"\\\u202e" + CURE.decode())}
    otherwise = {"file": text("team"), "line": 5, "level": "warning", "kind": "ignored-text",
                 "message": {"bytes": base64.b64encode(b"ignored text: \xff" + CURE).decode()}}
    for words, want in [
        ([], [effect, email, ignored, otherwise]),
        (["-S", "error"], [email]),
        (["-e", "ignored-text"], [effect, email]),
    ]:
        status, printed, said = run(program, ["team", "--format=json", *words])
        wants(f"objects: {words}", (status, [json.loads(line) for line in printed.splitlines()], said), 1, want, b"")
    status, printed, said = run(program, ["-f", "json", "--stdin-name", "\x1b", "-"], b"plain\n")
    email = {**email, "file": text("\x1b"), "line": 1}
    wants("an object with a name", (status, [json.loads(printed)], said), 1, [email], b"")
    status, printed, said = run(program, [b"-f", b"json", b"--stdin-name", b"\xff", b"-"], b"plain\n")
    email = {**email, "file": {"bytes": "/w=="}}
    wants("an object with a name in Base64", (status, [json.loads(printed)], said), 1, [email], b"")
    status, printed, said = run(program, ["-f", "json", "-e", "no-effect,no-email,ignored-text", "--contacts", "c", "team"])
    want = [
        {"file": text("c"), "line": 3, "level": "warning", "kind": "same-email",
         "message": text("B <B@x> (1) has the email of b <b@x> (1)"), "at": {"file": text("c"), "line": 2},
         **named("B", "B@x", 1), "beside": named("b", "b@x", 1)},
        {"file": text("c"), "line": 4, "level": "error", "kind": "no-contact", "message": text("no contact")},
        {"file": text("c"), "line": 5, "level": "note", "kind": "same-name",
         "message": text("N <q@x> (1) has the name of N <a@x> (1)"), "at": {"file": text("c"), "line": 1},
         **named("N", "q@x", 1), "beside": named("N", "a@x", 1)},
    ]
    wants("objects of contacts", (status, [json.loads(line) for line in printed.splitlines()], said), 1, want, b"")
    # no other line is named for a shared email
    Path("c").write_bytes(b"Ann Lee <l@x>\nBob Roe <L@x>\nCy Doe <l@x>\nDan Poe <l@x>\n")
    status, printed, said = run(program, ["-f", "json", "--contacts", "c"])
    want = [{"file": text("c"), "line": 1, "level": "note", "kind": "shared-email",
             "message": text("l@x is the email of several people (4)"), "email": text("l@x"), "count": 4}]
    wants("an object of a shared email", (status, [json.loads(line) for line in printed.splitlines()], said), 0, want, b"")
    Path("c").write_bytes(b"Ann Lee <a@x>\nplain\nLee, Ann <b@x>\nLee, Ann <b@x>\n")
    status, printed, said = run(program, ["-f", "json", "-e", "no-contact", "--contacts", "c"])
    want = [{"file": text("c"), "line": 1, "level": "note", "kind": "similar-name",
             "message": text("Ann Lee <a@x> (1) has a name like Lee, Ann <b@x> (2)"), "at": {"file": text("c"), "line": 3},
             **named("Ann Lee", "a@x", 1), "beside": named("Lee, Ann", "b@x", 2)}]
    wants("an object of a similar name", (status, [json.loads(line) for line in printed.splitlines()], said), 0, want, b"")
    Path("c").write_bytes(b"")
    Path("team").write_bytes(b"N <a@x>\n")
    status, printed, said = run(program, ["-f", "json", "--contacts", "c", "team"])
    want = {"file": text("team"), "line": 1, "level": "warning", "kind": "unneeded", "message": text("no contact needs it")}
    wants("an object of an unneeded line", (status, [json.loads(printed)], said), 1, [want], b"")


def main():
    program = str(Path(sys.argv[1]).resolve())
    hostile_count = 0
    with tempfile.TemporaryDirectory() as folder:
        os.chdir(folder)
        count = stored(program, "cases.jsonl") + stored(program, "git.jsonl")
        for what, mailmap, printed, pruned in hostile():
            said = b"mailmap_verify: git reads m1:1 otherwise\n"
            pruning = (2, b"", said) if pruned is REFUSED else (0, pruned, b"")
            wants_case(program, what, [mailmap], 1 if printed else 0, printed, pruning)
            hostile_count += 1
        explained_count = explained(program)
        explanations(program)
        beside(program)
        many_beside(program)
        hostile_beside(program)
        file_names(program)
        options(program)
        kinds(program)
        mark_count = marks(program)
        alike_count = look_alikes(program)
        filters(program)
        objects(program)
        annotations(program)
        fields(program)
        in_place(program)
        os.chdir("/")
    print(f"{count} stored mailmaps and {hostile_count} hostile ones, contacts of {explained_count} histories")
    print(f"{mark_count} mailmaps with and without byte order marks and names like comments")
    print(f"{alike_count} pairs of names that look the same or not")
    print(f"verify: {runs.passed} passed, {runs.failed} failed")
    sys.exit(1 if runs.failed or (count, explained_count) != (800, 400) else 0)


main()
