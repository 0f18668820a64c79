"""Checks the findings of mailmap_verify as annotations of GitHub, and the members of JSON's objects beside the message.

GitHub's documentation says what is escaped in an annotation: in its text `%`, carriage returns and line feeds, and in
its properties also `:` and `,`. The stored cases have the lines that are printed without an option, from the model of
tests/model; here they are made into annotations. A message that JSON has is made again from the members beside it.
"""
import base64
import json
import re
import sys
from pathlib import Path

HERE = Path(__file__).resolve().parent
sys.path.append(str(HERE.parent / "model"))
from runs import run, wants
from shown import alike_text, shortened

LINE = re.compile(rb"(m[0-9]+|c):([0-9]+): (error|warning|note): (.*) \[([a-z-]+)\]")
COMMANDS = {b"error": b"error", b"warning": b"warning", b"note": b"notice"}


# ---- annotations

def data(text):
    return text.replace(b"%", b"%25").replace(b"\r", b"%0D").replace(b"\n", b"%0A")


def annotation(line):
    """The annotation for a line that is printed without an option."""
    file, number, level, text, kind = LINE.fullmatch(line).groups()
    return b"::%b file=%b,line=%b,title=%b::%b" % (COMMANDS[level], file, number, kind, data(text))


def read_as_github(line):
    """The command, the properties and the text of an annotation, as GitHub's runner reads them: the command ends at the
    first space, the properties at the next two colons, and each property at a comma.
    """
    command, _, rest = line.removeprefix(b"::").partition(b" ")
    properties, _, text = rest.partition(b"::")
    pairs = dict(pair.split(b"=", 1) for pair in properties.split(b","))
    unescaped = {key: value.replace(b"%3A", b":").replace(b"%2C", b",") for key, value in pairs.items()}
    return command, {key: undone(value) for key, value in unescaped.items()}, undone(text)


def undone(text):
    return text.replace(b"%0D", b"\r").replace(b"%0A", b"\n").replace(b"%25", b"%")


def runs_of(name):
    """The stored cases, each with its number and the words for its contacts and mailmaps, which are files here."""
    for number, stored in enumerate(open(HERE / name, encoding="ascii"), 1):
        case = json.loads(stored)
        files = [f"m{file}" for file in range(1, len(case["files"]) + 1)]
        for file, text in zip(files, case["files"]):
            Path(file).write_bytes(bytes.fromhex(text))
        Path("c").write_bytes(bytes.fromhex(case.get("contacts", "")))
        yield number, case, [*(["--contacts", "c"] if "contacts" in case else []), *files]


def annotations(program):
    for name in "cases.jsonl", "explained.jsonl":
        for number, case, words in runs_of(name):
            status, printed = case["with_contacts" if "contacts" in case else "verify"]
            want = b"".join(annotation(line) + b"\n" for line in bytes.fromhex(printed).split(b"\n")[:-1])
            wants(f"annotations of {name}:{number}", run(program, ["-f", "github", *words]), status, want)
    hostile_annotations(program)


def hostile_annotations(program):
    """No text of a file ends its part of the line, begins a line, or is a command of its own."""
    name = "a:b,c%d\n::error::x"
    Path(name).write_bytes(b"N <a@x>\nN <a@x>\n")
    shown = b"a:b,c%d\\x0a::error::x"
    status, printed, said = run(program, ["--format=github", name])
    want = b"::warning file=a%3Ab%2Cc%25d\\x0a%3A%3Aerror%3A%3Ax,line=1,title=no-effect::no effect: " + data(shown)
    wants("the name of a file", (status, printed, said), 1, want + b":2 says the same\n")
    command, properties, text = read_as_github(printed[:-1])
    read = (b"warning", {b"file": shown, b"line": b"1", b"title": b"no-effect"}, b"no effect: " + shown + b":2 says the same")
    wants("the name of a file, as GitHub reads it", (0, repr((command, properties, text)).encode(), b""), 0, repr(read).encode())
    for text, want in [
        (b"::error::x", b"::error::x"),
        (b"%0A::error::x", b"%250A::error::x"),
        (b"x\r::error::x", b"x\\x0d::error::x"),
        (b"##[error]x", b"##\\x5berror]x"),
        (b"100 %, a:b", b"100 %25, a:b"),
        (b"\x1b[31m\x9b\xe2\x80\xae", b"\\x1b[31m\\x9b\\u202e"),
    ]:
        Path("m1").write_bytes(b"#N <a@x>\nN <a@x>" + text + b"\n")
        cure = b"" if text.startswith(b"#") else b" (an old name needs an email after it)"
        want = b"::warning file=m1,line=2,title=ignored-text::ignored text: " + want + cure + b"\n"
        wants(f"ignored text {text}", run(program, ["-f", "github", "m1"]), 1, want)
    # GitHub takes `::` at the beginning of a line for a command, and `##[` anywhere in it
    contacts = b"::error::x <e@x>\n:: <f@x>\n : <g@x>\n::error::x\n##[error]x <h@x>\n"
    printed = (b"\\x3a:error::x <e@x> is not mapped\n\\x3a: <f@x> is not mapped\n: <g@x> is not mapped\n"
               b"\\x3a:error::x is no contact\n##\\x5berror]x <h@x> is not mapped\n")
    wants("contacts that look like commands", run(program, ["--explain"], contacts), 0, printed)
    Path("m1").write_bytes(b"N <a@x> ##[error]x ###[[##[\n")
    status, printed, said = run(program, ["-f", "json", "m1"])
    wants("commands in JSON", (status, b"%d" % printed.count(b"##["), said), 1, b"0")
    want = b"ignored text: ##[error]x ###[[##["
    said = json.loads(printed)["message"]["text"].encode()
    wants("what JSON has of commands", (0, said[:len(want)], b""), 0, want)
    # what controls a terminal or can't be seen is a number in JSON, and all else is as it is
    text = "\x1b\x7f\x80\x9b\x9f\xa0\xad\u200b\u202e\u2028\ufeff\uffff\U000e0001\U0010ffff é"
    escaped = "\\u001b\\u007f\\u0080\\u009b\\u009f\xa0\\u00ad\\u200b\\u202e\\u2028\\ufeff\uffff\\udb40\\udc01\U0010ffff é"
    Path("m1").write_bytes(b"N <a@x> " + text.encode() + b"\n")
    status, printed, said = run(program, ["-f", "json", "m1"])
    count = printed.count(f'"ignored text: {escaped} ('.encode())
    wants("hidden characters in JSON", (status, b"%d" % count, said), 1, b"1")
    said = json.loads(printed)["message"]["text"]
    wants("what JSON has of hidden characters", (0, said.encode(), b""), 0, f"ignored text: {text}".encode() + b" (an old name needs an email after it)")


# ---- members beside the message

def decoded(value):
    return value["text"].encode() if "text" in value else base64.b64decode(value["bytes"])


def contact(value):
    name = shortened(decoded(value["name"])) if "name" in value else b""
    return (name + b" " if name else b"") + b"<%b>" % shortened(decoded(value["email"]))


def counted(value):
    return b"%b (%d)" % (contact(value), value["count"])


LIKE = {"same-email": b" has the email of ", "same-name": b" has the name of ", "similar-name": b" has a name like "}


def message(found):
    """The message that follows from the members beside it, or how it begins; None if it has none."""
    kind, beside = found["kind"], found.get("beside")
    if kind in LIKE:
        alike = alike_text(decoded(found["name"]), decoded(beside["name"]))
        return counted(found) + LIKE[kind] + counted(beside) + alike
    if kind == "shared-email":
        return shortened(decoded(found["email"])) + b" is the email of several people (%d)" % found["count"]
    if kind == "git-answers":
        return b"git answers " + contact(found)
    if kind == "itself-mapped":
        return contact(found) + b" is itself mapped, to " + contact(beside) + b" by "
    if kind == "git-reads" and beside:
        parts = [shortened(decoded(found["name"]))] if "name" in found else []
        parts += [b"<%b>" % shortened(decoded(found["email"]))] if "email" in found else []
        return b"git reads it as " + b" ".join([*parts, contact(beside)])
    if kind == "git-reads" and "count" in found:
        return b"git reads it as %d lines" % found["count"]
    return None


def fields(program):
    counts = {}
    for name in "git.jsonl", "explained.jsonl":
        for number, _, words in runs_of(name):
            _, printed, _ = run(program, ["-f", "json", *words])
            for line in printed.splitlines():
                found = json.loads(line)
                want, said = message(found), decoded(found["message"])
                named = {"name", "email", "count", "beside"} & set(found)
                same = not named if want is None else said.startswith(want) if found["kind"] == "itself-mapped" else said == want
                wants(f"members of {name}:{number}", (0, repr((found, same)).encode(), b""), 0, repr((found, True)).encode())
                counts[found["kind"]] = counts.get(found["kind"], 0) + bool(named)
    for kind in *LIKE, "git-answers", "itself-mapped", "git-reads":
        wants(f"some have members: {kind}", (0, b"%d" % bool(counts.get(kind)), b""), 0, b"1")
