"""What arguments ask for: files or standard input, modes and options, and characters that are escaped."""
import unicodedata
from pathlib import Path

from runs import wants
from shortlog import skipped
from ways import CHECK, SHORTLOG, VERIFY, VERSION, run, said

FILES = {"one": b"1", "none": b"", "mapped": b"M <m@y> <a@x>\n", "cased": b"N <N@x>\n", "renamed": b"N <n@x> <a@x>"}
# contacts, and a line that is none
CONTACTS = b"b <A@x>\r\np\x1b\nB <M@y>\n\nb <A@x>\nm <q@x> end"
SPLIT = b"N <a@x>\n--\nb <A@x>\n"
COUNTED = b"b <A@x>\r\n\nno contact\n a <a@x> end\nb <b@x>"
NO_EMAIL = b":1: error: no email in brackets [no-email]\n"
SAME_NAME = b"<stdin>:3: note: B <M@y> (1) has the name of b <A@x> (2) [same-name]\n"
ALIKE = b"# 2 b <A@x>\n# 1 B <M@y>\n#?b <A@x> <M@y>\n\n"
MISSING = b"three: No such file or directory"
# a name and an email that would control a terminal or GitHub, or that hide, and how they are shown
HOSTILE = b"J\x1b[1m\xc2\x9b\xe2\x80\xae\xe2\x80\x8b\r##[error]x <h\x9b@x>"
HARMLESS = b"J\\x1b[1m\\u009b\\u202e\\u200b\\x0d##\\x5berror]x <h\\x9b@x>"
# a name whose escapes would make git read the end of a comment as a line
CUT = b"1 " + b"\\x1b" * 249 + b"\\x.."
# The program, its arguments, its input, the status, and the output or, with the status 2, the message.
TASKS = [
    (CHECK, "", SPLIT, 0, b"N <a@x>\n"),
    (CHECK, "mapped", SPLIT, 0, b"M <m@y>\n--\nM <m@y>\n"),
    (CHECK, "--compact", SPLIT, 0, b" b <a@x>\n"),
    (CHECK, "--compact none mapped", SPLIT, 0, b" M <m@y> <a@x>\n"),
    (CHECK, "--compact mapped three", SPLIT, 2, b"cannot read file 2"),
    (CHECK, "", b"Joe R. Developer <joe@example.com> <bugs@example.com>\n--\nbob <BUGS@example.com>\n", 0,
     b"Joe R. Developer <joe@example.com>\n"),
    (CHECK, "renamed", b"b <A@x>", 0, b"N <n@x>\n"),
    (CHECK, "--compact", b" # c <a@x>\nJane <j@x> <>\n<n@y> Bob <A@X>", 0,
     b" Jane <j@x> <>\n # c <a@x>\n <n@y> Bob <a@x>\n"),
    (CHECK, "mapped --compact", SPLIT, 2, b"cannot read file 2"),
    (VERIFY, "three --version -h", b"", 0, b"mailmap_verify " + VERSION),
    (VERIFY, "-", b"plain", 1, b"<stdin>" + NO_EMAIL),
    (VERIFY, "", b"plain", 2, b".mailmap: No such file or directory"),
    (VERIFY, "-- -", b"N <a@x>\nN <a@x>\n", 1,
     b"<stdin>:1: warning: no effect: <stdin>:2 says the same [no-effect]\n"),
    (VERIFY, "-", b"N <n@x> <a@x>\n<m@x> <n@x>\n", 1,
     b"<stdin>:1: warning: N <n@x> is itself mapped, to N <m@x> by <stdin>:2 [itself-mapped]\n"),
    (VERIFY, "--prune -", b"N < n@x >\n", 2, b"git reads <stdin>:1 otherwise"),
    (VERIFY, "mapped -S note", b"plain", 0, b""),
    (VERIFY, "one --severity=error none -- one", b"plain", 1, (b"one" + NO_EMAIL) * 2),
    (VERIFY, "one -e no-email", b"plain", 0, b""),
    (VERIFY, "one -", b"", 2, b"-: No such file or directory"),
    (VERIFY, "-- --prune", b"", 2, b"--prune: No such file or directory"),
    (VERIFY, "--prune -", b"N <a@x>\nN <a@x>\n", 0, b"N <a@x>\n"),
    (VERIFY, "--prune", b"", 2, b".mailmap: No such file or directory"),
    (VERIFY, "one --prune", b"plain", 0, b"1"),
    (VERIFY, "--prune three", b"", 2, MISSING),
    (VERIFY, "none --in-place one --prune", b"plain", 0, b""),
    (VERIFY, "--prune --in-place one three", b"", 2, MISSING),
    (VERIFY, "--prune --in-place -", b"", 2, b"-: No such file or directory"),
    (VERIFY, "-f github one", b"", 1, b"::error file=one,line=1,title=no-email::no email in brackets\n"),
    (VERIFY, "-f json --format=github --contacts - none", CONTACTS, 1,
     b"::error file=<stdin>,line=2,title=no-contact::no contact\n"
     b"::notice file=<stdin>,line=3,title=same-name::B <M@y> (1) has the name of b <A@x> (2)\n"),
    (VERIFY, "--explain one mapped", CONTACTS, 0,
     b"b <A@x> is M <m@y> by mapped:1\np\\x1b is no contact\nB <M@y> is not mapped\n"
     b"b <A@x> is M <m@y> by mapped:1\nm <q@x> is not mapped\n"),
    (VERIFY, "--explain", b"b <b@x>", 0, b"b <b@x> is not mapped\n"),
    (VERIFY, "--contacts - mapped", CONTACTS, 1,
     b"<stdin>:2: error: no contact [no-contact]\n"
     b"<stdin>:3: warning: B <M@y> (1) has the email of M <m@y> (2) [same-email]\n"
     b"<stdin>:6: note: m <q@x> (1) has the name of M <m@y> (2) [same-name]\n"),
    (VERIFY, "--contacts=- one --stdin-name log -e same-name", CONTACTS, 1,
     b"one" + NO_EMAIL + b"log:2: error: no contact [no-contact]\n"),
    (VERIFY, "--contacts=- one -e no-email --exclude=no-contact", CONTACTS, 0, SAME_NAME),
    (VERIFY, "--contacts=- one -S note -e no-email,no-contact", CONTACTS, 1, SAME_NAME),
    (VERIFY, "one --contacts one mapped -f json", b"", 1,
     b'{"file":{"text":"one"},"kind":"no-email","level":"error","line":1,'
     b'"message":{"text":"no email in brackets"}}\n'
     b'{"file":{"text":"mapped"},"kind":"unneeded","level":"warning","line":1,'
     b'"message":{"text":"no contact needs it"}}\n'
     b'{"file":{"text":"one"},"kind":"no-contact","level":"error","line":1,"message":{"text":"no contact"}}\n'),
    (VERIFY, "--contacts - cased", b"n <n@x>\nn <n@x>\n", 1,
     b"<stdin>:1: warning: git answers N <n@x> [git-answers]\n"),
    (VERIFY, "--contacts mapped -", b"plain", 1, b"<stdin>" + NO_EMAIL),
    (VERIFY, "--contacts three mapped", b"", 2, MISSING),
    (VERIFY, "mapped --suggest -", CONTACTS, 0,
     b"# 2 M <m@y>\n# 1 B <M@y>\nM <m@y> <M@y>\n\n# 3 M <m@y>\n# 1 m <q@x>\n#?M <m@y> <q@x>\n\n"),
    (VERIFY, "--suggest=cased one", CONTACTS, 0, b""),
    # after a line feed, if the last mailmap isn't empty and has none at its end
    (VERIFY, "--suggest - mapped one", CONTACTS, 0,
     b"\n# 2 M <m@y>\n# 1 B <M@y>\nM <m@y> <M@y>\n\n# 3 M <m@y>\n# 1 m <q@x>\n#?M <m@y> <q@x>\n\n"),
    (VERIFY, "--suggest - one", CONTACTS, 0, b"\n" + ALIKE),
    (VERIFY, "--suggest - one none", CONTACTS, 0, ALIKE),
    (VERIFY, "--suggest -", CONTACTS, 0, ALIKE),
    (VERIFY, "--suggest folder -", b"", 2, b"-: No such file or directory"),
    (VERIFY, "--suggest -", b"J <h\x9b@x>\n" + HOSTILE + b"\n" + HOSTILE, 0,
     b"# 2 " + HARMLESS + b"\n# 1 J <h\\x9b@x>\n" + HOSTILE + b"\n\n"),
    (VERIFY, "--suggest -", b"\n".join(name + b" <s\x1b@x>" for name in (b"A", b"B", b"C", b"D")), 0,
     b"# several people may share s\\x1b@x\n" + b"".join(b"# 1 %c <s\\x1b@x>\n" % name for name in b"ABCD") + b"\n"),
    (VERIFY, "--suggest -", b"q <jane\x1broe@x>\nJane Roe <j@x>\n", 0, b"# login jane\\x1broe\n"
     b"# 1 q <jane\\x1broe@x>\n# 1 Jane Roe <j@x>\n#?q <jane\x1broe@x> <j@x>\n\n"),
    (VERIFY, "--suggest -", b"J <j@x>\nJ <j@x>\n" + b"\x1b" * 256 + b" <j@x>", 0,
     b"# 2 J <j@x>\n# " + CUT + b"\nJ <j@x>\n\n"),
    (SHORTLOG, "", COUNTED, 0, b"     1\ta\n     2\tb\n"),
    (SHORTLOG, "mapped", COUNTED, 0, b"     2\tM\n     1\tb\n"),
    (SHORTLOG, "-n --", COUNTED, 0, b"     2\tb\n     1\ta\n"),
    (SHORTLOG, "-s -nn one", COUNTED, 0, b"     2\tb\n     1\ta\n"),
    (SHORTLOG, "-e one mapped", COUNTED, 0, b"     2\tM <m@y>\n     1\tb <b@x>\n"),
    (SHORTLOG, "-sen", COUNTED, 0, b"     1\ta <a@x>\n     1\tb <A@x>\n     1\tb <b@x>\n"),
    (SHORTLOG, "-n -- -e", COUNTED, 2, b"-e: No such file or directory"),
    (SHORTLOG, "mapped -h", COUNTED, 2, b"-h: No such file or directory"),
    (SHORTLOG, "--version -h", COUNTED, 0, b"mailmap_shortlog " + VERSION),
    (SHORTLOG, "-e", HOSTILE, 0, b"     1\t" + HARMLESS + b"\n"),
    # GitHub takes `::` at the beginning of a line for a command, also after white space, but no line begins so
    (SHORTLOG, "", b"::error::x <e@x>", 0, b"     1\t::error::x\n"),
]
# Without a file, the mailmap is .mailmap, if it is there.
DEFAULT = [
    (VERIFY, "", b"", 1, b".mailmap" + NO_EMAIL),
    (VERIFY, "--", b"", 1, b".mailmap" + NO_EMAIL),
    (VERIFY, "--prune", b"", 0, b"plain\nM <m@y> <a@x>\n"),
    (VERIFY, "--explain", b"b <A@x>", 0, b"b <A@x> is not mapped\n"),
    (VERIFY, "--contacts -", b"b <A@x>\n", 1, b".mailmap" + NO_EMAIL),
    (VERIFY, "--contacts=contact", b"", 1, b".mailmap" + NO_EMAIL),
    (VERIFY, "--contacts contact -", b"M <m@y> <a@x>\n", 0, b""),
    (VERIFY, "--suggest -", b"b <A@x>\nB <M@y>\n", 0, b"# 1 M <m@y>\n# 1 B <M@y>\nM <m@y> <M@y>\n\n"),
    (SHORTLOG, "", b"b <A@x>\n", 0, b"     1\tM\n"),
    (SHORTLOG, "-ne --", b"b <A@x>\n", 0, b"     1\tM <m@y>\n"),
    (SHORTLOG, "none", b"b <A@x>\n", 0, b"     1\tb\n"),
]
# Whether contacts that begin like this are git log's own format.
HASH, LONG_HASH = b"0123456789abcdefABCDEF" + b"0" * 18, b"9" * 64
GIT_LOG = [
    (b"commit " + HASH + b"\nAuthor: Jane <jane@x>\n", True),
    (b"commit " + HASH, True),
    (b"commit " + HASH + b"\r\n", True),
    (b"commit " + LONG_HASH + b"\n", True),
    (b"commit " + HASH + b" (HEAD -> main, tag: v1 <a@x>)\n", True),
    (b"commit " + LONG_HASH + b" " * 100_000 + b"\n", True),
    (b"commit " + HASH + b"\0", False),
    (b"commit " + HASH[1:] + b"\n", False),
    (b"commit " + HASH + b"0\n", False),
    (b"commit " + LONG_HASH + b"0\n", False),
    (b"commit " + b"g" * 40 + b"\n", False),
    (b"commit  " + HASH + b"\n", False),
    (b"Commit " + HASH + b"\n", False),
    (b" commit " + HASH + b"\n", False),
    (b"commit\n" + HASH + b"\n", False),
    (b"commit <a@x>\n", False),
    (b"commi", False),
    (b"\ncommit " + HASH + b"\n", False),
    (b"", False),
]
NOT_CONTACTS = b"the contacts are git log's own format: use git log --format='%an <%ae>'"
# Control characters are escaped, and those that can't be seen or turn the direction of text. Those beside them are as
# they are, and so are all other characters and bytes that aren't UTF-8.
SHOWN = [
    (b"|\x00\x09\x1b[31m\x1f \\x1b\x7e\x7f\x80\x9f\xa0\xff|",
     b"|\\x00\\x09\\x1b[31m\\x1f \\x1b\x7e\\x7f\\x80\\x9f\xa0\xff|"),
    (b"\xc2\x80\xc2\x9b\xc2\x9f\xc2\xa0|", b"\\u0080\\u009b\\u009f\xc2\xa0|"),
    (b"\xc2\xac\xc2\xad\xc2\xae", b"\xc2\xac\\u00ad\xc2\xae"),
    (b"\xd8\x9b\xd8\x9c\xd8\x9d", b"\xd8\x9b\\u061c\xd8\x9d"),
    (b"|\xe2\x80\x8a\xe2\x80\x8b\xe2\x80\x8c", b"|\xe2\x80\x8a\\u200b\\u200c"),
    (b"\xe2\x80\x8d\xe2\x80\x8e\xe2\x80\x8f\xe2\x80\x90", b"\\u200d\\u200e\\u200f\xe2\x80\x90"),
    (b"\xe2\x80\xa7\xe2\x80\xa8|", b"\xe2\x80\xa7\\u2028|"),
    (b"|\xe2\x80\xa9\xe2\x80\xaa\xe2\x80\xab\xe2\x80\xac", b"|\\u2029\\u202a\\u202b\\u202c"),
    (b"\xe2\x80\xad\xe2\x80\xae\xe2\x80\xaf|", b"\\u202d\\u202e\xe2\x80\xaf|"),
    (b"|\xe2\x81\x9f\xe2\x81\xa0\xe2\x81\xa4", b"|\xe2\x81\x9f\\u2060\\u2064"),
    (b"\xe2\x81\xa5\xe2\x81\xa6\xe2\x81\xa7", b"\xe2\x81\xa5\\u2066\\u2067"),
    (b"\xe2\x81\xa8\xe2\x81\xa9\xe2\x81\xaa", b"\\u2068\\u2069\\u206a"),
    (b"\xee\x80\x80\xef\xbb\xbf\xef\xbf\xbc", b"\xee\x80\x80\\ufeff\xef\xbf\xbc"),
    (b"\xf0\x9d\x85\xb2\xf0\x9d\x85\xb3", b"\xf0\x9d\x85\xb2\\U0001d173"),
    (b"\xf3\xa0\x80\x81\xf3\xa0\x80\xa0\xf3\xa0\x81\xbf\xf3\xa0\x84\x80",
     b"\\U000e0001\\U000e0020\\U000e007f\xf3\xa0\x84\x80"),
    (b"\xc4\x80\x80\xe2\x82\x80\xf0\x9f\x98\x80", b"\xc4\x80\\x80\xe2\x82\x80\xf0\x9f\x98\x80"),
    (b"\xe2\x80x\xf0\x9f\x98x\xed\xa0\x80", b"\xe2\\x80x\xf0\\x9f\\x98x\xed\xa0\\x80"),
    (b"\xc2\xc2\x9b", b"\xc2\\u009b"),
    (b"\xf0\x9f\xe2\x80\xae", b"\xf0\\x9f\\u202e"),
]
# Lines of a mailmap, and what git 2.39 reads in place of what this library does, or None if it reads the same. git reads
# 1,023 bytes at a time.
GIT_READS = [
    (b"", None),
    (b"plain\n", None),
    (b"Joe <a@x", None),
    (b"<a@x>\n", None),
    (b"# Joe <a@x>\n", None),
    (b" # Joe <a@x>\n", None),
    (b"Joe <a@x>\n", None),
    (b"Joe <a@x>", None),
    (b"\tJoe\r <a@x>\r\n", None),
    (b"Joe <> <a@x>\n", None),
    (b"Joe <a@x> <>\n", None),
    (b"Joe < a@x >\n", b"it as Joe < a@x >"),
    (b"\x0bJoe <a@x>\n", b"it as \\x0bJoe <a@x>"),
    (b"Joe <a@x>\0 <b@x>\n", b"it as Joe <a@x>"),
    (b"\0Joe <a@x>\n", b"nothing here"),
    (b"Joe <a\0@x>\n", b"nothing here"),
    (b"Joe < > <a@x>\n", b"it as Joe < > <a@x>"),
    (b"<a@x> Bob < b@x>\n", b"it as <a@x> Bob < b@x>"),
    (b" " * 1_014 + b"Joe <a@x>\n", None),
    (b" " * 1_015 + b"Joe <a@x>\n", b"nothing here"),
    (b"Jane <j@x>".ljust(1_023) + b"Joe <a@x>\n", b"it as 2 lines"),
]


def escaped(character):
    if unicodedata.category(character) not in ("Cf", "Zl", "Zp"):
        return character
    return f"\\u{ord(character):04x}" if character < "\U00010000" else f"\\U{ord(character):08x}"


def wants_hidden():
    """Each character that this Python knows is escaped if it is of one of three general categories. Returns how many
    are.
    """
    known = [chr(code) for code in range(160, 0x110000) if unicodedata.category(chr(code)) not in ("Cn", "Cs")]
    lines = ["".join(known[start:start + 1000]) for start in range(0, len(known), 1000)]
    text = "".join(f"|{line}|\n" for line in lines).encode()
    shown = "".join("|" + "".join(map(escaped, line)) + "| is no contact\n" for line in lines).encode()
    status, printed, message = run(VERIFY, ["--explain"], input=text)
    first = next((pair for pair in zip(printed.splitlines(), shown.splitlines()) if pair[0] != pair[1]), None)
    wants("characters by their general categories", (status, repr(first).encode(), message), 0, b"None")
    wants("characters by their general categories, all lines", (status, printed[-200:], message), 0, shown[-200:])
    return sum(escaped(character) != character for character in known)


def wants_git_reading(line, reading):
    status, printed, message = run(VERIFY, ["-"], input=line)
    found = b"".join(text for text in printed.splitlines(True) if text.endswith(b" [git-reads]\n"))
    expected = b"<stdin>:1: warning: git reads %b [git-reads]\n" % reading if reading else b""
    wants(f"what git reads of {line}", (status, found, message), status, expected)


def wants_default():
    """One .mailmap is there, and then one that can't be read."""
    Path(".mailmap").write_bytes(b"plain\nM <m@y> <a@x>\n")
    Path("contact").write_bytes(b"b <A@x>\n")
    for program, words, text, status, printed in DEFAULT:
        wants(f"{program} {words} beside .mailmap", run(program, words.split(), input=text), status, printed)
    Path(".mailmap").unlink()
    Path(".mailmap").mkdir()
    for program, words in (VERIFY, ""), (VERIFY, "--prune"), (VERIFY, "--contacts -"), (VERIFY, "--suggest -"), (SHORTLOG, ""):
        wants(f"{program} {words} beside a folder .mailmap", run(program, words.split(), input=b""), 2, b"",
              said(program, b".mailmap: Is a directory"))
    Path(".mailmap").rmdir()


def wants_git_log(text, is_log):
    """All that read contacts refuse git log's own format, and nothing else, from standard input and from a file."""
    Path("text").write_bytes(text)
    for program, words in [
        (VERIFY, ["--explain", "one"]), (VERIFY, ["--contacts", "-", "one"]), (VERIFY, ["--contacts", "text", "one"]),
        (VERIFY, ["--suggest", "-", "one"]), (VERIFY, ["--suggest", "text", "one"]), (SHORTLOG, ["one"]),
    ]:
        status, printed, message = run(program, words, input=text)
        refused = (status, printed, message) == (2, b"", said(program, NOT_CONTACTS))
        wants(f"{program} {words} with {text[:60]}", (status == 2, refused, b""), is_log, is_log)


def shows():
    for name, text in FILES.items():
        Path(name).write_bytes(text)
    for program, words, text, status, printed in TASKS:
        expected = (b"", said(program, printed)) if status == 2 else (printed, b"")
        if program == SHORTLOG and text == COUNTED and b"\t" in printed:
            expected = printed, skipped(text)
        wants(f"{program} {words}", run(program, words.split(), input=text), status, *expected)
    wants_default()
    for text, is_log in GIT_LOG:
        wants_git_log(text, is_log)
    for text, shown in SHOWN:
        wants(f"{text} shown", run(VERIFY, ["--explain"], input=text), 0, shown + b" is no contact\n")
        wants(f"{text} counted", run(SHORTLOG, ["-e"], input=text + b" <a@x>"), 0, b"     1\t" + shown + b" <a@x>\n")
    for line, reading in GIT_READS:
        wants_git_reading(line, reading)
    yield f"{len(TASKS) + len(DEFAULT)} tasks: options, files and standard input as the manual pages have them"
    yield f"{len(GIT_LOG)} beginnings of contacts, of which those of git log's own format are refused"
    hidden = wants_hidden()
    yield f"{len(SHOWN)} texts in which characters are escaped, and {hidden} characters of Unicode {unicodedata.unidata_version}"
    yield f"{len(GIT_READS)} lines of a mailmap: git reads them as mailmap_verify says"
