"""Arguments and paths that are long, many, odd, or lead nowhere."""
import os
import subprocess
from pathlib import Path

from findings import shown
from runs import wants
from ways import CHECK, CONTACTS, MAILMAP, SHORTLOG, VERIFY, VERSION, check, compact, run, said

HELP = Path(__file__).resolve().parents[1] / "help"
MANY = 200_000
# the longest path that Linux opens, and its longest argument, in bytes
LONGEST_PATH = 4_095
LONGEST_ARGUMENT = 131_071
# The ways to name a file: the words before it, those after it, and its number for mailmap_check, which says only that.
WAYS = [
    (CHECK, [], [], 1),
    (CHECK, ["mailmap"], [], 2),
    (CHECK, ["--compact"], [], 1),
    (CHECK, ["--compact", "mailmap"], ["mailmap"], 2),
    (VERIFY, ["--"], [], None),
    (VERIFY, ["mailmap"], ["mailmap"], None),
    (VERIFY, ["--prune"], [], None),
    (VERIFY, ["--explain"], [], None),
    (VERIFY, ["--explain", "mailmap"], [], None),
    (VERIFY, ["--contacts"], ["mailmap"], None),
    (VERIFY, ["--contacts", "contacts"], [], None),
    (VERIFY, ["--contacts", "-", "mailmap"], [], None),
    (VERIFY, ["--suggest"], ["mailmap"], None),
    (VERIFY, ["--suggest", "contacts", "mailmap"], [], None),
    (VERIFY, ["-S", "error", "-e", "no-effect", "--format=json", "--stdin-name", "x", "--"], [], None),
    (SHORTLOG, ["--"], [], None),
    (SHORTLOG, ["-ne", "mailmap"], [], None),
]
NOWHERE = [
    ("a directory with a slash", b"folder/", b"Is a directory"),
    ("a file with a slash", b"mailmap/", b"Not a directory"),
    ("a loop of links", b"loop", b"Too many levels of symbolic links"),
    ("a file beyond a loop of links", b"loop/mailmap", b"Too many levels of symbolic links"),
    ("a link to nothing", b"dangling", b"No such file or directory"),
    ("no name", b"", b"No such file or directory"),
    ("a name of control bytes", b"\x1b[31m\x7f\n\xc2\x85", b"No such file or directory"),
    ("a name that is not UTF-8", b"\x1b\xff", b"the name is not UTF-8"),
    ("a name of 256 bytes", b"x" * 256, b"File name too long"),
    ("a path of more than 8 KiB", b"./" * 4_200 + b"mailmap", b"File name too long"),
    ("the longest argument", b"/" * LONGEST_ARGUMENT, b"File name too long"),
    ("a file that fails to be read", b"/proc/self/mem", b"cannot be read"),
]


def wants_failure(what, name, cause, **more):
    """The file can't be read, whichever way it is named."""
    for program, before, after, number in WAYS:
        failure = b"cannot read file %d" % number if number else shown(name)[:-1] + b": " + cause
        done = run(program, [*before, name, *after], **more)
        wants(f"{what}, {program} {before}", done, 2, b"", said(program, failure))


def nowhere():
    Path("folder").mkdir()
    os.symlink("back", "loop")
    os.symlink("loop", "back")
    os.symlink("missing", "dangling")
    for what, name, cause in NOWHERE:
        wants_failure(what, name, cause)
    return f"{len(NOWHERE)} paths at which no file can be read, named in {len(WAYS)} ways: each failure names its file"


def unreadable():
    """No file is closed to root, so as root the run is another user's, if that user can start a program here."""
    Path("unreadable").write_bytes(MAILMAP)
    Path("unreadable").chmod(0)
    other = {"user": 65534, "group": 65534, "extra_groups": []} if os.getuid() == 0 else {}
    try:
        subprocess.run([CHECK, "--help"], stdout=subprocess.DEVNULL, check=True, **other)
    except (OSError, subprocess.SubprocessError) as failure:
        return f"skipped: a file without permissions, since no other user can run a program here ({failure})"
    wants_failure("a file without permissions", b"unreadable", b"Permission denied", **other)
    return f"a file without permissions, named in {len(WAYS)} ways: each failure names it"


def found():
    """Paths that lead to a file in an odd way."""
    os.symlink("mailmap", "link")
    long = b"/" * (LONGEST_PATH - len("./mailmap")) + b"/mailmap"
    names = [b"link", b"folder/../mailmap", b"./\x1b", b"./\xc3\xa4", b"." + long]
    for name in names[2:4]:
        Path(os.fsdecode(name)).write_bytes(MAILMAP)
    for name in names:
        wants(f"{name[:40]}, compacted", run(CHECK, ["--compact", name]), 0, compact([MAILMAP]))
        wants(f"{name[:40]}, verified", run(VERIFY, [name]), 0, b"")
        wants(f"{name[:40]} as contacts", run(VERIFY, ["--contacts", name, "mailmap"]), 1,
              b"mailmap:2: warning: no contact needs it [unneeded]\n")
        wants(f"{name[:40]}, suggested for", run(VERIFY, ["--suggest", name, "mailmap"]), 0, b"")
        wants(f"{name[:40]}, counted by", run(SHORTLOG, ["--", name]), 0, b"     1\tJane Doe\n     1\tJoe\n")
    os.mkfifo("pipe")
    fed = ["-c", 'cat mailmap > pipe & exec "$@"', "sh"]
    explained = b"jane <JANE@x> is Jane Doe <jane@x> by pipe:1\njoe <Joe@x> is Joe <joe@new> by pipe:2\n"
    wants("a named pipe", run("sh", [*fed, VERIFY, "--explain", "pipe"]), 0, explained)
    return f"{len(names)} odd paths, one of them of {LONGEST_PATH:,} bytes, and a named pipe: the mailmap there is read"


# the beginning of a line is what GitHub takes for a command, and how it is printed
COMMANDS = [
    (b"::error", b"\\x3a:error"),
    (b":", b"\\x3a"),
    (b" ::error", b" \\x3a:error"),
    (b" :", b" \\x3a"),
    (b"\xc2\xa0\xe3\x80\x80::error", b"\xc2\xa0\xe3\x80\x80\\x3a:error"),
    (b"\t::error", b"\\x09\\x3a:error"),
]


def commands():
    for name, printed in COMMANDS:
        Path(os.fsdecode(name)).write_bytes(b"x")
        for words in [name], ["--stdin-name", name, "-"]:
            wants(f"the name {name}", run(VERIFY, words, input=b"x"), 1, printed + b":1: error: no email in brackets [no-email]\n")
    return f"{len(COMMANDS)} names that begin a line as a command to GitHub does: none is one"


def options():
    """After --help nothing else counts. Only the first argument can be an option of mailmap_check."""
    for words, text in [
        (["--help", "x"], (HELP / "mailmap_check.txt").read_bytes()),
        (["-h", "--compact", "x"], (HELP / "mailmap_check.txt").read_bytes()),
        (["--version", "x"], b"mailmap_check " + VERSION),
    ]:
        wants(f"mailmap_check {words}", run(CHECK, words), 0, text)
    for program, words in (VERIFY, ["--help", "--foo"]), (VERIFY, ["--contacts", "x", "--help", "x"]), \
            (VERIFY, ["--suggest", "x", "-h", "-S", "note"]), (SHORTLOG, ["--help", "x"]), \
            (SHORTLOG, ["-ne", "-h", "--foo"]):
        text = (HELP / f"{program.removeprefix('./')}.txt").read_bytes()
        wants(f"{program} {words}", run(program, words), 0, text)
    compacted = [["--compact", word] for word in ("--help", "--version", "--compact", "--")]
    for words in ["-"], ["--"], ["--foo"], *compacted:
        wants(f"mailmap_check {words}", run(CHECK, words), 2, b"", said(CHECK, b"cannot read file 1"))
    for name in "-", "--", "--foo":
        Path(name).write_bytes(MAILMAP)
        wants(f"mailmap_check {name}, a file", run(CHECK, [name]), 0, check([MAILMAP], CONTACTS))
        Path(name).unlink()
    long = b"-" + b"\x1b" * (LONGEST_ARGUMENT - 1)
    for program in VERIFY, SHORTLOG:
        status, printed, message = run(program, [long])
        first = message[:message.find(b"\n") + 1]
        wants(f"{program}, a long option", (status, printed, first), 2, b"",
              said(program, b"unknown option: " + shown(long)[:-1]))
    return "options: after --help nothing counts, a long one is shown in full, and for mailmap_check others are files"


def arguments():
    """Many files: all but the last have the same entry, and the last one another."""
    # Each takes a pointer, its byte and a zero byte. 8 KiB are for the rest.
    count = min(MANY, (os.sysconf("SC_ARG_MAX") - 8_192) // 10)
    Path("m").write_bytes(b"Jane Doe <jane@x>\n")
    Path("n").write_bytes(b"Jane D. <jane@x>\n")
    Path("c").write_bytes(b"jane <JANE@x>\n")
    found = b"m:1: warning: no effect: n:1 says something else [no-effect]\n" * (count - 1)
    jane = b"Jane D. <jane@x>\n"
    names = ["m"] * (count - 1)
    for program, words, status, printed in [
        (CHECK, [], 0, jane),
        (CHECK, ["--compact"], 0, b" " + jane),
        (VERIFY, [], 1, found),
        (VERIFY, ["--explain"], 0, b"jane <JANE@x> is Jane D. <jane@x> by n:1\n"),
        (VERIFY, ["--contacts", "c"], 1, found + b"c:1: warning: git answers Jane D. <JANE@x> [git-answers]\n"),
        (VERIFY, ["--suggest", "c"], 0,
         b"# 1 Jane D. <jane@x>\n# 1 Jane D. <JANE@x> by git\nJane D. <jane@x> <JANE@x>\n\n"),
        (SHORTLOG, ["-e"], 0, b"     1\t" + jane),
    ]:
        done = run(program, [*words, *names, "n"], input=Path("c").read_bytes(), env={})
        wants(f"{count} files, {program} {words}", done, status, printed)
    for program, words, failure in [
        (CHECK, [], b"cannot read file %d" % count),
        (VERIFY, ["--prune"], b"--prune takes one FILE at most"),
        (VERIFY, [], b"x: No such file or directory"),
        (VERIFY, ["--suggest", "c"], b"x: No such file or directory"),
        (SHORTLOG, [], b"x: No such file or directory"),
    ]:
        done = run(program, [*words, *names, "x"], env={})
        wants(f"{count} files, the last missing, {program} {words}", done, 2, b"", said(program, failure))
    return f"{count:,} files as arguments: all are read, the last one counts, and if it is missing, it is named"


def shows():
    """What each group of tests shows, when it has run."""
    yield nowhere()
    yield unreadable()
    yield found()
    yield commands()
    yield options()
    yield arguments()
