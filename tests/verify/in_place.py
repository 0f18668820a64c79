"""Checks `mailmap_verify --prune --in-place`: which files are replaced, by what, and what is left after a failure."""
import os
import resource
import shutil
import signal
import stat
import subprocess
from pathlib import Path

from runs import run, wants

IN_PLACE = ["--prune", "--in-place"]
TWICE, ONCE = b"# team\nN <a@x>\nM <m@y>\nN <a@x>\n", b"# team\nM <m@y>\nN <a@x>\n"
OTHERWISE = b"N < a@x >\n"


def in_place_case(program, what, mailmap, ended, pruned, said):
    """A file has what is printed without `--in-place`, or if git reads it otherwise, what it had."""
    Path("m1").write_bytes(mailmap)
    before = os.stat("m1")
    wants(f"{what}, in place", run(program, [*IN_PLACE, "m1"]), ended, b"", said)
    wants_file(f"{what}, in place", "m1", mailmap if ended else pruned)
    if ended or pruned == mailmap:
        wants_same(f"{what}, not touched", "m1", before)
    Path("m1").write_bytes(mailmap)


def agrees(what, has, want):
    wants(what, (0, repr(has).encode(), b""), 0, repr(want).encode())


def wants_file(what, name, text):
    agrees(f"{what}: {name}", Path(name).read_bytes(), text)
    agrees(f"{what}: a file beside {name}", os.path.exists(os.path.realpath(name) + ".lock"), False)


def wants_same(what, name, before):
    """The file wasn't written, and no other one is in its place."""
    after = os.stat(name)
    agrees(what, (after.st_ino, after.st_ctime_ns), (before.st_ino, before.st_ctime_ns))


def failed(path, why):
    return b"mailmap_verify: " + path + b": cannot be replaced: " + why + b"\n"


def in_place(program):
    folder = Path("in_place")
    folder.mkdir()
    os.chdir(folder)
    several(program)
    kept(program)
    links(program)
    beside(program)
    without_room(program)
    without_permission(program)
    os.chdir("..")


def several(program):
    """Each file is pruned by itself. None is if a file can't be read, or git reads a line of one otherwise."""
    files = {"a": TWICE, "b": b"N <a@x>\n", "c": TWICE * 2, "d": b""}

    def make(**more):
        for name, text in {**files, **more}.items():
            Path(name).write_bytes(text)
        return {name: os.stat(name) for name in files}
    before = make()
    wants("several files", run(program, [*IN_PLACE, *files]), 0, b"")
    pruned = {"a": ONCE, "b": b"N <a@x>\n", "c": b"# team\n# team\nM <m@y>\nN <a@x>\n", "d": b""}
    for name, text in pruned.items():
        wants_file("several files", name, text)
    for name in "b", "d":
        wants_same(f"{name} is not touched", name, before[name])
    make()
    wants("one file twice", run(program, [*IN_PLACE, "a", "a"]), 0, b"")
    wants_file("one file twice", "a", ONCE)
    for words, said in [
        (["a", "no", "c"], b"mailmap_verify: no: No such file or directory\n"),
        (["a", "e", "c"], b"mailmap_verify: git reads e:1 otherwise\n"),
        (["a", "/dev/null", "e"], b"mailmap_verify: git reads e:1 otherwise\n"),
    ]:
        before = make(e=OTHERWISE)
        wants(f"none of {words}", run(program, [*IN_PLACE, *words]), 2, b"", said)
        for name in files:
            wants_file(f"none of {words}", name, files[name])
            wants_same(f"none of {words}: {name}", name, before[name])
    Path(".mailmap").write_bytes(TWICE)
    for words in ["--in-place", "--prune"], ["--prune", "--in-place", "--"], ["--prune", "--in-place", "--in-place"]:
        Path(".mailmap").write_bytes(TWICE)
        wants(f"by default: {words}", run(program, words), 0, b"")
        wants_file(f"by default: {words}", ".mailmap", ONCE)
    Path("-").write_bytes(TWICE)
    wants("a file -", run(program, [*IN_PLACE, "-"], b"plain"), 0, b"")
    wants_file("a file -", "-", ONCE)


def kept(program):
    """The permissions stay, and a program that has the old file open still reads that."""
    for mode in 0o600, 0o640, 0o644, 0o666, 0o755, 0o4750:
        Path("a").write_bytes(TWICE)
        os.chmod("a", mode)
        old = open("a", "rb")
        wants(f"the mode {mode:o}", run(program, [*IN_PLACE, "a"]), 0, b"")
        wants_file(f"the mode {mode:o}", "a", ONCE)
        agrees(f"the mode {mode:o} stays", (stat.S_IMODE(os.stat("a").st_mode), old.read()), (mode, TWICE))
        old.close()
        os.chmod("a", 0o644)
    if os.geteuid():
        print("skipped: whether root keeps the owner of a file, since this isn't root")
        return
    os.chown("a", 12345, 23456)
    Path("a").write_bytes(TWICE)
    wants("the owner", run(program, [*IN_PLACE, "a"]), 0, b"")
    agrees("the owner stays", (os.stat("a").st_uid, os.stat("a").st_gid), (12345, 23456))
    Path("a").unlink()


def links(program):
    """A symbolic link stays, and the file that it leads to is replaced."""
    Path("low").mkdir()
    Path("low/team").write_bytes(TWICE)
    os.symlink("low/team", "link")
    os.symlink("link", "chain")
    os.symlink("nowhere", "loose")
    wants("a link", run(program, [*IN_PLACE, "chain"]), 0, b"")
    for name in "chain", "link":
        agrees(f"a link stays: {name}", os.path.islink(name), True)
    wants_file("a link", "chain", ONCE)
    agrees("a link to a file", os.listdir("low"), ["team"])
    wants("a loose link", run(program, [*IN_PLACE, "loose"]), 2, b"", b"mailmap_verify: loose: No such file or directory\n")
    os.mkfifo("pipe")
    with subprocess.Popen(["sh", "-c", "cat > pipe"], stdin=subprocess.PIPE) as writer:
        writer.stdin.write(TWICE)
        writer.stdin.close()
        wants("a pipe", run(program, [*IN_PLACE, "pipe"]), 2, b"", failed(b"pipe", b"Not a regular file"))
    agrees("a pipe stays", stat.S_ISFIFO(os.stat("pipe").st_mode), True)


def beside(program):
    """The file that is written first isn't one that was there. Files before the failure are replaced."""
    for name in "a", "b", "c":
        Path(name).write_bytes(TWICE)
    Path("b.lock").write_bytes(b"precious")
    said = failed(b"b", b"the file of its name and .lock exists")
    wants("a file beside", run(program, [*IN_PLACE, "a", "b", "c"]), 2, b"", said)
    for name, text in ("a", ONCE), ("b", TWICE), ("b.lock", b"precious"), ("c", TWICE):
        agrees(f"a file beside: {name}", Path(name).read_bytes(), text)
    Path("b.lock").unlink()
    os.symlink("c", "b.lock")
    wants("a link beside", run(program, [*IN_PLACE, "b"]), 2, b"", said)
    agrees("a link beside", (Path("b").read_bytes(), Path("c").read_bytes()), (TWICE, TWICE))
    Path("b.lock").unlink()


def without_room(program):
    """If there is no room the file stays, and nothing is left beside it; after a signal the file stays, too."""
    long = b"# " + b"x" * 100_000 + b"\n" + TWICE

    def limited(ignored):
        def limit():
            resource.setrlimit(resource.RLIMIT_FSIZE, (50_000, 50_000))
            signal.signal(signal.SIGXFSZ, signal.SIG_IGN if ignored else signal.SIG_DFL)
            resource.setrlimit(resource.RLIMIT_CORE, (0, 0))
        return limit

    for ignored, status, said in (True, 2, failed(b"a", b"File too large")), (False, -signal.SIGXFSZ, b""):
        Path("a").write_bytes(long)
        before = os.stat("a")
        done = subprocess.run([program, *IN_PLACE, "a"], capture_output=True, timeout=60, preexec_fn=limited(ignored))
        wants("without room", (done.returncode, done.stdout, done.stderr), status, b"", said)
        agrees("without room: the file", Path("a").read_bytes(), long)
        wants_same("without room: the same file", "a", before)
        agrees("without room: beside it", os.path.exists("a.lock"), not ignored)
    Path("a.lock").unlink()


def without_permission(program):
    """A file that can't be written isn't replaced, nor is one in a folder that can't be."""
    def as_nobody():
        if os.geteuid() == 0:
            os.setgid(65534)
            os.setuid(65534)

    Path("closed").mkdir()
    Path("closed/a").write_bytes(TWICE)
    Path("open").mkdir()
    Path("open/a").write_bytes(TWICE)
    os.chmod("closed/a", 0o666)
    os.chmod("closed", 0o555)
    os.chmod("open", 0o777)
    os.chmod("open/a", 0o444)
    for folder in Path.cwd(), Path.cwd().parent:
        os.chmod(folder, 0o755)
    shutil.copy(program, "program")
    os.chmod("program", 0o755)
    for name in "closed/a", "open/a":
        done = subprocess.run(["./program", *IN_PLACE, name], capture_output=True, timeout=60, preexec_fn=as_nobody)
        said = failed(name.encode(), b"Permission denied")
        wants(f"without permission: {name}", (done.returncode, done.stdout, done.stderr), 2, b"", said)
        wants_file(f"without permission: {name}", name, TWICE)
    os.chmod("closed", 0o755)
