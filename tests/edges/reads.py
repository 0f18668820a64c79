"""Standard input that comes byte by byte, ends anywhere or fails, and standard output that fails."""
import os
import subprocess
import threading
from pathlib import Path

from runs import wants
from suggest import suggest
from ways import CHECK, CONTACTS, MAILMAP, SHORTLOG, VERIFY, VERSION, WAYS, compact, run, said, unread

# The programs read parts of this many bytes.
PART = 16_384
LAST_BYTES = b"\n\r\t #<>-x\0\x7f\xff"


def fed(way, text):
    """Runs a program whose reads get one byte each: in a pipe of packets, a read gets what one write wrote."""
    reading, writing = os.pipe2(os.O_DIRECT | os.O_CLOEXEC)

    def feed():
        try:
            for byte in text:
                os.write(writing, bytes([byte]))
        except BrokenPipeError:
            pass  # the program has ended, and its output will show why
        os.close(writing)

    feeding = threading.Thread(target=feed)
    with subprocess.Popen([way.program, *way.words], stdin=reading, stdout=subprocess.PIPE,
                          stderr=subprocess.PIPE) as program:
        os.close(reading)
        feeding.start()
        printed, message = program.communicate(timeout=120)
    feeding.join()
    return program.returncode, printed, message


def byte_by_byte():
    lines = b"jane <JANE@x>\njoe <Joe@x>\r\n\nplain\r\n" + b"y" * 5_000 + b"\n"
    text = b"Joseph <joe@x>\n--\n" + lines * 20 + b"j"
    for way in WAYS:
        wants(f"byte by byte, {way}", fed(way, text), *way.wanted(text))
    return f"{len(text):,} bytes that come one by one, in {len(WAYS)} ways: the model has the same output"


def last_bytes():
    """A last line of one byte, alone and behind lines that end about where a read ends."""
    count = 0
    for before in 0, PART - 1, PART, 4 * PART:
        start = b"Jane <JANE@x>\n" + b"#" * (before - 15) + b"\n" if before else b""
        for last in LAST_BYTES:
            text = start + bytes([last])
            Path("text").write_bytes(text)
            for way in WAYS:
                with open("text", "rb") as reading:
                    wants(f"byte {last} after {before} bytes, {way}", run(way.program, way.words, stdin=reading),
                          *way.wanted(text))
            count += 1
    return f"{count} inputs that end in a line of one byte, in {len(WAYS)} ways: the model has the same output"


def terminal():
    """At a terminal, the end-of-file character within a line ends a read, and at the start of a line the input."""
    typed = b"jane <JANE@x>\njoe\x04 <joe@x>\n\x04more\n"
    text = b"jane <JANE@x>\njoe <joe@x>\n"
    for way in WAYS:
        ours, theirs = os.openpty()
        os.write(ours, typed)
        wants(f"a terminal, {way}", run(way.program, way.words, stdin=theirs), *way.noted(text))
        os.close(theirs)
        os.close(ours)
    return f"a terminal, in {len(WAYS)} ways: what is read is said, and all is read to its end, and nothing after it"


def without_input():
    """A standard input that is closed, or only for writing."""
    for how in "<&-", "0> /dev/null":
        for way in WAYS:
            words = ["-c", f'exec "$@" {how}', "sh", way.program, *way.words]
            wants(f"{way} {how}", run("sh", words), 2, b"", unread(way.program, b"cannot be read"))
        for program, words, status, printed in [
            (CHECK, ["--compact", "mailmap"], 0, compact([MAILMAP])),
            (VERIFY, ["mailmap"], 0, b""),
            (VERIFY, ["--prune", "mailmap"], 0, MAILMAP),
            (VERIFY, ["--contacts", "contacts", "mailmap"], 1,
             b"contacts:1: warning: git answers Jane Doe <JANE@x> [git-answers]\n"),
            (VERIFY, ["--suggest", "contacts", "mailmap"], 0, suggest([MAILMAP], CONTACTS)),
            (SHORTLOG, ["--version"], 0, b"mailmap_shortlog " + VERSION),
        ]:
            wants(f"{program} {words} {how}", run("sh", ["-c", f'exec "$@" {how}', "sh", program, *words]),
                  status, printed)
    return "a standard input that is closed or only for writing: a failure if it has to be read, and else none"


def would_block():
    """A pipe that can't be waited for fails when it is empty. Only lines that had ended can be answered before that."""
    for way in WAYS:
        reading, writing = os.pipe2(os.O_NONBLOCK)
        os.write(writing, b"jane <JANE@x>\nplain\njo")
        printed = way.wanted(b"jane <JANE@x>\nplain\n")[1] if way.streams else b""
        wants(f"an input that would block, {way}", run(way.program, way.words, stdin=reading), 2, printed,
              unread(way.program, b"cannot be read"))
        os.close(reading)
        os.close(writing)
    return f"an input that would block, in {len(WAYS)} ways: a failure, after the answers to whole lines"


def read_all(reading):
    with open(reading, "rb", closefd=False) as pipe:
        return pipe.read()


def broken_output():
    """Each output is longer than a pipe holds. One pipe has no reader, and the other one can't be waited for."""
    plain = b"".join(b"no contact %d\n" % number for number in range(6_000))
    different = b"".join(b"%050d <%d@x>\n" % (number, number) for number in range(2_000))
    alike = b"".join(b"%050d <%d@x>\n" % (number, number // 2) for number in range(800))
    for way in WAYS:
        text = different if way.program == SHORTLOG or "--compact" in way.words else plain
        text = alike if "--suggest" in way.words else text
        Path("text").write_bytes(text)
        whole, message = way.wanted(text)[1], said(way.program, b"cannot write output")
        for blocks in False, True:
            reading, writing = os.pipe2(os.O_NONBLOCK)
            if not blocks:
                os.close(reading)
            with open("text", "rb") as contacts:
                status, _, failure = run(way.program, way.words, stdin=contacts, stdout=writing)
            os.close(writing)
            printed = read_all(reading) if blocks else b""
            if blocks:
                os.close(reading)
            told = message if blocks or way.program == CHECK else b""
            wants(f"a pipe {'that is full' if blocks else 'without a reader'}, {way}", (status, printed, failure),
                  2, whole[:len(printed)], told)
    return (f"a pipe that no one reads, in {len(WAYS)} ways: a failure, of which only mailmap_check speaks if there is "
            "no reader, and what was written is the beginning")


def nothing_to_write():
    """Where nothing is to be written, an output that could not be written is no failure."""
    Path("empty").write_bytes(b"")
    skipped = said(SHORTLOG, b"lines without a contact: 1; the first is line 1")
    for program, words, text, message in [
        (CHECK, [], b"", b""),
        (CHECK, [], MAILMAP + b"--\n", b""),
        (CHECK, ["mailmap"], b"", b""),
        (CHECK, ["--compact"], b"# Jane <jane@x>\nplain\n", b""),
        (CHECK, ["--compact", "empty"], b"", b""),
        (VERIFY, ["-"], MAILMAP, b""),
        (VERIFY, ["--prune", "empty"], b"", b""),
        (VERIFY, ["--prune", "-"], b"", b""),
        (VERIFY, ["--explain", "mailmap"], b"\n \t\r\n", b""),
        (VERIFY, ["--contacts", "-", "empty"], b"\n" + CONTACTS, b""),
        (VERIFY, ["--contacts", "-", "-S", "error", "empty"], b"jane <a@x>\nJane <a@x>\n", b""),
        (VERIFY, ["--suggest", "-", "empty"], b"plain\n" + CONTACTS, b""),
        (VERIFY, ["-e", "no-email", "-"], b"plain\n", b""),
        (SHORTLOG, ["mailmap"], b"\n \t\n", b""),
        (SHORTLOG, ["mailmap"], b"plain\n\n", skipped),
    ]:
        for full in "> /dev/full", ">&-":
            wants(f"nothing to write, {program} {words} {full}",
                  run("sh", ["-c", f'exec "$@" {full}', "sh", program, *words], input=text), 0, b"", message)
    return "an output that can't be written, and nothing to write: no failure"


def shows():
    """What each group of tests shows, when it has run."""
    yield byte_by_byte()
    yield last_bytes()
    yield terminal()
    yield without_input()
    yield would_block()
    yield broken_output()
    yield nothing_to_write()
