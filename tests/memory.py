#!/usr/bin/env python3
"""Compares the programs' memory for hostile mailmaps with that for plain mailmaps of the same size.

    memory.py MAILMAP_CHECK MAILMAP_VERIFY MAILMAP_SHORTLOG

The ratio of the peaks has to stay below a bound. A peak is the largest resident set of the process, as bench/measure.c
measures it, so other work on the machine doesn't matter.
"""
import resource
import sys
from collections.abc import Iterator
from dataclasses import dataclass
from pathlib import Path

sys.dont_write_bytecode = True
sys.path.append(str(Path(__file__).resolve().parent.parent / "bench"))
from measuring import Failed, built, mebibytes, run, scratch, succeeded

CHECK, COMPACT = "mailmap_check", "mailmap_check --compact"
VERIFY, PRUNE = "mailmap_verify", "mailmap_verify --prune"
BESIDE = "mailmap_verify --contacts -"
NAMES, EMAILS = "mailmap_shortlog -n", "mailmap_shortlog -e"
# fail at this limit, not at the memory of the machine
ADDRESSES = 4 << 30
MEGABYTE = 1_000_000


@dataclass(frozen=True)
class Trap:
    """Hostile files, plain ones to compare them with, the programs to run, and the allowed ratio of the peaks. All
    programs read the contacts from standard input.
    """

    name: str
    files: list[bytes]
    plain: list[bytes]
    programs: list[str]
    bound: float
    contacts: bytes = b""


def comment(size: int) -> bytes:
    """A comment line. It shows what reading this many bytes takes."""
    return b"#" * (size - 1) + b"\n"


def short_lines(text: bytes, size: int = 8 * MEGABYTE) -> bytes:
    return text * (size // len(text))


def mapped_to_a(long_line: bytes) -> bytes:
    """A long line, and five thousand short ones that map to the email `a`."""
    return long_line + b"".join(b"x<a><%d>\n" % number for number in range(5_000))


def entries_in_files(count: int, length: int) -> list[bytes]:
    """Files of many lines, with the emails in mixed order. The number of lines must not be divisible by 7919."""
    lines = count * length
    emails = [number * 7_919 % lines for number in range(lines)]
    entries = [b"Jane %07d <j%07d@example.com>\n" % (email, email) for email in emails]
    return [b"".join(entries[start : start + length]) for start in range(0, lines, length)]


def long_texts() -> bytes:
    """Ten names of 4 MB, which is more than the entries of a batch take."""
    return b"".join(b"%d%s <%d@x>\n" % (number, b"t" * 4_000_000, number) for number in range(10))


def long_text_traps() -> Iterator[Trap]:
    """Contacts that one line maps to a long name or email. With the long email, the output has it for each contact. git
    reads the line in another way, as it does the short one beside it, so each contact has a finding in both.
    """
    text = b"L" * 64_000
    contacts = b"".join(b"%d <a>\n" % number for number in range(10_000))
    for what, form in [("name", b"%b <a>\n"), ("email", b"<%b> <a>\n")]:
        line, short = form % text, form % b"b\0"
        plain = short + comment(len(line) - len(short))
        yield Trap(f"a long {what} of many contacts", [line], [plain], [NAMES, EMAILS, BESIDE], 1.1, contacts)


def traps() -> Iterator[Trap]:
    yield from long_text_traps()
    # Each finding repeats the long name, so the whole report has 300 MB. It isn't held in memory: only the mailmap is,
    # and a few hundred bytes per line. In the plain mailmap no line maps to the long name.
    name = b"L" * 60_000
    yield Trap(
        "a long name that many lines map to",
        [mapped_to_a(name + b" <a>\n")],
        [mapped_to_a(name + b" <b>\n")],
        [VERIFY],
        1.5,
    )
    # Twice the size of the file: a comment of the same size takes the file once, and with --prune twice. No line is
    # stored separately, and neither is the finding for a faulty one, which has 40 bytes.
    for what, line in [("blank lines", b"\n"), ("faulty lines", b"x\n")]:
        text = short_lines(line)
        plain = comment(len(text))
        yield Trap(what, [text], [plain], [CHECK, COMPACT, VERIFY], 2)
        yield Trap(what, [text], [plain], [PRUNE], 1.25)
    # Each file is a buffer of its own, and its name is on the command line.
    for length in [16, 17]:
        files = entries_in_files(8_000, length)
        yield Trap(f"8,000 files of {length} lines", files, [b"".join(files)], [CHECK, COMPACT], 1.3)
    # The name isn't copied again for each line that gives the email another new one.
    yield Trap(
        "a long name that many lines leave as it is",
        [name + b" <a>\n" + b"<b> <a>\n" * 5_000],
        [name + b" <a>\n" + comment(8 * 5_000)],
        [CHECK, COMPACT],
        2,
    )
    # The plain mailmap has its texts in the file and in the snapshot. The repeats take some 120 bytes each until they
    # are combined.
    repeats = short_lines(b"a<b>\n", 3 * MEGABYTE)
    yield Trap(
        "long texts, then repeats",
        [long_texts() + repeats],
        [long_texts() + comment(len(repeats))],
        [CHECK, COMPACT],
        2.5,
    )


class Programs:
    """The programs, the measuring program, and a directory for the mailmaps and the contacts."""

    def __init__(self, check: str, verify: str, shortlog: str, folder: str) -> None:
        check, verify, shortlog = (str(Path(program).resolve()) for program in (check, verify, shortlog))
        self.words = {
            CHECK: [check],
            COMPACT: [check, "--compact"],
            VERIFY: [verify],
            PRUNE: [verify, "--prune"],
            BESIDE: [verify, "--contacts", "-"],
            NAMES: [shortlog, "-n"],
            EMAILS: [shortlog, "-e"],
        }
        self.folder = Path(folder)
        self.measure = built("measure", folder, "-static")

    def peak(self, program: str, files: list[bytes], contacts: bytes) -> int:
        """File names are short, because thousands of them are on one command line."""
        names = [str(number) for number in range(len(files))]
        for name, text in zip(names, files):
            (self.folder / name).write_bytes(text)
        given = self.folder / "contacts"
        given.write_bytes(contacts)
        ended = run(self.measure, [*self.words[program], *names], str(given), cwd=self.folder)
        for name in names:
            (self.folder / name).unlink()
        if not succeeded(self.words[program][0], ended) or ended.complaints:
            raise Failed(f"{program}: status {ended.status} {ended.complaints.strip()}")
        return ended.peak


def main() -> None:
    runs = failed = 0
    resource.setrlimit(resource.RLIMIT_AS, (ADDRESSES, ADDRESSES))
    with scratch() as folder:
        programs = Programs(*sys.argv[1:], folder)
        for trap in traps():
            for program in trap.programs:
                plain, peak = (programs.peak(program, files, trap.contacts) for files in (trap.plain, trap.files))
                runs += 1
                if peak > trap.bound * plain:
                    failed += 1
                    print(f"{trap.name}, {program}: {mebibytes(peak)}, and not {trap.bound} times {mebibytes(plain)}")
    print(f"memory: {runs - failed} passed, {failed} failed")
    sys.exit(1 if failed else 0)


try:
    main()
except Failed as failure:
    sys.exit(f"memory: {failure}")
