"""Many contacts that differ, many lines, and a last line of one byte. A rule makes each line, and its answer.

Contacts are numbered, and the remainder of a number by 4 says which kind of line maps it: one for its email, one that
gives only a name, one for its name and email, or none. So git and the programs answer all of them alike.
"""
import subprocess
from collections import Counter
from pathlib import Path

from repository import QUIET, has_git
from runs import wants
from ways import CHECK, SHORTLOG, VERIFY, run

DIFFERENT = 200_000
ROUNDS = 3
# mapped by lines that no contact needs
UNNEEDED = 1_000


def made(number):
    """A contact, its answer, and the line that maps it, or None."""
    match number % 4:
        case 0:
            answer = b"P%03d <p%03d@y>" % (number % 1000, number % 1000)
            return b"j%06d <J%06d@X>" % (number, number), answer, answer + b" <j%06d@x>" % number
        case 1:
            answer = b"N%06d <j%06d@x>" % (number, number)
            return b"j%06d <j%06d@x>" % (number, number), answer, answer
        case 2:
            answer = b"Q%06d <q%06d@y>" % (number, number)
            return b"J%06d <J%06d@x>" % (number, number), answer, answer + b" j%06d <j%06d@x>" % (number, number)
    # two contacts share a name
    contact = b"Twin%06d <j%06d@x>" % (number // 8, number)
    return contact, contact, None


CONTACTS, ANSWERS, MAPPINGS = zip(*map(made, range(DIFFERENT + UNNEEDED)))
MAPPED = [number for number, mapping in enumerate(MAPPINGS) if mapping]
LINE_OF = {number: line for line, number in enumerate(MAPPED, 1)}
# Each contact comes in each round: mixed, in the other direction, and sorted.
MIXED = [number * 7_919 % DIFFERENT for number in range(DIFFERENT)]
COMING = [*MIXED, *reversed(MIXED), *range(DIFFERENT)]
LAST = b"x"
NOTE = b"contacts:%d: note: %b (3) has the name of %b (3) [same-name]"
SKIPPED = b"mailmap_shortlog: lines without a contact: %d; the first is line %d\n"


def joined(lines):
    return b"".join(line + b"\n" for line in lines)


def explained(number):
    line = LINE_OF.get(number)
    if line is None:
        return CONTACTS[number] + b" is not mapped"
    return b"%b is %b by map:%d" % (CONTACTS[number], ANSWERS[number], line)


def alike():
    """The second of two contacts with one name is reported beside the first one. All come equally often."""
    first = {}
    for line, number in enumerate(MIXED, 1):
        if number % 4 == 3:
            other = first.setdefault(number // 8, number)
            if other != number:
                yield NOTE % (line, ANSWERS[number], ANSWERS[other])


def suggested():
    """Two contacts with one name may be one person's. They come equally often, so the first one gives the line."""
    twins = {}
    for number in MIXED:
        if number % 4 == 3:
            twins.setdefault(number // 8, []).append(number)
    for first, other in twins.values():
        yield b"# 3 %b\n# 3 %b" % (ANSWERS[first], ANSWERS[other])
        yield b"#?%b <j%06d@x>\n" % (ANSWERS[first], other)


def counted(words, texts):
    counts = Counter(texts)
    order = sorted(counts, key=lambda text: (-counts[text] if "-n" in words else 0, text))
    return b"".join(b"%6d\t%b\n" % (counts[text], text) for text in order)


def many_contacts():
    mailmap = joined(MAPPINGS[number] for number in MAPPED)
    text = joined(CONTACTS[number] for number in COMING) + LAST
    answers = joined(ANSWERS[number] for number in COMING) + LAST + b"\n"
    unneeded = b"map:%d: warning: no contact needs it [unneeded]"
    found = [unneeded % LINE_OF[number] for number in MAPPED if number >= DIFFERENT]
    found += [*alike(), b"contacts:%d: error: no contact [no-contact]" % (len(COMING) + 1)]
    Path("map").write_bytes(mailmap)
    Path("contacts").write_bytes(text)
    for program, words, given, status, printed in [
        (CHECK, ["map"], text, 0, answers),
        (CHECK, [], mailmap + b"--\n" + text, 0, answers),
        (VERIFY, ["map"], b"", 0, b""),
        (VERIFY, ["--explain", "map"], text, 0, joined(map(explained, COMING)) + LAST + b" is no contact\n"),
        (VERIFY, ["--contacts", "contacts", "map"], b"", 1, joined(found)),
        (VERIFY, ["--suggest", "-", "map"], text, 0, joined(suggested())),
    ]:
        wants(f"many contacts, {program} {words}", run(program, words, input=given), status, printed)
    names = [answer.split(b" <")[0] for answer in ANSWERS]
    for words in [], ["-n", "-e"]:
        texts = ANSWERS if "-e" in words else names
        wants(f"many contacts, mailmap_shortlog {words}", run(SHORTLOG, [*words, "map"], input=text), 0,
              counted(words, (texts[number] for number in COMING)), SKIPPED % (1, len(COMING) + 1))
    return (f"{len(COMING):,} lines of {DIFFERENT:,} contacts that differ, and a last line of one byte: "
            "each program prints what follows from how the lines were made")


def git(words, stdin):
    return subprocess.run(["git", "-c", "mailmap.file=map", *words], input=stdin, capture_output=True, check=True,
                          env=QUIET).stdout


def as_git():
    """git gets the contacts in the order of their answers, since it sorts as it reads."""
    if not has_git("many contacts beside git"):
        return
    subprocess.run(["git", "init", "-q"], check=True, env=QUIET)
    text = joined(CONTACTS[number] for number in MIXED)
    wants("git check-mailmap", run(CHECK, ["map"], input=text), 0, git(["check-mailmap", "--stdin"], text))
    authors = joined(b"Author: %b\n\nsubject" % CONTACTS[number] for number in sorted(MIXED, key=ANSWERS.__getitem__))
    for words in ["-s"], ["-s", "-e"], ["-s", "-n"], ["-s", "-n", "-e"]:
        printed = git(["shortlog", *words], authors)
        wants(f"git shortlog {words}", run(SHORTLOG, [*words, "map"], input=text), 0, printed)
    yield f"{DIFFERENT:,} contacts that differ: git check-mailmap and git shortlog print the same"


def many_lines():
    """Of the lines for an email, only the last one has an effect."""
    numbers, before = range(DIFFERENT), (ROUNDS - 1) * DIFFERENT
    rounds = [[b"N%d %06d <n@y> <m%06d@x>" % (turn, number, number) for number in numbers] for turn in range(ROUNDS)]
    mailmap, kept = b"".join(map(joined, rounds)) + LAST, joined(rounds[-1])
    compact = joined(b" " + line for line in rounds[-1])
    no_effect = b"map:%d: warning: no effect: map:%d says something else [no-effect]"
    found = joined(no_effect % (line + 1, before + line % DIFFERENT + 1) for line in range(before))
    found += b"map:%d: error: no email in brackets [no-email]\n" % (ROUNDS * DIFFERENT + 1)
    contacts = joined(b"<M%06d@x>" % number for number in numbers)
    answers = [b"N%d %06d <n@y>" % (ROUNDS - 1, number) for number in numbers]
    explained = joined(b"<M%06d@x> is %b by map:%d" % (number, answers[number], before + number + 1)
                       for number in numbers)
    # The answers share an email, and their names have no word in common. The last line has no line feed.
    several = b"\n# several people may share n@y\n" + joined(b"# 1 " + answer for answer in answers) + b"\n"
    Path("map").write_bytes(mailmap)
    for program, words, given, status, printed in [
        (CHECK, ["--compact", "map"], b"", 0, compact),
        (CHECK, ["--compact"], mailmap, 0, compact),
        (CHECK, ["map"], contacts, 0, joined(answers)),
        (VERIFY, ["map"], b"", 1, found),
        (VERIFY, ["--prune", "map"], b"", 0, kept + LAST),
        (VERIFY, ["--explain", "map"], contacts, 0, explained),
        (VERIFY, ["--suggest", "-", "map"], contacts, 0, several),
        (SHORTLOG, ["-e", "map"], contacts, 0, joined(b"     1\t" + answer for answer in answers)),
    ]:
        wants(f"many lines, {program} {words}", run(program, words, input=given), status, printed)
    return (f"mailmaps of {ROUNDS * DIFFERENT:,} lines, and a last line of one byte: "
            "each program prints what follows from how the lines were made")


def nothing_of_many():
    """Many lines that leave nothing to write."""
    lines = ROUNDS * DIFFERENT
    for program, words, text in [
        (CHECK, ["--compact"], b"# Jane <jane@x>\n" * lines),
        (VERIFY, ["-"], b"# Jane <jane@x>\n" * lines),
        (VERIFY, ["--explain", "map"], b" \r\n" * lines),
        (VERIFY, ["--contacts", "-"], b"Jane <jane@x>\n" * lines),
        (VERIFY, ["--suggest", "-"], b"Jane <jane@x>\n" * lines),
        (SHORTLOG, ["-ne", "map"], b" \t\n" * lines),
    ]:
        wants(f"{lines} lines and no output, {program} {words}", run(program, words, input=text), 0, b"")
    wants(f"{lines} lines without a contact", run(SHORTLOG, ["-ne", "map"], input=b"Jane jane@x\n" * lines), 0, b"",
          SKIPPED % (lines, 1))
    return f"{lines:,} lines that leave nothing to write: no program prints anything"


def shows():
    """What each group of tests shows, when it has run."""
    yield many_contacts()
    yield from as_git()
    yield many_lines()
    yield nothing_of_many()
