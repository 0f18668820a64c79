"""Large and lopsided mailmaps, with their findings.

The findings follow from their definitions, for any number of lines; a comment at each mailmap tells why. For small
numbers, the model that answered cases.jsonl has the same.
"""

MEGABYTE = 1 << 20
MANY = 100_000
# the longest text that a finding shows whole
LIMIT = 256

# The output of `--prune` if git reads the first line in another way.
REFUSED = None


# what follows an ignored text that looks like a name
CURE = b" (an old name needs an email after it)"


def error(line, what, kind):
    return b"m1:%d: error: %s [%s]\n" % (line, what, kind)


def ignored_text(line, what):
    return b"m1:%d: warning: ignored text: %s [ignored-text]\n" % (line, what)


def git_reads(line, what):
    return b"m1:%d: warning: git reads %s [git-reads]\n" % (line, what)


def no_effect(line, beside, what=b"something else"):
    return b"m1:%d: warning: no effect: m1:%d says %s [no-effect]\n" % (line, beside, what)


def shortened(text):
    """An ASCII text as a finding shows it."""
    return text if len(text) <= LIMIT else text[:LIMIT] + b".."


def itself_mapped(line, contact, to, *by):
    by = b", ".join(b"m1:%d" % one for one in by)
    return b"m1:%d: warning: %s is itself mapped, to %s by %s [itself-mapped]\n" % (line, contact, to, by)


def long_lines(size):
    """One line, without a line feed unless one is written."""
    long = b"x" * size
    yield "a long line without an email", long, error(1, b"no email in brackets", b"no-email"), long
    opened = b"<" * size
    yield "a long line that opens brackets", opened, error(1, b"the first '<' has no '>'", b"unclosed-email"), opened
    yield "a long line of spaces", b" " * size, b"", b" " * size
    yield "a long comment", b"#" + long, b"", b"#" + long
    # git reads parts of 1,023 bytes. The last one starts with the rest of the name, and those before it have no email.
    name = long + b" <a@x>"
    rest = long[len(name) // 1023 * 1023:]
    yield "a long name", name, git_reads(1, b"it as " + shortened(rest) + b" <a@x>"), REFUSED
    # The first part has an entry, whose second email isn't closed.
    email = b"N <a@x> <" + long + b">\n"
    yield "a long email", email, git_reads(1, b"it as N <a@x>"), REFUSED
    # Each part has an entry. Here the line has two emails, and the rest is ignored.
    part = b"N <a@x>" + b"y" * (1023 - 7)
    parts = part * (size // 1023)
    found = ignored_text(1, shortened(parts[1023 + 7:]))
    found += git_reads(1, b"it as %d lines" % (size // 1023))
    yield "an entry in each part of a long line", parts, found, REFUSED
    after = b"N <a@x> " + long + b"  "
    yield "much after an email", after, ignored_text(1, shortened(long) + CURE), after
    open_second = b"N <a@x> <" + long
    found = error(1, b"the second '<' has no '>'", b"unclosed-second-email")
    yield "a long second email without an end", open_second, found, open_second


def many_lines(count):
    def lines(text):
        return [text % number for number in range(1, count + 1)]

    # Any one of equal lines is enough, so all but the last are dropped.
    equal = b"Jane Doe <jane@x> <jd@x>\n"
    yield "equal lines", equal * count, b"".join(no_effect(k, count, b"the same") for k in range(1, count)), equal

    # Each line overrides the name of the one before it.
    names = lines(b"N%d <a@x>\n")
    yield "one email, different names", b"".join(names), b"".join(no_effect(k, count) for k in range(1, count)), names[-1]

    # The first line decides the spelling of the email, so it is kept, although its name is overridden. The last line
    # spells the email in another way.
    names[0] = b"N1 <A@X>\n"
    last = b"N%d" % count
    found = itself_mapped(1, b"N1 <A@X>", last + b" <A@X>", count)
    found += b"".join(no_effect(k, count) for k in range(2, count))
    found += itself_mapped(count, last + b" <a@x>", last + b" <A@X>", 1, count)
    yield "one email, different names and spellings", b"".join(names), found, names[0] + names[-1]

    # Each line has another old name.
    old_names = b"".join(lines(b"Jane <jane@x> J%d <jd@x>\n"))
    yield "one email, different old names", old_names, b"", old_names

    # A comment, a blank line or a fault between dropped lines is kept.
    between = b"# c\n" + equal + b"\r\nplain\n"
    def no_email(line):
        return error(line, b"no email in brackets", b"no-email")

    found = b"".join(no_effect(4 * k + 2, 4 * count - 2, b"the same") + no_email(4 * k + 4) for k in range(count - 1))
    found += no_email(4 * count)
    pruned = b"# c\n\r\nplain\n" * (count - 1) + between
    yield "equal lines between others", between * count, found, pruned

    # The last line maps the email that all others map to. Its new email is cut in each finding.
    long = b"x" * 1000
    to_one = b"".join(lines(b"N <one@x> <e%d@x>\n")) + b"<%b> <one@x>\n" % long
    shown = b"N <%b>" % shortened(long)
    found = b"".join(itself_mapped(k, b"N <one@x>", shown, count + 1) for k in range(1, count + 1))
    yield "a long email in each finding", to_one, found, to_one

    # Each contact is mapped to another one by the next line, except the last.
    chain = lines(b"N <e%d@x> <e")
    chain = b"".join(text + b"%d@x>\n" % (k - 1) for k, text in enumerate(chain, 1))
    found = b"".join(itself_mapped(k, b"N <e%d@x>" % k, b"N <e%d@x>" % (k + 1), k + 1) for k in range(1, count))
    yield "a chain of emails", chain, found, chain


def small_ones():
    # Bytes that aren't UTF-8 are shown as they are.
    mailmap = b"\xff <a@x> \xfe\xfd\nJ\xe4ne <\xe9@x> <b@x>\nK <\xe9@x>\n"
    found = ignored_text(1, b"\xfe\xfd" + CURE) + itself_mapped(2, b"J\xe4ne <\xe9@x>", b"K <\xe9@x>", 3)
    yield "texts that are not UTF-8", mailmap, found, mailmap
    yield "nothing", b"", b"", b""
    yield "only a line feed", b"\n", b"", b"\n"
    yield "a zero byte", b"\0", error(1, b"no email in brackets", b"no-email"), b"\0"
    # The last line has no line feed. The first one is dropped.
    yield "no line feed at the end", b"N <a@x>\nN <a@x>", no_effect(1, 2, b"the same"), b"N <a@x>"


def hostile():
    yield from long_lines(MEGABYTE)
    yield from many_lines(MANY)
    yield from small_ones()
