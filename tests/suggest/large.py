"""Large histories, with the lines that are suggested for them.

The lines follow from the definitions, for any number of contacts; a comment at each history tells why. For small
numbers, the model in tests/model has the same.
"""

# the longest text that a comment shows whole
LIMIT = 256
ALIKE = [b"Jane Doe", b"DOE, Jane", b"jane-doe", b"JaneDoe", "Jan\xe9 Doe".encode()]


def joined(form, items):
    return b"".join(form % item for item in items)


def large(count):
    """For each history what it is, its mailmap, its contacts, and what is printed."""
    numbers, others = range(count), range(1, count)

    # All names are alike, so all are one group, and the first is proper.
    contacts = [(ALIKE[number % len(ALIKE)], number) for number in numbers]
    printed = b"# alike\n" + joined(b"# 1 %b <%06d@x>\n", contacts)
    printed += joined(b"#?Jane Doe <000000@x> <%06d@x>\n", others) + b"\n"
    yield "names that are alike", b"", joined(b"%b <%06d@x>\n", contacts), printed

    # Each name has one word of its own.
    strangers = joined(b"N%06d <all@x>\n", numbers)
    printed = b"# several people may share all@x\n" + joined(b"# 1 N%06d <all@x>\n", numbers) + b"\n"
    yield "strangers with one email", b"", strangers, printed

    # Two names have an email, and one of them is the first name of the next email. So all emails are linked.
    contacts = joined(b"A%06d <e%06d@x>\nA%06d <e%06d@x>\n", [(k, k, k + 1, k) for k in numbers])
    emails = b"# 1 A%06d <e%06d@x>\n# 1 A%06d <e%06d@x>\nA%06d <e%06d@x>\n\n"
    printed = joined(emails, [(k, k, k + 1, k, k, k) for k in numbers])
    printed += b"# alike\n" + joined(b"# 2 A%06d <e%06d@x>\n", [(k, k) for k in numbers])
    printed += joined(b"#?A000000 <e000000@x> <e%06d@x>\n", others) + b"\n"
    yield "a chain of names", b"", contacts, printed

    # Each name but the last is the login of the next contact.
    contacts = [(number + 1, number) for number in numbers]
    printed = b"# login a000001\n" + joined(b"# 1 a%06d <a%06d@x>\n", contacts)
    printed += joined(b"#?a000001 <a000000@x> <a%06d@x>\n", others) + b"\n"
    yield "a chain of logins", b"", joined(b"a%06d <a%06d@x>\n", contacts), printed

    # A line for each of the old emails would have the long name.
    long = b"Jane " + b"L" * 100_000
    mailmap, contacts = joined(b"<jane@x> <%06d@x>\n", numbers), joined(b"Jane %06d <%06d@x>\n", zip(numbers, numbers))
    printed = b"# too long for git\n# 2 %b.. <jane@x>\n" % long[:LIMIT] + joined(b"# 1 Jane %06d <jane@x>\n", numbers)
    yield "a long name for many emails", mailmap, contacts + 2 * (long + b" <jane@x>\n"), printed + b"\n"
