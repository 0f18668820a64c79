"""Generates mailmaps and contacts. Each case uses few names and emails of its own, so that lines match.

Everything depends only on a seed.
"""
from random import Random

from git import PART
from mailmap import MARK
from shown import LIMIT

# Spellings of names and emails that git and the library read alike, the common ones more than once. Letters that aren't
# ASCII have no other case, not even in Latin-1. \x1c, and \x85 and \xa0 alone, are not white space.
NAMES = 4 * [[b"Ann", b"ANN"], [b"Bob", b"bOb"], [b"Ann Lee"]] + [
    [b"J\xc3\xb6", b"J\xc3\x96"], [b"\xff\xe4", b"\xff\xc4"], [b"a>b"], [b"##[c", b"##[C"], [b"E\x1b[1m", b"e\x1b[1m"],
    [b"\x7f"], [b"\x1cCy", b"\x85Cy\xa0"], [b"Cy\r", b"\tcy"],
]
EMAILS = 4 * [[b"a@x", b"A@x"], [b"b@x", b"B@X"], [b"c@x"]] + [
    [b""], [b"\xc3\xa4@x", b"\xc3\x84@x"], [b"\xe9@x", b"\xc9@x"], [b"c@x\x1b", b"C@x\x1b"], [b"a b"], [b"#"],
    [b"<a@x"],
]
# Texts that turn the direction of text, that control a terminal beyond ASCII, and that end within such a character.
NAMES += [
    [b"\xe2\x80\xaeAnn", b"\xe2\x80\xaeANN"], [b"\xd8\x9cBob\xe2\x81\xa9"], [b"\xc2\x9b1m"], [b"\xe2\x80\x8f\xe2\x80"],
    [b"\xf0\x9f\x98\x80\xf0\x9f\x98"], [b"\xc4\x80\x80"],
]
# A byte order mark is one only at the beginning of a mailmap. Names of which the same is seen, and one that can't be seen.
NAMES += [
    [MARK + b"Ann"], [b"A\xe2\x80\x8bnn", b"A\xc2\xadNN"], [b"\xe2\x80\x8d"], [b"Bo\xe2\x80\xa8b"],
    [b"J\xc3\xb6", b"Jo\xcc\x88", b"J\xf3\xa0\x80\x81o\xe2\x81\xa0\xcc\x88"],
]
# Texts of about the length at which findings cut them. A character may begin up to four bytes before that, or bytes
# that are none.
LAST = [text.encode() for text in ["", "J", "\xe4", "\u2026", "\u202e", "\U0001f600"]] + [
    b"\xc2", b"\xe2\x80", b"\xf0\x9f\x98", b"\x9b\x9b\x9b\x9b", b"\xf0\x9f\x98J", b"\xed\xa0\x80",
]
LONG = [b"n" * (LIMIT - before) + last + after for last in LAST for before in range(5) for after in [b"", b"Joe"]]
# Those that git reads in another way: other white space than git's, white space in brackets, and zero bytes.
STRANGE_NAMES = [b"\xc2\xa0Cy", b"Cy\xe3\x80\x80", b"\x0bAnn", b"Bob\x0c", b"A\0nn"]
STRANGE_EMAILS = 3 * [b" a@x ", b" A@x"] + [b"b@x\t", b" ", b"\xc2\xa0b@x", b"c@x\0"]
# text after the last email of a line
TAILS = 3 * [b" tail", b" # why", b" d@x", b" <e@x>", b" <c", b" <c", b" <a@x"] + [
    b"\t", b" \xc2\xa0", b" \x1b[0m", b" \xff", b"> b", b"\0", b" <", b" bob <d@x> <",
]
COMMENTS = [b"# note", b"#", b"#<a@x>", b"# Ann <a@x> <b@x>"]
BLANKS = [b"", b" ", b"\t", b"\r", b"\xc2\xa0", b"\xe3\x80\x80 "]
WITHOUT_EMAIL = [b"plain", b" # note", b"Ann a@x", b"a@x>", b"\0", b"\x1b[1m"]
UNCLOSED = [b"Ann <a@x", b"<", b"Bob> <b@x", b"<a@x <b@x"]
ENDS = 5 * [b"\n"] + [b"\r\n"]
# only in contacts
OTHER_EMAILS = [b"d@x", b"D@x", b" a@x ", b"\xc2\xa0B@X", b"b@x\0", b"e@x\x1b"]
AFTER_CONTACTS = 3 * [b""] + [b" 12 +0000", b" tail", b" <d@x>"]
NO_CONTACTS = [b"plain", b"Ann <a@x", b"# no <", b"<", b"a@x>", b"\x7f", b"\xff\0"]


class Choices:
    """Choices by a seed. Uses only `random`, whose numbers are the same in all versions of Python."""

    def __init__(self, seed):
        self.random = Random(seed).random

    def chance(self, share):
        return self.random() < share

    def below(self, count):
        return int(self.random() * count)

    def one_of(self, these):
        return these[self.below(len(these))]


class Writer:
    """Writes the mailmaps and contacts of one case."""

    def __init__(self, seed, long=0.0):
        """`long` is the share of lines so long that git reads them in parts."""
        self.choices = Choices(seed)
        self.long = long
        # the fewer there are, the more lines override others; a name can be missing
        self.names = self.some_of(NAMES, self.choices.one_of([1, 2, 3])) + [b""]
        self.emails = self.some_of(EMAILS, self.choices.one_of([1, 2, 4, 4]))
        # in some cases one name and one email are long, and the ignored text may be
        self.some_long = self.choices.chance(0.08)
        if self.some_long:
            for texts in self.names, self.emails:
                text = self.choices.one_of(LONG)
                texts += [text, text.upper()]
        # git reads some of the mailmaps as the library does
        self.strange = self.choices.one_of([0, 0.15, 0.25, 0.4])

    def some_of(self, groups, count):
        """The spellings of some groups; a group can be chosen more than once."""
        return [text for _ in range(count) for text in self.choices.one_of(groups)]

    # ---- mailmaps

    def name(self, strange):
        return self.choices.one_of(STRANGE_NAMES if self.choices.chance(strange) else self.names)

    def contact(self, name, strange):
        email = self.choices.one_of(STRANGE_EMAILS if self.choices.chance(strange) else self.emails)
        return b"%b <%b>" % (name, email)

    def entry(self, strange):
        """One contact or two, and perhaps more text. A space at the start keeps `# c` from being a comment."""
        line = self.choices.one_of([b"", b"", b" "]) + self.contact(self.name(strange), strange)
        if self.choices.chance(0.58):
            line += b" " + self.contact(b"" if self.choices.chance(0.3) else self.name(strange), strange)
        return line + self.tail() if self.choices.chance(0.45) else line

    def tail(self):
        if self.some_long and self.choices.chance(0.3):
            return b" " + self.choices.one_of(LONG)
        return self.choices.one_of(TAILS)

    def long_line(self):
        """A line that git reads in parts. Each part can have an entry, and the last one starts before or in the last
        contact.
        """
        last = self.choices.one_of([b"", b"", b"#"]) + self.contact(self.name(0), 0)
        fronts = [self.entry(0) for _ in range(self.choices.one_of([1, 1, 2]))]
        line = b"".join(front.ljust(PART, b"J") for front in fronts)
        return line[:len(line) - self.choices.one_of([0, self.choices.below(len(last))])] + last

    def line(self):
        if self.choices.chance(self.long):
            return self.long_line()
        if self.choices.chance(0.94):
            return self.entry(self.strange)
        return self.choices.one_of(self.choices.one_of([COMMENTS, BLANKS, WITHOUT_EMAIL, UNCLOSED]))

    def put_together(self, write, counts):
        """Some lines with their ends, perhaps none. The last line can lack its end."""
        count = self.choices.below(self.choices.one_of(counts))
        text = b"".join(write() + self.choices.one_of(ENDS) for _ in range(count))
        return text[:-1] if text and self.choices.chance(0.25) else text

    def mailmap(self):
        text = self.put_together(self.line, [2, 6, 12, 26])
        return MARK + text if self.choices.chance(0.06) else text

    # ---- contacts

    def contact_line(self):
        if self.choices.chance(0.08):
            return self.choices.one_of(self.choices.one_of([BLANKS, NO_CONTACTS]))
        name = self.name(self.strange)
        if self.choices.chance(0.2):
            name = name.swapcase()
        email = self.choices.one_of(OTHER_EMAILS if self.choices.chance(0.3) else self.emails)
        return b"%b <%b>%b" % (name, email, self.choices.one_of(AFTER_CONTACTS))

    def contacts(self):
        return self.put_together(self.contact_line, [1, 4, 8, 24, 48])
