"""Generates mailmaps and contacts of people who spell their names in several ways, and who may share emails.

Everything depends only on a seed. All characters are from before Unicode 9.
"""
from buffers import LONG, Writer

# The spellings of some people's names, and their emails.
PEOPLE = [
    ("Ann Lee|ANN LEE|Lee, Ann|ann.lee|AnnLee|Ann Q. Lee|A. Lee|Ann Lee (work)|Ann \"annie\" Lee|Ann Lee via Lists"
     "|Ann|ann-lee|[bot] Ann Lee|Lee Ann|Ann Lee (a [b)|",
     "ann@x|Ann@x|ann.lee@y|lee@y|annlee@z|7+annlee@users.noreply.github.com|a.lee+git@z"
     "|x+ann@Users.NoReply.GitHub.com"),
    ("J\xf6rg M\xfcller|Jo\u0308rg Mu\u0308ller|JORG MULLER|Jorg Muller|M\xfcller, J\xf6rg|J\xd6RG M\xdcLLER|J\xf6rg"
     "|J\xf6rg M\xfcller via dev|(J\xf6rg M\xfcller)|JM",
     "jorg.muller@x|jm@x|J\xf6rg@x|JM@x|jorg@home.x|99+jorgmuller@users.noreply.github.com"),
    ("\u0141ukasz \xd8rsted|Lukasz Orsted|\u0141UKASZ \xd8RSTED|lukasz-orsted|L. \xd8rsted|Orsted Lukasz|Thor \xdeorn",
     "lukasz@x|orsted@x|LukaszOrsted@y|+lukasz+x@z|lukasz"),
    ("Zo\xeb Wei\xdf|Zoe Weiss|ZO\xcb WEISS|zoe.weiss|Weiss, Zoe|\uff3a\uff4f\uff45 Weiss|Zo\xeb \ufb01|Zo\xeb",
     "zoe@x|zoe+lists@x|zoeweiss@github|ZOE@x|weiss"),
    ("\u03a3\u03bf\u03c6\u03af\u03b1 \u03a0\u03b1\u03c0\u03c0\u03ac\u03c2"
     "|\u03a3\u039f\u03a6\u0399\u0391 \u03a0\u0391\u03a0\u03a0\u0391\u03a3"
     "|\u03c3\u03bf\u03c6\u03b9\u03b1 \u03c0\u03b1\u03c0\u03c0\u03b1\u03c3|\u03a3\u03bf\u03c6\u03af\u03b1",
     "\u03c3\u03bf\u03c6\u03b9\u03b1@x|sofia@x|\u03c0\u03b1\u03c0\u03c0\u03b1\u03c3\u03c3\u03bf\u03c6\u03b9\u03b1@y"),
    ("\u738b\u5c0f\u660e|\u738b \u5c0f\u660e|\u5c0f\u660e \u738b|Wang Xiao Ming|Wang|\u738b",
     "wang@x|\u738b\u5c0f\u660e@x|xiao@y|wangxiaoming@y"),
    ("\u0130pek I\u015f\u0131k|ipek isik|\u0130PEK I\u015eIK|Ipek I\u015f\u0131k [2]"
     "|\u0939\u093f\u0928\u094d\u0926\u0940 \u0130pek",
     "ipek@x|isik@x|ipek-isik@x|ipek.isik+1@y"),
    ("Ann Smith|Smith Ann|ann|Ann S|Ann Smith \"2\"|J. R. Smith|J R Smith|r2 d2|x 5 0 9",
     "ann@x|smith@x|anns@y|jrsmith@y|r2d2@y|x509"),
    ("root|me|Test|Bob Root|user 1|no-reply|GitHub|Nobody|.",
     "root@x|me@y|github@x|noreply@github.com|no-reply@x|test@z|1+me@users.noreply.github.com|@|+@x|1+@x"),
]
SHARED = ["devnull@localhost", "DevNull@localhost", "dev@lists.x", "dev@lists.x", "root@(none)"]
NOT_UTF_8 = [b"J\xf6rg M\xfcller", b"Zo\xeb", b"\xff\xfe Lee"]
# about the longest line that git reads whole
LINES = range(1020, 1026)


def encoded(texts):
    return [text.encode() for text in texts.split("|")]


def long_name(email, line):
    """A name with which a line that has the email twice is that long."""
    return b"Ann Lee ".ljust(line - len(b" <> <>") - 2 * len(email), b"n")


class PeopleWriter(Writer):
    """Writes the mailmaps and contacts of one case. Each line is about one person."""

    def __init__(self, seed, long=0.0):
        super().__init__(seed, long)
        own = self.choices
        self.strange = own.one_of([0, 0, 0.04, 0.15])
        self.people = [list(map(encoded, own.one_of(PEOPLE))) for _ in range(own.one_of([1, 2, 4, 8]))]
        self.shared = own.one_of([0, 0, 0.5, 0.9])
        names, emails = self.people[0]
        if own.chance(0.06):
            names += 2 * [own.one_of(NOT_UTF_8)]
        if own.chance(0.06):
            name = own.one_of(LONG) if own.chance(0.4) else long_name(emails[0], own.one_of(LINES))
            names += 3 * [name, name.swapcase()]

    def choose_person(self):
        self.names, self.emails = self.choices.one_of(self.people)
        if self.choices.chance(self.shared):
            self.names, self.emails = [*self.names, b""], [email.encode() for email in SHARED]

    def entry(self, strange):
        self.choose_person()
        return super().entry(strange)

    def contact_line(self):
        self.choose_person()
        if self.choices.chance(0.9):
            return self.contact(self.name(self.strange), self.strange)
        return super().contact_line()

    def mailmap(self):
        return self.put_together(self.line, [1, 2, 5, 10])

    def contacts(self):
        return self.put_together(self.contact_line, [4, 10, 20, 36])

    def judged(self, suggested):
        """Suggestions of which some blocks were accepted, some rejected and some deleted."""
        text = b""
        for block in suggested.split(b"\n\n"):
            text += self.choices.one_of([block.replace(b"\n#?", b"\n"), block, block, b""]) + b"\n"
        return text
