"""A repository of 3,000 commits by 150 people with over 300 names and emails, as in a project without a mailmap."""
import random
import subprocess

from repository import QUIET

FIRST = ["Jane", "Joe", "Xavier", "J\u00f6rg", "Mary Ann", "Li", "Ada", "Ng\u0169g\u0129", "Bo", "Chris"]
LAST = ["Doe", "Tanaka", "M\u00fcller", "O'Neil", "van Dyk", "Wang", "Sm\u00edth", "Roe", "Lovelace", "de la Cruz",
        "Ek", "Nowak", "Silva", "Kim", "Haddad"]
HOSTS = ["example.com", "example.org", "Work.example.net"]
PEOPLE = 150
COMMITS = 3000


def people(draw):
    """For each person the contacts of their commits, the usual one more often."""
    for number in range(PEOPLE):
        name = f"{FIRST[number % len(FIRST)]} {LAST[number // len(FIRST)]}"
        user, host = name.lower().replace(" ", "."), draw.choice(HOSTS)
        email = f"{user}@{host}"
        others = [
            (name, email.upper()), (name.lower(), email), (user, email), (name, f"{user}@{draw.choice(HOSTS)}"),
            (name, f"{user}@old.example.com"), (f"{name[0]}. {name.split()[-1]}", email), ("", email),
            (user, f"{user.title()}@{host}"), (name.upper(), f"{user}@home.example.com"),
        ]
        yield 12 * [(name, email)] + draw.sample(others, draw.choice([0, 1, 2, 2]))


class History:
    # each line is needed by some commits
    MAILMAP = (
        "Jane Doe <jane.doe@example.org> <jane.doe@Work.example.net>\nJoe D. <joe.doe@example.com>\n"
        "Ada Roe <ada@new.example.com> Ada Doe <ada.doe@example.com>\n"
    ).encode()

    def __init__(self, folder, mailmap):
        self.folder = folder
        self.mailmap = folder / ".mailmap"
        draw = random.Random(11)
        contacts = [contact for some in people(draw) for contact in some]
        authors = contacts + [draw.choice(contacts) for _ in range(COMMITS - len(contacts))]
        draw.shuffle(authors)
        commits = "".join(
            f"commit refs/heads/main\nauthor {name}{' ' if name else ''}<{email}> {number} +0000\n"
            f"committer c <c@c> {number} +0000\ndata 1\nx\n" for number, (name, email) in enumerate(authors))
        subprocess.run(["git", "init", "-q", folder], check=True, env=QUIET)
        self.git(["fast-import", "--quiet"], commits.encode())
        self.mailmap.write_bytes(mailmap)

    def git(self, words, stdin=b""):
        return subprocess.run(["git", "-C", self.folder, "-c", "mailmap.file=.mailmap", *words], input=stdin,
                              capture_output=True, check=True, env=QUIET).stdout

    def contacts(self):
        return self.git(["log", "main", "--format=%an <%ae>"])

    def shortlog(self):
        """What git counts with the mailmap."""
        return self.git(["shortlog", "-sne", "main"])

    def mailmaps(self):
        """The paths of the mailmaps."""
        return [self.mailmap]

    def append(self, text):
        with self.mailmap.open("ab") as mailmap:
            mailmap.write(text)
