"""A repository for tests. Few authors make its many commits, and our answers for them have to be git's."""
import os
import random
import shutil
import subprocess
from pathlib import Path

NAMES = ["Jane", "jane", "JD", "Joe", "Joe R. Developer", "J\u00f6rg", "x y"]
# without capital letters, because git keeps the contact's spelling of an email, and we use the mailmap's
EMAILS = ["jane@x", "jd@old", "joe@x", "b@y.org"]
MAILMAP = "Jane Doe <jane@x>\nJane Doe <jane@x> <jd@old>\nJoe <joe@new> x y <joe@x>\n<b@z.org> <b@y.org>\n"
QUIET = {**os.environ, "GIT_CONFIG_GLOBAL": os.devnull, "GIT_CONFIG_SYSTEM": os.devnull}


class Repository:
    """A repository in a new directory. Its mailmap is the file .mailmap there."""

    def __init__(self, folder: Path) -> None:
        self.folder = folder
        self.mailmap = folder / ".mailmap"
        draw = random.Random(7)
        authors = [f"{draw.choice(NAMES)} <{draw.choice(EMAILS)}>" for _ in range(400)]
        self.contacts = "".join(f"{author}\n" for author in authors).encode()
        commits = "".join(f"commit refs/heads/main\nauthor {author} {number} +0000\ncommitter c <c@c> {number} +0000\n"
                          f"data 1\nx\n" for number, author in enumerate(authors))
        subprocess.run(["git", "init", "-q", folder], check=True, env=QUIET)
        self.git(["fast-import", "--quiet"], commits.encode())
        self.mailmap.write_text(MAILMAP, encoding="utf-8")

    def git(self, words: list[str], stdin: bytes = b"") -> bytes:
        """The output of a git command that uses the repository's mailmap."""
        return subprocess.run(["git", "-C", self.folder, "-c", "mailmap.file=.mailmap", *words], input=stdin,
                              capture_output=True, check=True, env=QUIET).stdout


def has_git(what: str) -> bool:
    """Whether git is here. If it isn't, prints that `what` is skipped."""
    if shutil.which("git") is None:
        print(f"skipped: {what}, since git is not here")
        return False
    return True
