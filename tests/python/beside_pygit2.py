"""Answers beside those of libgit2, by pygit2: they are the same but where docs/C.md says that they differ.

    beside_pygit2.py PAGE
"""
import random
import re
import sys
import unittest
from pathlib import Path

import pygit2

from gix_mailmap import Mailmap

PAGE = Path(sys.argv.pop())
ROW = re.compile(r"^\| [^|]* \| `(.*?)` \| `(.*?)` \| (?:`(.*?)`|no mailmap) \| `(.*?)` \|$", re.MULTILINE)
NAMES = ["Jane", "Jane Doe", "jd", "J. D. (old)", "Jörg", "名 前", "O'Neil, \"x\"", "a@b", "'", "J  D"]
EMAILS = ["jane@x", "jd@y", "x", "a b@c", "jörg@z", "root@(none)", "<", "jd@y.example"]


def contact(text):
    name, email = re.fullmatch(r"(.*?) ?<(.*)>", text).groups()
    return name, email


class Beside(unittest.TestCase):
    def test_rows_of_the_page(self):
        """The stored table is right about both, for all rows that Python's strings can hold."""
        page = PAGE.read_text(encoding="utf-8")
        table = page.partition("<!-- libgit2 -->")[2].partition("<!-- end of libgit2 -->")[0]
        rows = [[cell and cell.encode().decode("unicode_escape") for cell in row] for row in ROW.findall(table)]
        self.assertGreater(len(rows), 15)
        for text, asked, theirs, ours in rows:
            text = text.encode("latin-1").decode()
            theirs, ours = (cell.encode("latin-1").decode() for cell in (theirs, ours))
            with self.subTest(mailmap=text):
                found = Mailmap(text).lookup(*contact(asked))
                self.assertEqual(found[:2], contact(ours))
                if "\0" in text:  # pygit2 gives libgit2 what comes before it
                    continue
                if theirs:
                    self.assertEqual(pygit2.Mailmap.from_buffer(text).resolve(*contact(asked)), contact(theirs))
                else:
                    self.assertRaises(Exception, pygit2.Mailmap.from_buffer, text)

    def test_lines_that_both_read(self):
        """Lines of all forms, at most one for each old email and old name, without what the page names."""
        rng, asked = random.Random(3), 0
        emails = [email for email in EMAILS if "<" not in email]
        for _ in range(2000):
            lines = {}
            for _ in range(rng.randrange(6)):
                new_name, new_email, old_name, old_email = (rng.choice(some) for some in (NAMES, emails) * 2)
                form = rng.randrange(4)
                if form == 0:
                    lines[old_email, None] = f"{new_name} <{old_email}>"
                elif form == 1:
                    lines[old_email, None] = f"<{new_email}> <{old_email}>"
                elif form == 2:
                    lines[old_email, None] = f"{new_name} <{new_email}> <{old_email}>"
                else:
                    lines[old_email, old_name] = f"{rng.choice(['', new_name])} <{new_email}> {old_name} <{old_email}>"
            text = rng.choice(["", "# a comment\n\n"]) + "".join(f"{line}\n" for line in lines.values())
            theirs = pygit2.Mailmap.from_buffer(text)
            with Mailmap(text) as ours:
                for _ in range(20):
                    name, email = rng.choice(NAMES), rng.choice(EMAILS)
                    self.assertEqual(ours.lookup(name, email)[:2], theirs.resolve(name, email), (text, name, email))
                    asked += 1
        print(f"beside pygit2: {asked} lookups agree")


if __name__ == "__main__":
    unittest.main()
