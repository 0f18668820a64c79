"""The package in other interpreters of the process: each has its own classes, or is refused with the reason."""
import sys
import unittest

try:
    import _xxsubinterpreters as interpreters
except ImportError:
    import _interpreters as interpreters

import gix_mailmap

CODE = """
import sys
sys.path[:] = {path!r}
import gix_mailmap
from gix_mailmap import Closed, Mailmap, NotAText
with Mailmap("Jane <jane@x> <jd@y>") as mailmap:
    found = mailmap.lookup("jd", "jd@y")
    assert type(found) is gix_mailmap.Answer and found.name == "Jane" and mailmap[0].old_email == "jd@y"
    assert list(mailmap.map_contacts(["jd <jd@y>"])) == ["Jane <jane@x>"]
try:
    mailmap.entries()
except Closed:
    pass
else:
    raise AssertionError
"""


def run(number):
    """What an interpreter raises, if it does."""
    try:
        error = interpreters.run_string(number, CODE.format(path=sys.path))
        return "" if error is None else str(getattr(error, "msg", error))
    except Exception as error:
        return str(error)


def made(**settings):
    if hasattr(interpreters, "new_config"):
        return interpreters.create("isolated" if settings["isolated"] else "legacy")
    return interpreters.create(**settings)


class Interpreters(unittest.TestCase):
    def test_one_with_the_lock_of_this_one(self):
        with gix_mailmap.Mailmap("Joe <joe@x>") as mailmap:
            for _ in range(10):
                number = made(isolated=False)
                self.assertEqual([run(number), run(number)], ["", ""])
                interpreters.destroy(number)
                self.assertIs(type(mailmap.lookup("", "joe@x")), gix_mailmap.Answer)
                with self.assertRaises(gix_mailmap.NotAText):
                    mailmap.lookup("\ud800", "")

    def test_one_with_a_lock_of_its_own(self):
        """From Python 3.12 on it can have one."""
        number = made(isolated=True)
        said = run(number)
        interpreters.destroy(number)
        if sys.version_info >= (3, 12):
            self.assertIn("module gix_mailmap._native does not support loading in subinterpreters", said)
        else:
            self.assertEqual(said, "")


if __name__ == "__main__":
    unittest.main()
