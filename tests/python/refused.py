"""Refuses each request for memory of each call in turn: the call must raise OutOfMemory, and change no mailmap.

Only here Python's own requests are refused, too: for arguments, results, errors and the module.

It needs the module `refusing`, which is made of refusing.c and loaded ahead of the C library, and PYTHONMALLOC=malloc.
"""
import _imp
import gc
import sys
import unittest

import refusing

import gix_mailmap
from gix_mailmap import Entry, Mailmap, NotAText, OutOfMemory, _native

MAP = "Jane Doe <jane@x> <jd@y>\nJörg <joe@x>\n"
BYTES = MAP.encode()
LONG = "n" * 1000
MANY = "".join(f"N{number} <{number}@x>\n" for number in range(300))


def surrogate():
    return "J\udcffrg"


def accented():
    """A `str` whose UTF-8 isn't cached yet."""
    return "".join(["J", "ö", "rg"])


class Refused(unittest.TestCase):
    def setUp(self):
        gc.disable()
        self.addCleanup(gc.enable)

    def refused(self, make, after=lambda: None, least=1):
        """Calls the function that `make` returns, and refuses the first request, then the second one, and so on.
        `after` checks the state after each call. Returns the number of requests."""
        for number in range(10_000):
            function, *arguments = make()
            was_refused, result, error = refusing.call(number, function, tuple(arguments))
            # A call may succeed without, such as with a shorter buffer.
            if error is not None:
                self.assertTrue(was_refused)
                self.assertIs(type(error), OutOfMemory)
                self.assertIsNone(after())
            elif not was_refused:
                break
        self.assertGreaterEqual(number, least)
        return result

    def test_texts(self):
        pairs = "a", MAP, accented(), "plain\n"
        for name, arguments in (
            ("check", (MAP, "jd <jd@y>")), ("compact", (MAP,)), ("prune", (bytearray(BYTES),)), ("verify", ("x\ny",)),
            *[("report", (format, False, *pairs)) for format in range(3)],
            *[("report", (format, True, "h", "j <a>\nJ <a>", *pairs)) for format in range(3)],
            ("parse", (MANY,)), ("parse", (surrogate() + "\n" + MANY,)),
            ("explain", ("jd <jd@y>", *pairs)), ("unneeded", ("", *pairs)),
            ("suggest", ("a <x@x>\nb <x@x>", *pairs)),
            ("verify", ("x\n" * 200,)), ("report", (0, False, "a", "x\n" * 400)), ("compact", (surrogate(),)),
        ):
            with self.subTest(name=name):
                function = getattr(_native, name)
                self.assertEqual(self.refused(lambda: (function, *arguments), least=3), function(*arguments))

    def test_a_new_mailmap(self):
        for texts in ((), (MAP,), (BYTES, memoryview(BYTES)), (surrogate(), accented())):
            made = self.refused(lambda: (_native.Mailmap, *texts), least=2)
            self.assertEqual(made.entries(), Mailmap(*texts).entries())

    def test_lookups(self):
        for text in (MAP, BYTES):
            mailmap = Mailmap(text, (f"{LONG} <long@x>" if text is MAP else b"L <long@x>"))
            before = mailmap.entries()
            for make in (
                lambda: ("jd", "jd@y"), lambda: (b"jd", b"jd@y"), lambda: (accented(), "joe@x"),
                lambda: ("a", "long@x"), lambda: (bytearray(b"a"), memoryview(b"b")),
                lambda: (surrogate(), "joe@x"), lambda: (LONG, "jd@y"),
            ):
                # While these are kept, the next answer is a new object.
                kept = mailmap.lookup(*make()), mailmap.lookup(*make())
                self.assertEqual(self.refused(lambda: (mailmap.lookup, *make())), kept[0])
            self.assertEqual(mailmap.entries(), before)

    def test_what_is_read_of_a_mailmap(self):
        mailmap = Mailmap(MAP)
        for function, arguments in (
            (mailmap.write, ()), (mailmap.entries, ()), (mailmap.__getitem__, (1,)), (mailmap.__getitem__, (slice(1),)),
        ):
            self.assertEqual(self.refused(lambda: (function, *arguments), least=3), function(*arguments))

    def test_what_changes_a_mailmap(self):
        before = Mailmap(MAP).entries()
        mailmap = answers = None
        for change in (
            lambda mailmap: (mailmap.add, MANY), lambda mailmap: (mailmap.add, accented() + " <jd@y>"),
            lambda mailmap: (mailmap.add_entry, Entry("N", "n@x", surrogate(), "o@x")),
            lambda mailmap: (mailmap.add_entry, Entry(accented(), None, None, "jd@y")),
        ):
            # Each call starts from a new mailmap, since one that was refused a request may still succeed.
            def make():
                nonlocal mailmap, answers
                mailmap = Mailmap(MAP)
                answers = mailmap.map_contacts(["jd <jd@y>"] * 2)
                next(answers)
                return change(mailmap)

            def same():
                self.assertEqual(mailmap.entries(), before)
                self.assertEqual(next(answers), "Jane Doe <jane@x>")

            self.refused(make, same, least=2)
            changed = Mailmap(MAP)
            function, *arguments = change(changed)
            function(*arguments)
            self.assertEqual(mailmap.entries(), changed.entries())

    def test_streams(self):
        """A request is refused for each line until it is answered, and only the lines of a refused call are lost."""
        mailmap, long = Mailmap(MAP), Mailmap(f"{'n' * 200_000} <a@x>")
        odd = Mailmap(MAP)
        odd.add_entry(Entry("<\n", None, None, "odd@x"))
        self.assertIs(type(self.refused(lambda: (_native.Stream, mailmap, []), least=2)), _native.Stream)
        for held, line, answer in (
            (mailmap, "jd <jd@y>", "Jane Doe <jane@x>"), (mailmap, accented() + " <joe@x>", "Jörg <joe@x>"),
            (mailmap, surrogate(), surrogate()), (mailmap, "l" * 70_000, "l" * 70_000),
            (mailmap, bytearray(b"a <joe@x>"), "Jörg <joe@x>".encode()), (long, "a <a@x>", f"{'n' * 200_000} <a@x>"),
            (odd, "jd <jd@y>", "Jane Doe <jane@x>"), (odd, "jd <odd@x>", "<\n <odd@x>"),
        ):
            self.assertEqual(self.refused(lambda: (held.map_contacts([line]).__next__,), least=3), answer)

    def test_the_line_after_a_refusal(self):
        """After a refusal, the next line gets its own answer."""
        mailmap, lines = Mailmap(MAP), [f"{number} {'x' * number} <{number}@z>" for number in range(1000)]
        answers, wanted = mailmap.map_contacts(lines), iter(lines)

        def make():
            next(wanted)
            return (answers.__next__,)

        self.refused(make, lambda: self.assertEqual(next(answers), next(wanted)))
        for length in (10, 70_000):
            lines = [f"{number}{'x' * length}" for number in range(100)]
            for first in range(20):
                answers = mailmap.map_contacts(lines)
                next(answers)
                refusing.call(first, answers.__next__, ())
                self.assertEqual(next(answers), lines[2])

    def test_what_can_not_be_encoded(self):
        """Then there may be no memory for the error, either."""
        mailmap = Mailmap(MAP)
        for number in range(1000):
            was_refused, _, error = refusing.call(number, mailmap.lookup, ("\ud800", ""))
            self.assertIn(type(error), (NotAText, OutOfMemory))
            if not was_refused:
                break
        self.assertIs(type(error), NotAText)

    def test_zz_the_module_itself(self):
        """Must be the last test, since the interpreter then uses the new module."""
        for number in range(1000):
            was_refused, module, error = refusing.call(number, _imp.create_dynamic, (_native.__spec__,))
            if error is None and not was_refused:
                break
            self.assertIsInstance(error, (MemoryError, ImportError, type(None)))
        self.assertGreater(number, 20)
        self.assertEqual(module.Mailmap("N <a@x>").lookup("", "a@x").name, "N")


if __name__ == "__main__":
    if sys.version_info >= (3, 13):
        del Refused.test_zz_the_module_itself
        print("skipped: requests of the module itself, since a dict that can't grow while a type is made crashes here")
    unittest.main()
