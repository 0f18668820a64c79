"""`map_contacts`, compared with `check`."""
import io
import itertools
import os
import random
import signal
import tempfile
import tracemalloc
import unittest
from pathlib import Path

import gix_mailmap
from gix_mailmap import Closed, Entry, Mailmap, NotALine, NotAText

MAP = "Jane Doe <jane@x> <jd@y>\nJoe <joe@x> joe <j@x>\n # <joe@x>\n <new@x> <old@x>\nX <x1@x> y <x@x>\n"
LINES = [
    "jd <JD@y>", "joe <j@x>", "jim <j@x>", "a <joe@x>", "b <old@x>", "y <x@x>", "plain", "", " ", "\r", "a\rb", "a\r",
    "a\r\r", "<jd@y>\r", "  jd  <  jd@y  > and more", "\x0b\x0c\x1c\x85\u2028", "ä <jd@y>", "\udcff", "<", "<>",
    "a <b",
]


def by_check(lines):
    return [gix_mailmap.check(MAP, line)[:-1] if line else "" for line in lines]


def answers_or_error(mailmap, lines):
    try:
        return list(mailmap.map_contacts(lines))
    except NotALine:
        return NotALine


class Stream(unittest.TestCase):
    def test_each_line(self):
        wanted = by_check(LINES)
        with Mailmap(MAP) as mailmap:
            self.assertEqual(list(mailmap.map_contacts(LINES)), wanted)
            self.assertEqual([next(mailmap.map_contacts([line])) for line in LINES], wanted)
            ended = [f"{line}\n" for line in LINES]
            self.assertEqual(list(mailmap.map_contacts(ended)), by_check(ended))
            for kind in (bytes, bytearray, memoryview):
                lines = [kind(line.encode(errors="surrogateescape")) for line in LINES]
                answers = [answer.decode(errors="surrogateescape") for answer in mailmap.map_contacts(lines)]
                self.assertEqual(answers, wanted)
            self.assertEqual(list(mailmap.map_contacts([])), [])

    def test_lines_that_may_change(self):
        """Mutable lines, also after an equal line whose answer is cached. Only some of them can be hashed."""
        with Mailmap(MAP) as mailmap:
            for kind in (bytearray, memoryview, lambda text: memoryview(bytearray(text))):
                lines = [b"jd <jd@y>", kind(b"jd <jd@y>")] * 3
                self.assertEqual(list(mailmap.map_contacts(lines)), [b"Jane Doe <jane@x>"] * 6)

    def test_many_lines(self):
        """Lines that recur and lines that don't. The cache is filled twice. Before the first time many lines recur, so
        answers are cached again; before the second time few do, so caching stops."""
        rng = random.Random(7)
        lines = []
        for names in (3, 30, 1000, 5000, 10**6, 10**6, 30, 10**6, 10**6, 5000, 3):
            lines += [f"{rng.randrange(names)} <{rng.choice(LINES)}@y>" for _ in range(40_000)]
        answers = gix_mailmap.check(MAP, "".join(f"{line}\r\n" for line in lines)).split("\n")[:-1]
        with Mailmap(MAP) as mailmap:
            self.assertEqual(list(mailmap.map_contacts(lines)), answers)
            texts = [line.encode(errors="surrogateescape") for line in lines]
            found = [answer.decode(errors="surrogateescape") for answer in mailmap.map_contacts(texts)]
            self.assertEqual(found, answers)

    def test_files_are_answered_as_their_lines_are(self):
        """Files opened in each way, with all kinds of line ends."""
        rng = random.Random(5)
        text = {"encoding": "utf-8", "errors": "surrogateescape"}
        ways = [{"mode": "rb"}, *({**text, "newline": end} for end in (None, "", "\n", "\r", "\r\n"))]
        with tempfile.TemporaryDirectory() as folder, Mailmap(MAP) as mailmap:
            path = Path(folder) / "contacts"
            for _ in range(300):
                ends = rng.choice([["\n"], ["\r\n"], ["\n", "\r\n", "\r", ""]])
                lines = [rng.choice(LINES) + rng.choice(ends) for _ in range(rng.randrange(12))]
                path.write_bytes("".join(lines).encode(errors="surrogateescape"))
                for way in ways:
                    with path.open(**way) as file:
                        wanted = answers_or_error(mailmap, list(file))
                    with path.open(**way) as file:
                        self.assertEqual(answers_or_error(mailmap, file), wanted)

    def test_a_subclass_of_a_file_keeps_its_own_lines(self):
        class Upper(io.BytesIO):
            def __next__(self):
                return super().__next__().upper()

        with Mailmap(MAP) as mailmap:
            self.assertEqual(list(mailmap.map_contacts(io.BytesIO(b"a <b>\nc"))), [b"a <b>", b"c"])
            self.assertEqual(list(mailmap.map_contacts(Upper(b"a <b>\nc"))), [b"A <B>", b"C"])

    def test_what_has_arrived_in_a_pipe_is_answered(self):
        """Answers come before the other end writes more or closes the pipe. If this hangs, the alarm ends it."""
        signal.alarm(60)
        for way in ({"mode": "rb"}, {"encoding": "utf-8"}):
            read, write = os.pipe()
            with open(read, **way) as file, open(write, "wb", buffering=0) as pipe, Mailmap(MAP) as mailmap:
                answers = mailmap.map_contacts(file)
                for _ in range(3):
                    pipe.write(b"jd <jd@y>\n")
                    self.assertIn(next(answers), ("Jane Doe <jane@x>", b"Jane Doe <jane@x>"))
        signal.alarm(0)

    def test_lines_are_taken_as_answers_are_wanted(self):
        with Mailmap(MAP) as mailmap:
            answers = mailmap.map_contacts(itertools.repeat(b"jd <jd@y>\n"))
            self.assertEqual(set(itertools.islice(answers, 1_000_000)), {b"Jane Doe <jane@x>"})
            lines = iter(["a", "b", "c"])
            self.assertEqual(next(mailmap.map_contacts(lines)), "a")
            self.assertEqual(list(lines), ["b", "c"])

    def test_errors_of_the_lines_pass(self):
        """The error comes after the answers to the lines before."""
        def lines():
            yield "jd <jd@y>"
            raise LookupError

        with Mailmap(MAP) as mailmap:
            answers = mailmap.map_contacts(lines())
            self.assertEqual(next(answers), "Jane Doe <jane@x>")
            self.assertRaises(LookupError, next, answers)
            self.assertRaises(StopIteration, next, answers)

    def test_an_error_leaves_the_stream_usable(self):
        with Mailmap(MAP) as mailmap:
            answers = mailmap.map_contacts(["a", "b\nc", b"d", "\ud800", None, "jd <jd@y>"])
            self.assertEqual(next(answers), "a")
            for error in (NotALine, TypeError, NotAText, TypeError):
                self.assertRaises(error, next, answers)
            self.assertEqual(list(answers), ["Jane Doe <jane@x>"])

    def test_lines_that_take_answers_themselves(self):
        class Lines:
            count = 0

            def __iter__(self):
                return self

            def __next__(self):
                self.count += 1
                if self.count == 2:
                    taken.append(next(answers))
                if self.count > 4:
                    raise StopIteration
                return f"{self.count} <old@x>"

        taken = []
        with Mailmap(MAP) as mailmap:
            answers = mailmap.map_contacts(Lines())
            self.assertEqual(list(answers), ["1 <new@x>", "3 <new@x>", "4 <new@x>"])
        self.assertEqual(taken, ["3 <new@x>"])

    def test_a_changed_mailmap(self):
        """A change counts from the next line on, also for a file."""
        for lines in (itertools.repeat("jd <jd@y>"), io.StringIO("jd <jd@y>\n" * 9)):
            with Mailmap(MAP) as mailmap:
                answers = mailmap.map_contacts(lines)
                self.assertEqual(next(answers), "Jane Doe <jane@x>")
                mailmap.add("JD <jd@y>")
                self.assertEqual(next(answers), "JD <jane@x>")
                mailmap.add_entry(Entry("J", None, None, "jd@y"))
                self.assertEqual(next(answers), "J <jane@x>")
                mailmap.close()
                with self.assertRaises(Closed):
                    next(answers)
                mailmap.__init__("Jo <jd@y>")
                self.assertEqual(next(answers), "Jo <jd@y>")

    def test_long_answers(self):
        """An answer longer than one read of a stream, also between short ones."""
        name = "n" * 400_000
        with Mailmap(f"{name} <a@x>") as mailmap:
            lines = ["a <a@x>", "b <b@x>", "c <a@x>", "", "d"]
            wanted = [f"{name} <a@x>", "b <b@x>", f"{name} <a@x>", "", "d"]
            self.assertEqual(list(mailmap.map_contacts(lines)), wanted)
            self.assertEqual(list(mailmap.map_contacts(lines * 20)), wanted * 20)

    def test_long_answers_to_a_file_do_not_pile_up(self):
        """The answers to one part of the file have 200 MB together."""
        with Mailmap(f"{'n' * 65_536} <a@x>") as mailmap:
            tracemalloc.start()
            answers = mailmap.map_contacts(io.BytesIO(b"<a@x>\n" * 3000))
            self.assertEqual(sum(map(len, answers)), 3000 * (65_536 + 6))
            _, peak = tracemalloc.get_traced_memory()
            tracemalloc.stop()
        self.assertLess(peak, 20_000_000)

    def test_lines_of_both_kinds(self):
        with Mailmap(MAP) as mailmap:
            for lines in (["a", b"a"], ["a", "b", b"a"], [b"a", b"a", b"a", "a"], ["a", "a", bytearray(b"a")]):
                with self.assertRaisesRegex(TypeError, "can't be mixed"):
                    list(mailmap.map_contacts(lines))
            for lines in ([None], ["a", None], [b"a", b"a", 1]):
                with self.assertRaisesRegex(TypeError, "expected str or bytes"):
                    list(mailmap.map_contacts(lines))

    def test_one_text_in_place_of_lines(self):
        with Mailmap(MAP) as mailmap:
            for text in ("jd <jd@y>", b"", bytearray(b"a"), memoryview(b"a")):
                with self.assertRaisesRegex(TypeError, "expected an iterable of lines, not"):
                    mailmap.map_contacts(text)

    def test_an_entry_that_no_line_can_hold(self):
        """The mailmap can't be written as text for a stream, so each line is looked up."""
        with Mailmap(MAP) as mailmap:
            mailmap.add_entry(Entry("<\n", None, None, "odd@x\n"))
            self.assertEqual(list(mailmap.map_contacts(LINES)), by_check(LINES))
            lines = [line.encode(errors="surrogateescape") for line in LINES]
            answers = [answer.decode(errors="surrogateescape") for answer in mailmap.map_contacts(lines)]
            self.assertEqual(answers, by_check(LINES))
            answers = mailmap.map_contacts(itertools.repeat("jd <odd@x>"))
            self.assertEqual(next(answers), "jd <odd@x>")
            mailmap.add_entry(Entry("<\n", None, None, "odd@x"))
            self.assertEqual(next(answers), "<\n <odd@x>")
            file = io.BytesIO(b"jd <odd@x>\nplain")
            self.assertEqual(list(mailmap.map_contacts(file)), [b"<\n <odd@x>", b"plain"])

    def test_long_lines_are_not_kept(self):
        lines = [f"{number}{'n' * 100_000}" for number in range(500)]
        with Mailmap(MAP) as mailmap:
            answers = mailmap.map_contacts(f"{line} <a@b>" for line in lines * 2)
            next(answers)
            tracemalloc.start()
            self.assertEqual(sum(map(len, answers)), sum(len(line) + 6 for line in lines * 2) - len(lines[0]) - 6)
            _, peak = tracemalloc.get_traced_memory()
            tracemalloc.stop()
        self.assertLess(peak, 1_000_000)

    def test_a_line_feed_inside(self):
        with Mailmap(MAP) as mailmap:
            for line in ("a\nb", "\n\n", "\na"):
                for lines in ([line], [line.encode()], ["x"] * 9 + [line]):
                    with self.assertRaises(NotALine):
                        list(mailmap.map_contacts(lines))

    def test_an_empty_mailmap(self):
        with Mailmap() as mailmap:
            self.assertEqual(list(mailmap.map_contacts(["a  <b>", "c"])), ["a <b>", "c"])


if __name__ == "__main__":
    unittest.main()
