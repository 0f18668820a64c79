"""Mailmaps shared by threads, and the garbage collector at any time."""
import faulthandler
import gc
import itertools
import sys
import threading
import time
import tracemalloc
import unittest
import weakref
from collections import Counter, deque

import gix_mailmap
from gix_mailmap import Answer, Closed, Mailmap

MAP = "Jane Doe <jane@x> <jd@y>\n"
JANE = Answer("Jane Doe", "jane@x", True, True)
MANY = "".join(f"N{number} <n{number}@x> <o{number}@y>\n" for number in range(20_000))


def together(*works):
    """Runs functions in parallel, and raises an exception if one of them did."""
    errors = []

    def run(work):
        try:
            work()
        except BaseException as error:
            errors.append(error)

    threads = [threading.Thread(target=run, args=(work,)) for work in works]
    for thread in threads:
        thread.start()
    for thread in threads:
        thread.join()
    if errors:
        raise errors[0]


class Ending(unittest.TestCase):
    """A call that hangs ends the tests. An exception in a thread or a `__del__` makes a test fail."""

    def setUp(self):
        faulthandler.dump_traceback_later(120, exit=True)
        self.addCleanup(faulthandler.cancel_dump_traceback_later)
        self.printed = []
        self.addCleanup(setattr, sys, "unraisablehook", sys.unraisablehook)
        self.addCleanup(setattr, threading, "excepthook", threading.excepthook)
        sys.unraisablehook = threading.excepthook = lambda args: self.printed.append(repr(args.exc_value))
        self.addCleanup(lambda: self.assertEqual(self.printed, []))


class Lock(Ending):
    """Whether other threads run during a call. They never interrupt one another here: each runs until it waits, or
    until a call lets others run."""

    def setUp(self):
        super().setUp()
        self.addCleanup(sys.setswitchinterval, sys.getswitchinterval())
        sys.setswitchinterval(10_000)

    def others_run(self, call, meanwhile=lambda: None):
        """Whether this thread runs while another one makes a call."""
        begun, done, answers = threading.Event(), [], []

        def run():
            begun.set()
            answers.append(call())
            done.append(True)

        thread = threading.Thread(target=run)
        thread.start()
        begun.wait()
        is_beside = not done
        meanwhile()
        thread.join()
        return is_beside, answers[0]

    def test_calls_of_texts_let_others_run(self):
        """The bytes that a buffer had at first count, whatever other threads do with it."""
        text, contacts = MANY.encode() * 5, b"".join(b"a <o%d@y>\n" % number for number in range(50_000))
        calls = [
            lambda map: gix_mailmap.check(map, contacts), gix_mailmap.compact, gix_mailmap.prune, gix_mailmap.verify,
            lambda map: gix_mailmap.report([(b"", map)]), lambda map: gix_mailmap.explain([(b"", map)], contacts),
            lambda map: gix_mailmap.unneeded([(b"", map)], contacts), lambda map: Mailmap(map).entries(),
            lambda map: gix_mailmap.suggest([(b"", map)], contacts),
        ]
        for call in calls:
            wanted, beside = call(text), False
            for _ in range(100):
                buffer = bytearray(text)
                beside, answer = self.others_run(lambda: call(buffer), buffer.clear)
                # Another thread may have changed it before the call began.
                if beside and answer == wanted:
                    break
            self.assertTrue(beside)
            self.assertEqual(answer, wanted)

    def test_calls_of_mailmaps_do_not(self):
        mailmap = Mailmap(MANY)
        calls = [
            lambda: mailmap.add(MANY), mailmap.entries, mailmap.write, lambda: len(mailmap),
            lambda: deque(mailmap.map_contacts(["a <o1@y>"] * 1000), maxlen=0),
        ]
        for call in calls:
            self.assertEqual([self.others_run(call)[0] for _ in range(3)], [False] * 3)


class Threads(Ending):
    def setUp(self):
        super().setUp()
        self.addCleanup(sys.setswitchinterval, sys.getswitchinterval())
        sys.setswitchinterval(1e-6)

    def test_a_mailmap_that_another_thread_closes(self):
        for _ in range(100):
            mailmap = Mailmap(MAP)
            started = threading.Barrier(4)

            def use():
                started.wait()
                with self.assertRaises(Closed):
                    while True:
                        self.assertEqual(mailmap.lookup("jd", "jd@y"), JANE)
                        self.assertEqual(len(mailmap.entries()), 1)

            def close():
                started.wait()
                mailmap.lookup("jd", "jd@y")
                mailmap.close()
                self.assertTrue(mailmap.closed)

            together(use, use, use, close)

    def test_a_long_call_that_another_thread_closes(self):
        for pause in (0, 0.0005, 0.001, 0.002, 0.004, 0.008, 0.016) * 3:
            mailmap = Mailmap(MAP)

            def add():
                with self.assertRaises(Closed):
                    while True:
                        mailmap.add(MANY)
                        mailmap.entries()

            def close():
                time.sleep(pause)
                mailmap.close()

            together(add, close)

    def test_entries_while_others_are_added(self):
        """Each answer is one from before or after an `add`."""
        mailmap, done = Mailmap(""), [threading.Event(), threading.Event()]

        def add():
            for number in itertools.count():
                mailmap.add(f"{'N' * (number % 500)} <n@x> <o@x>\nM <{number % 500}@x>\n")
                if all(event.is_set() for event in done):
                    break

        def use(event):
            for _ in range(200):
                length = len(mailmap)
                entries = mailmap.entries()
                self.assertGreaterEqual(len(entries), length)
                for entry in entries:
                    name = entry.new_name or ""
                    self.assertEqual(name.strip("N"), "" if entry.old_email == "o@x" else "M")
                answer, = mailmap.map_contacts(["a <o@x>"])
                self.assertRegex(answer, "^(a <o@x>|a <n@x>|N+ <n@x>)$")
                self.assertRegex(mailmap.lookup("a", "o@x").name, "^(a|N+)$")
            event.set()

        together(add, *(lambda event=event: use(event) for event in done))

    def test_answers_of_all_lengths(self):
        """A buffer is used by only one call at a time."""
        mailmap = Mailmap(MAP)

        def use(letter):
            for length in [*range(0, 600, 7), 100_000] * 20:
                text = letter * length
                self.assertEqual(mailmap.lookup(text, text), Answer(text, text, False, False))

        together(*(lambda letter=letter: use(letter) for letter in "abcd"))

    def test_one_stream_by_each_thread(self):
        mailmap = Mailmap(MANY)
        lines = [f"a <o{number % 30_000}@y>\n" for number in range(100_000)]
        numbers = [number % 30_000 for number in range(100_000)]
        wanted = [f"N{n} <n{n}@x>" if n < 20_000 else f"a <o{n}@y>" for n in numbers]
        together(*[lambda: self.assertEqual(list(mailmap.map_contacts(lines)), wanted)] * 3)

    def test_a_stream_by_several_threads(self):
        """Each answer is returned to one of them."""
        mailmap = Mailmap(MANY)
        lines = [f"a <o{number % 30_000}@y>\n" for number in range(100_000)]
        wanted = Counter(mailmap.map_contacts(lines))
        answers, found = mailmap.map_contacts(lines), []
        together(*[lambda: found.append(Counter(answers))] * 4)
        self.assertEqual(sum(found, Counter()), wanted)


class Cycles(Ending):
    """A `__del__` that calls a mailmap, wherever the collector can run."""

    def setUp(self):
        super().setUp()
        self.addCleanup(gc.set_threshold, *gc.get_threshold())

    def collect_after(self, allocations):
        """Makes the collector run after this many allocations."""
        gc.set_threshold(allocations, 1_000_000, 1_000_000)

    def cycle(self, at_end, *kept):
        """Makes garbage that calls a function when it is collected."""

        class Node:
            def __del__(self):
                at_end()

        node = Node()
        node.itself, node.kept = node, kept

    def test_a_text_that_makes_calls_as_it_is_read(self):
        """The call follows their own work."""
        class Text:
            def __init__(self, call):
                self.call = call

            def read(self):
                self.call()
                return "N <a@x>"

        mailmap = Mailmap(MAP)
        mailmap.add(Text(lambda: mailmap.add("M <a@x>")))
        mailmap.add(Text(lambda: self.assertEqual(mailmap.lookup("jd", "jd@y"), JANE)))
        self.assertEqual(mailmap.lookup("", "a@x").name, "N")
        with self.assertRaises(Closed):
            mailmap.add(Text(mailmap.close))
        mailmap.__init__(MAP, Text(mailmap.close))
        self.assertEqual(mailmap.lookup("jd", "jd@y"), JANE)

    def test_calls_in_the_middle_of_calls(self):
        mailmap, calls = Mailmap(MAP, "".join(f"N <{number}@x>\n" for number in range(100))), itertools.count()

        def at_end():
            number = next(calls)
            assert mailmap.lookup("x" * (number % 200), "y").name == "x" * (number % 200)
            mailmap.add(f"M <{number % 10}@z>")
            assert len(mailmap.entries()) == len(mailmap)

        for round in range(600):
            self.collect_after(1 + round % 60)
            self.cycle(at_end)
            self.assertEqual(mailmap.lookup("jd", "jd@y"), JANE)
            self.cycle(at_end)
            self.assertGreater(len(mailmap.entries()), 100)
            self.cycle(at_end)
            self.assertEqual(list(mailmap.map_contacts(["a <7@x>"])), ["N <7@x>"])
        gc.collect()
        self.assertEqual(next(calls), 1800)

    def test_a_mailmap_that_is_closed_in_the_middle_of_a_call(self):
        closed = 0
        for round in range(600):
            mailmap = Mailmap(MAP)
            self.collect_after(1 + round % 60)
            self.cycle(mailmap.close)
            try:
                for _ in range(20):
                    self.assertEqual(mailmap.lookup("jd", "jd@y"), JANE)
                    self.assertEqual(len(mailmap.entries()), 1)
            except Closed:
                closed += 1
        self.assertGreater(closed, 0)

    def test_a_mailmap_in_a_cycle_is_closed(self):
        maps = []
        for _ in range(100):
            mailmap = Mailmap(MAP)
            maps.append(weakref.ref(mailmap))
            self.cycle(mailmap.close, mailmap)
            self.cycle(lambda mailmap=mailmap: mailmap.closed or mailmap.lookup("jd", "jd@y"), mailmap)
        del mailmap
        gc.collect()
        self.assertFalse(any(reference() for reference in maps))

    def test_a_stream_in_a_cycle_is_freed(self):
        class Lines:
            def __iter__(self):
                return self

            def __next__(self):
                return "a"

        references = []
        for _ in range(100):
            lines = Lines()
            lines.answers = Mailmap(MAP).map_contacts(lines)
            next(lines.answers)
            references.append(weakref.ref(lines))
        del lines
        gc.collect()
        self.assertFalse(any(reference() for reference in references))

    def test_a_mailmap_that_a_del_brings_back(self):
        """A mailmap that a `__del__` keeps alive either is closed or answers."""
        back = []
        mailmap = Mailmap(MAP)
        self.cycle(lambda mailmap=mailmap: back.append(mailmap), mailmap)
        del mailmap
        gc.collect()
        for mailmap in back:
            try:
                self.assertEqual(mailmap.lookup("jd", "jd@y"), JANE)
            except Closed:
                self.assertTrue(mailmap.closed)

    def test_others_collect_during_long_calls(self):
        mailmap, done = Mailmap(MAP), threading.Event()

        def add():
            for _ in range(10):
                mailmap.add(MANY)
            done.set()

        def collect():
            while not done.is_set():
                for _ in range(10):
                    other = Mailmap(MAP)
                    self.cycle(other.close, other, mailmap)
                gc.collect()

        together(add, collect, collect)
        self.assertEqual(len(mailmap), 20_001)


class Buffers(unittest.TestCase):
    def test_long_buffers_are_not_kept(self):
        long = b"n" * 10_000_000
        with Mailmap(b"%b <n@x>" % long) as mailmap:
            mailmap.lookup(b"a", b"b")
            mailmap.map_contacts([])
            tracemalloc.start()
            before, _ = tracemalloc.get_traced_memory()
            for _ in range(3):
                self.assertEqual(mailmap.lookup(b"a", b"n@x").name, long)
                self.assertEqual(mailmap.lookup(long, b"b").name, long)
                self.assertEqual(mailmap[0].new_name, long)
                self.assertEqual(len(mailmap.entries()), 1)
            after, most = tracemalloc.get_traced_memory()
            tracemalloc.stop()
        self.assertGreater(most - before, len(long))
        self.assertLess(after - before, 100_000)


if __name__ == "__main__":
    unittest.main()
