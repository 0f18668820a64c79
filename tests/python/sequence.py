"""A mailmap is a sequence of its entries, like a list of them."""
import unittest
from collections.abc import Sequence

from gix_mailmap import Entry, Error, Mailmap

COUNT = 20
WHOLE = [Entry(f"N{number:02}", None, None, f"a{number:02}@x") for number in range(COUNT)]
TEXT = "".join(f"{entry.new_name} <{entry.old_email}>\n" for entry in WHOLE)


class Entries(unittest.TestCase):
    def setUp(self):
        self.mailmap = Mailmap(TEXT)
        self.addCleanup(self.mailmap.close)

    def test_as_a_list(self):
        self.assertIsInstance(self.mailmap, Sequence)
        self.assertEqual(len(self.mailmap), COUNT)
        self.assertEqual(list(self.mailmap), WHOLE)
        self.assertEqual(self.mailmap.entries(), WHOLE)
        self.assertEqual(list(reversed(self.mailmap)), WHOLE[::-1])
        self.assertEqual([self.mailmap[place] for place in range(-COUNT, COUNT)], WHOLE + WHOLE)

    def test_slices(self):
        bounds = [None, -100, -21, -20, -19, -3, -1, 0, 1, 7, 19, 20, 21, 100]
        for start in bounds:
            for stop in bounds:
                for step in (None, -3, -1, 1, 2):
                    self.assertEqual(self.mailmap[start:stop:step], WHOLE[start:stop:step])
        with self.assertRaises(ValueError):
            self.mailmap[::0]

    def test_what_is_no_index(self):
        for place in (COUNT, -COUNT - 1, 2**63 - 1, 2**63, 2**64, -2**64):
            with self.assertRaises(IndexError) as raised:
                self.mailmap[place]
            self.assertIsInstance(raised.exception, Error)
        for wrong in ("0", 0.0, None):
            with self.assertRaises(TypeError):
                self.mailmap[wrong]

    def test_search(self):
        other = Entry("N99", None, None, "a99@x")
        self.assertTrue(WHOLE[7] in self.mailmap and other not in self.mailmap and None not in self.mailmap)
        self.assertEqual((self.mailmap.index(WHOLE[7]), self.mailmap.index(WHOLE[7], 5, -2)), (7, 7))
        self.assertEqual((self.mailmap.count(WHOLE[7]), self.mailmap.count(other)), (1, 0))
        for search in ((other,), (WHOLE[7], 8), (WHOLE[7], 0, 7)):
            with self.assertRaises(ValueError):
                self.mailmap.index(*search)

    def test_an_iterator_keeps_the_entries(self):
        entries = iter(self.mailmap)
        self.mailmap.add("N <b@x>")
        self.mailmap.close()
        self.assertEqual(list(entries), WHOLE)

    def test_truth(self):
        self.assertTrue(self.mailmap)
        self.assertFalse(Mailmap())


if __name__ == "__main__":
    unittest.main()
