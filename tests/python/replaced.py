"""Measures what copies of a mailmap take after merges of entries that it has already.

Texts that merges replace stay in the pool of a mailmap until it has become twice as long. So a copy takes at most twice
the memory of its texts. No contract says so, and the length of the pool isn't public.
"""
import sys

from gix_mailmap import Entry, Mailmap
from heap import allocated, mallinfo

NAME = "N" * 260_000
QUARTER = NAME[:65_000]
COPIES, MERGES = 60, 20
EMAILS = [Entry(QUARTER, None, None, f"{letter}@x") for letter in "abcd"]
NAMES = [Entry(None, QUARTER, letter, "a@x") for letter in "ABCD"]
ONE = [Entry(NAME, None, None, "a@x")]
# The entries of a mailmap, those that are merged again and again, and whether a copy replaces the mailmap before each
# merge: it knows how long its pool was when it was built. One entry is put in place, and so are a few; of many, new
# tables are built.
CASES = [
    (ONE, ONE, False),
    (EMAILS, EMAILS[1:2], False),
    (EMAILS, EMAILS[1:2], True),
    (NAMES, NAMES[:1], False),
    (NAMES, NAMES[:3], False),
    (NAMES, [NAMES[0]] + [Entry("N", None, None, "b@x")] * 16, False),
]


def text_of(entries):
    """A mailmap with these entries."""
    pieces = []
    for entry in entries:
        new = [entry.new_name, entry.new_email and f"<{entry.new_email}>"]
        pieces.append(" ".join(filter(None, [*new, entry.old_name, f"<{entry.old_email}>"])))
    return "\n".join(pieces) + "\n"




def taken(entries, again, is_replaced):
    """The bytes that a copy takes."""
    mailmap, text = Mailmap(text_of(entries)), text_of(again)
    for _ in range(MERGES):
        if is_replaced:
            mailmap = mailmap.copy()
        mailmap.add(text)
    before = allocated()
    copies = [mailmap.copy() for _ in range(COPIES)]
    return (allocated() - before) / len(copies)


if mallinfo is None:
    print("skipped: what copies of mailmaps take, since the C library has no mallinfo2")
    sys.exit()
for case in CASES:
    size = taken(*case)
    assert 260_000 <= size < 540_000, (case[0][0], size)
print(f"Python: copies of {len(CASES)} mailmaps take at most twice their texts")
