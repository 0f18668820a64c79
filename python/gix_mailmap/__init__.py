"""Mailmaps say which names and emails to show in place of others. A library for them with a proved core:

>>> from gix_mailmap import Mailmap
>>> with Mailmap("Jane Doe <jane@x> <jd@y>\\n") as mailmap:
...     mailmap.lookup("jd", "JD@y")
Answer(name='Jane Doe', email='jane@x', is_name_given=True, is_email_given=True)

Texts are `str` or bytes, or open files of these, and a call returns texts of the same kind, except in findings. Bytes
may be any, as nothing says how a mailmap is encoded; in a `str`, bytes that aren't UTF-8 are lone surrogates
(`surrogateescape`). An object with the buffer protocol, such as a `bytearray`, counts as bytes. Any call that takes a
`str` raises NotAText if it has a surrogate that doesn't stand for a byte, and OutOfMemory if there is no memory.

The errors of the module are of the class Error, and also of Python's own class for that case. Not an Error are: a
TypeError for an argument of a wrong type, the ValueError that `index` and a slice raise as those of a list do, the
OSError of `from_path` and `of_repository`, and the ImportError of a failed import.
"""

from ._mailmap import Mailmap, check, compact, explain, findings, parse, prune, report, suggest, unneeded, verify
from ._native import version as __version__
from ._results import Answer, Closed, Entry, Error, Finding, Kind, Line, Named, NoEntry, NotALine, NotAnEntry, NotAText
from ._results import Notice, OutOfMemory, Place, Position, Unwritable

__all__ = [
    "Answer", "Closed", "Entry", "Error", "Finding", "Kind", "Line", "Mailmap", "Named", "NoEntry", "NotALine",
    "NotAText", "NotAnEntry", "Notice", "OutOfMemory", "Place", "Position", "Unwritable", "__version__", "check", "compact",
    "explain", "findings", "parse", "prune", "report", "suggest", "unneeded", "verify",
]
