"""Counts references and memory over many calls of each function: no call may leak.

    leaks.py [CALLS]
"""
import gc
import io
import itertools
import sys

import gix_mailmap
from gix_mailmap import Entry, Error, Mailmap, _native
from heap import allocated

# Before calls are counted: more than the lines that are cached.
WARM = 7_000
CALLS = int(sys.argv[1]) if sys.argv[1:] else 100_000
MAP = "Jane Doe <jane@x> <jd@y>\nJörg <joe@x>\n"
BYTES = MAP.encode()
LONG = "n" * 1000


def raising(call, *arguments):
    """A call that raises an error."""
    def called():
        try:
            call(*arguments)
        except (Error, TypeError):
            return
        raise AssertionError(call)

    return called


def calls():
    """Each function, and each path through it that holds something meanwhile."""
    mailmap, of_bytes, closed, odd = Mailmap(MAP), Mailmap(BYTES), Mailmap(), Mailmap("")
    closed.close()
    odd.add_entry(Entry("<\n", None, None, "odd@x"))
    buffer, surrogate, wrong = bytearray(b"jd"), "\udcff", "\ud800"
    lines = mailmap.map_contacts(itertools.cycle([f"{number} <jd@y>" for number in range(3000)]))
    texts = mailmap.map_contacts(f"{number} <jd@y>\n" for number in itertools.count())
    looked_up = odd.map_contacts(f"{number} <odd@x>" for number in itertools.count())
    broken = mailmap.map_contacts(itertools.cycle(["a\nb", b"", None, wrong]))
    next(lines), next(texts), next(looked_up)
    entry, no_entry = Entry("N", "n@x", None, "o@x"), Entry(None, None, None, "o@x")
    pairs = [("a", MAP), ("b", "plain\n")]
    return {
        "Mailmap": lambda: Mailmap(MAP, MAP),
        "Mailmap, of a file": lambda: Mailmap(io.StringIO(MAP)),
        "Mailmap, not of texts": raising(Mailmap, MAP, b""),
        "close": lambda: Mailmap().close(),
        "lookup": lambda: mailmap.lookup("jd", "jd@y"),
        "lookup, of bytes": lambda: mailmap.lookup(b"jd", b"joe@x"),
        "lookup, of buffers": lambda: mailmap.lookup(buffer, buffer),
        "lookup, of surrogates": lambda: mailmap.lookup(surrogate, "joe@x"),
        "lookup, of long texts": lambda: mailmap.lookup(LONG, "q"),
        "lookup, by names": lambda: mailmap.lookup(email="joe@x", name="x"),
        "lookup, of no texts": raising(mailmap.lookup, None, ""),
        "lookup, of two kinds": raising(mailmap.lookup, "", b""),
        "lookup, of what can't be encoded": raising(mailmap.lookup, wrong, ""),
        "lookup, closed": raising(closed.lookup, b"", b""),
        "add": lambda: mailmap.add("N <o@x>"),
        "add, of another kind": raising(mailmap.add, b""),
        "add_entry": lambda: mailmap.add_entry(entry),
        "add_entry, none": raising(mailmap.add_entry, no_entry),
        "add_entry, of no entry": raising(mailmap.add_entry, ("", "", "", "")),
        "write": mailmap.write,
        "write, odd": raising(odd.write),
        "entries": of_bytes.entries,
        "an entry": lambda: mailmap[-1],
        "a slice": lambda: mailmap[1:],
        "no entry": raising(mailmap.__getitem__, 9),
        "closed": lambda: closed.closed,
        "map_contacts, lines that come again": lines.__next__,
        "map_contacts, new lines": texts.__next__,
        "map_contacts, by lookups": looked_up.__next__,
        "map_contacts, of no lines": raising(broken.__next__),
        "map_contacts, closed": raising(_native.Stream, closed, []),
        "check": lambda: gix_mailmap.check(MAP, "jd <jd@y>"),
        "compact": lambda: gix_mailmap.compact(BYTES),
        "prune": lambda: gix_mailmap.prune(bytearray(BYTES)),
        "verify": lambda: gix_mailmap.verify("plain\n"),
        "report": lambda: gix_mailmap.report(pairs),
        "report, of no pairs": raising(gix_mailmap.report, ".."),
        "report, as JSON": lambda: gix_mailmap.report(pairs, format="json"),
        "report, for GitHub": lambda: gix_mailmap.report(pairs, ("h", "a <a@x>"), "github"),
        "findings": lambda: gix_mailmap.findings(pairs),
        "parse": lambda: gix_mailmap.parse(MAP),
        "parse, of bytes": lambda: gix_mailmap.parse(b"plain\nN <a@x>"),
        "parse, of no text": raising(gix_mailmap.parse, None),
        "explain": lambda: gix_mailmap.explain(pairs, "jd <jd@y>"),
        "unneeded": lambda: gix_mailmap.unneeded(pairs, ""),
    }


# Each takes a megabyte of the library, so fewer calls have to do.
FEWER = {
    "map_contacts": lambda: list(Mailmap(MAP).map_contacts(["a", "jd <jd@y>\n"])),
    "suggest": lambda: gix_mailmap.suggest([("own", MAP)], "jane <jane@x>\nJane <jane@x>"),
    "findings, of contacts": lambda: gix_mailmap.findings([("own", MAP)], ("h", "jane <jane@x>\nJane <jane@x>")),
}
KEPT = [
    None, True, False, gix_mailmap.Answer, gix_mailmap.Entry, gix_mailmap.Mailmap, _native.Mailmap, _native.Stream,
    gix_mailmap.Closed, gix_mailmap.NotAText, MAP, BYTES, LONG, "",
]


def counts():
    gc.collect()
    return [sys.getrefcount(kept) for kept in KEPT], sys.getallocatedblocks(), allocated()


def leak(call, times):
    """What many calls leak: the most references to one object, blocks of Python, and bytes of malloc."""
    repeat = lambda: [None for _ in itertools.repeat(None, times) if call() is AssertionError]
    for _ in itertools.repeat(None, min(WARM, times)):
        call()
    before = counts()
    repeat()
    after = counts()
    references = max(abs(now - then) for now, then in zip(after[0], before[0]))
    return references, after[1] - before[1], after[2] - before[2]


def main():
    failed, functions = 0, calls()
    most = [(*one, CALLS) for one in functions.items()]
    for name, call, times in most + [(*one, CALLS // 50) for one in FEWER.items()]:
        references, blocks, size = leak(call, times)
        # Allocators may keep memory for later requests, so small numbers are no leak. A leak is a block for each call.
        if max(references, blocks, size // 16) * 10 > times:
            failed += 1
            print(f"{name}: {times:,} calls leak {references:,} references, {blocks:,} blocks and {size:,} bytes")
    print(f"leaks: {len(functions) + len(FEWER) - failed} passed, {failed} failed")
    sys.exit(1 if failed else 0)


main()
