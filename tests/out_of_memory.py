#!/usr/bin/env python3
"""Refuses one request for memory after another of the library's calls, which the program out_of_memory makes.

    out_of_memory.py OUT_OF_MEMORY

Only this has each call of the library for Rattle, and shows that a call succeeds if there is memory. A refused call
must succeed when it is repeated. Contracts say what it answers; what refused merges and lines leave is looked at, too.
"""
import os
import sys
import tempfile
from pathlib import Path

sys.dont_write_bytecode = True
from refusing import Refusing

# Each is refused. `entries` never reports it, rightly, because its collect retries with less.
CALLS = """New FromBytes TryClone Write Merge MergeFew MergeOne FirstSource ThirdSource TryResolve Resolve
ResolveNothing ResolveCow SignatureTryClone FromCow Check Stream Compact NewStream Push FinishLine Verify ReadMailmaps Verification
Explanations Prune Unneeded CountContacts Suggest ContactFindings PushEntry PushCount""".split()
# Calls that don't allocate are made between these allocations of the program. So these are requests that follow each
# other: first around the calls that accept or write nothing, and then around the others.
IN_TURN = ["AheadOfNothing", "AfterNothing", "AfterAll"]
# A refusal that no call reports is one of a collect, which retries with less. Most are in names that are read for what
# is suggested and found: of the characters of a text, of the words in it, and of those words that make a key or tell
# people apart. Others are in entries, verify and unneeded, which list what they found, and in the merge that builds new
# tables of the existing entries and the new ones, because it lists the entries. One is for less memory than a long batch
# has, which it then keeps. Two merges of a long name build the tables anew, by seven requests each, and succeed without
# that.
UNREPORTED = 135


def fail(text):
    sys.exit(f"out of memory: {text}")


def refused_calls(program):
    """The call that each refused request belongs to, in turn, as the program reports it: `nothing` if none does."""
    names = []
    for (status, printed, said), was_refused in Refusing().runs([program]):
        name = printed.decode().removeprefix("refused: ").removesuffix("\n")
        if (status, printed, said) != (0, f"refused: {name}\n".encode(), b""):
            fail(f"request {len(names)}: a call failed unrefused, or left something wrong: {status} {printed} {said}")
        if was_refused:
            names.append(name)
        elif name != "nothing":
            fail(f"{name} reports a refusal, and no request was refused")
    return names


def main(program):
    with tempfile.TemporaryDirectory() as folder:
        program = Path(program).resolve()
        os.chdir(folder)
        names = refused_calls(program)
        os.chdir("/")
    missing = [name for name in CALLS if name not in names]
    if missing:
        fail(f"no request of {', '.join(missing)} was refused")
    if names[-len(IN_TURN):] != IN_TURN:
        fail(f"the last requests are those of {names[-len(IN_TURN):]}, and not of {IN_TURN}")
    unreported = names.count("nothing")
    if unreported != UNREPORTED:
        fail(f"{unreported} refusals that no call reported")
    print(f"{len(names)} requests of the library's calls, each refused")
    print(f"out of memory: {len(names)} passed, 0 failed")


main(*sys.argv[1:])
