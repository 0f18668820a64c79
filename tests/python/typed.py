"""What type checkers have to know about the calls. mypy reads this; nothing runs it."""
from typing import Iterator, Sequence, assert_type

import gix_mailmap
from gix_mailmap import Answer, Entry, Finding, Kind, Line, Mailmap, Named, Notice, Position


class Own(Mailmap[str]):
    pass


buffer = bytearray()
with Mailmap("") as of_str, Mailmap(b"", buffer, memoryview(buffer)) as of_bytes:
    assert_type(of_str, Mailmap[str])
    assert_type(of_bytes, Mailmap[bytes])
    assert_type(Mailmap(), Mailmap[bytes])
    with Own("") as own:
        assert_type(own, Own)
    entries: Sequence[Entry[str]] = of_str

    assert_type(of_str.lookup("", ""), Answer[str])
    assert_type(of_str.lookup(b"", buffer).name, bytes)
    assert_type(of_bytes.lookup("", "").email, str)
    assert_type(of_bytes.lookup(b"", b"").is_name_given, bool)

    assert_type(of_str[0], Entry[str])
    assert_type(of_str[0].old_email, str)
    assert_type(of_bytes[1:], list[Entry[bytes]])
    assert_type(of_bytes.entries()[0].new_name, bytes | None)
    assert_type([entry.old_email for entry in of_str], list[str])
    assert_type(of_str.closed, bool)
    assert_type(of_str.write(), str)
    assert_type(of_bytes.write(), bytes)

    assert_type(of_str.map_contacts([b""]), Iterator[bytes])
    assert_type(of_bytes.map_contacts(iter([""])), Iterator[str])

    assert_type(of_bytes.map_contact(""), str)
    assert_type(of_str.map_contact(buffer), bytes)
    with Mailmap.of_repository() as of_repository, Mailmap.from_path(".mailmap") as from_path:
        assert_type(of_repository, Mailmap[str])
        assert_type(from_path, Mailmap[str])
        for contact in of_repository.map_contacts([b""]):
            assert_type(contact, bytes)

    of_bytes.add(buffer)
    of_str.add("")
    of_bytes.add("")  # type: ignore[arg-type]
    of_str.add(b"")  # type: ignore[arg-type]
    of_str.add_entry(Entry("N", None, None, "a@x"))
    of_str.add_entry(Entry(new_name="N", old_email="a@x"))
    of_str.add_entry(Entry(b"N", None, None, b"a@x"))  # type: ignore[arg-type]
    of_str.lookup("", b"")  # type: ignore[call-overload]
    gix_mailmap.check("", b"")  # type: ignore[call-overload]
    Mailmap("", b"")  # type: ignore[call-overload]
    gix_mailmap.compact(1)  # type: ignore[call-overload]
    gix_mailmap.report([("", b"")])  # type: ignore[list-item]
    gix_mailmap.report([("", "")], (b"", b""))  # type: ignore[arg-type]
    gix_mailmap.findings([("", "")], (b"", b""))  # type: ignore[arg-type]
    gix_mailmap.parse(1)  # type: ignore[arg-type]
    gix_mailmap.explain([("", "")], b"")  # type: ignore[list-item]
    gix_mailmap.suggest([("", "")], b"")  # type: ignore[list-item]
    gix_mailmap.unneeded([("", "")], b"")  # type: ignore[type-var]

assert_type(gix_mailmap.check("", ""), str)
assert_type(gix_mailmap.compact(buffer), bytes)
assert_type(gix_mailmap.prune(b""), bytes)
assert_type(gix_mailmap.report([("", "")]), str)
assert_type(gix_mailmap.report({b"": b""}.items()), bytes)
assert_type(gix_mailmap.report([("", "")], ("", ""), format="json"), str)
assert_type(gix_mailmap.report({b"": b""}.items(), format="github"), bytes)
assert_type(gix_mailmap.findings([("", "")]), list[Notice[str]])
assert_type(gix_mailmap.findings({b"": b""}.items(), (b"", b""))[0].message, bytes)
assert_type(gix_mailmap.findings([("", "")])[0].named.name, str | None)
assert_type(gix_mailmap.findings([("", "")])[0].beside, Named[str] | None)
assert_type(gix_mailmap.parse(""), list[Line])
assert_type(gix_mailmap.parse(buffer)[0].old_email, slice | None)
assert_type(gix_mailmap.explain([("", "")], ""), str)
assert_type(gix_mailmap.explain({b"": buffer}.items(), b""), bytes)
assert_type(gix_mailmap.suggest([("", "")], ""), str)
assert_type(gix_mailmap.suggest({b"": buffer}.items(), b""), bytes)
assert_type(gix_mailmap.unneeded([("", "")], ""), list[Position])
assert_type(gix_mailmap.unneeded({b"": buffer}.items(), b"")[0].mailmap, int)
assert_type(gix_mailmap.verify(""), list[Finding])
assert_type(gix_mailmap.verify(b"")[0].kind, Kind)
assert_type(gix_mailmap.__version__, str)
