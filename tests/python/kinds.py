"""`str` in, `str` out; bytes in, bytes out; and the errors."""
import array
import unittest
from unittest import mock

import gix_mailmap
from gix_mailmap import (
    Answer, Closed, Entry, Error, Finding, Kind, Mailmap, NoEntry, NotAnEntry, OutOfMemory, Position, Unwritable,
)
from gix_mailmap import NotALine, NotAText, _native

TEXT = "Jörg Doe <j@x> <jd@y>\n"
JOERG = b"J\xf6rg <j@x>\n"


class LongerBytes(bytes):
    """Bytes that report a greater length."""

    def __len__(self):
        return 10**9


class LongerStr(str):
    """A `str` that overrides `encode`."""

    def encode(self, *_):
        return LongerBytes(b"x")


class Kinds(unittest.TestCase):
    def test_lookup_answers_in_the_kind_of_the_contact(self):
        for text in (TEXT, TEXT.encode(), bytearray(TEXT.encode()), memoryview(TEXT.encode())):
            with Mailmap(text) as mailmap:
                self.assertEqual(mailmap.lookup("jd", "jd@y"), Answer("Jörg Doe", "j@x", True, True))
                found = Answer("Jörg Doe".encode(), b"j@x", True, True)
                self.assertEqual(mailmap.lookup(b"jd", b"jd@y"), found)
                self.assertEqual(mailmap.lookup(bytearray(b"jd"), memoryview(b"jd@y")), found)
                self.assertEqual(mailmap.lookup(memoryview(b"d_j_")[2::-2], b"jd@y"), found)

    def test_entries_are_of_the_kind_of_the_mailmap(self):
        entry = Entry("Jörg Doe", "j@x", None, "jd@y")
        with Mailmap(TEXT) as mailmap:
            self.assertEqual((mailmap[0], list(mailmap), mailmap[:]), (entry, [entry], [entry]))
        entry = Entry("Jörg Doe".encode(), b"j@x", None, b"jd@y")
        with Mailmap(bytearray(TEXT.encode()), b"") as mailmap:
            self.assertEqual((mailmap[0], list(mailmap), mailmap[:]), (entry, [entry], [entry]))
        with Mailmap() as mailmap:
            mailmap.add(TEXT.encode())
            self.assertEqual(mailmap[0], entry)

    def test_calls_over_texts_answer_in_their_kind(self):
        for call in (gix_mailmap.compact, gix_mailmap.prune):
            answer = call("N <ä@x>\n")
            self.assertIsInstance(answer, str)
            for kind in (bytes, bytearray, memoryview):
                self.assertEqual(call(kind("N <ä@x>\n".encode())), answer.encode())
        self.assertEqual(gix_mailmap.check(TEXT, "jd <jd@y>"), "Jörg Doe <j@x>\n")
        self.assertEqual(gix_mailmap.check(memoryview(TEXT.encode()), bytearray(b"-")), b"-\n")
        for kind in (bytes, bytearray, memoryview):
            found = [Finding(1, Kind.NO_EMAIL, None, None, "error: no email in brackets [no-email]")]
            self.assertEqual(gix_mailmap.verify(kind(b"plain")), found)
        self.assertEqual(gix_mailmap.verify("plain"), gix_mailmap.verify(b"plain"))
        self.assertEqual(gix_mailmap.report([("ä", "x")]), "ä:1: error: no email in brackets [no-email]\n")
        for kind in (bytes, bytearray, memoryview):
            error = b"a:1: error: no email in brackets [no-email]\n"
            self.assertEqual(gix_mailmap.report([(kind(b"a"), kind(b"x"))]), error)
        self.assertEqual(gix_mailmap.unneeded([("ä", TEXT)], "jö <ä>"), [Position(0, 1)])
        for kind in (bytes, bytearray, memoryview):
            self.assertEqual(gix_mailmap.unneeded([(kind(b"a"), kind(TEXT.encode()))], kind(b"j <jd@y>")), [])

    def test_subclasses_are_taken_for_what_they_hold(self):
        self.assertEqual(gix_mailmap.check(LongerBytes(b"N <b>"), LongerBytes(b"a <b>")), b"N <b>\n")
        self.assertEqual(gix_mailmap.check(LongerStr("N <b>"), LongerStr("a <b>")), "N <b>\n")
        with Mailmap(LongerBytes(b"N <b>")) as mailmap:
            self.assertEqual(mailmap.lookup(LongerBytes(b"a"), LongerBytes(b"b")), Answer(b"N", b"b", True, False))
            self.assertEqual(list(mailmap.map_contacts([LongerBytes(b"a <b>")])), [b"N <b>"])

    def test_what_is_not_utf_8(self):
        text = JOERG.decode(errors="surrogateescape")
        with Mailmap(text) as mailmap:
            name = mailmap.lookup("jd", "j@x").name
            self.assertEqual((name, mailmap[0].new_name), ("J\udcf6rg", "J\udcf6rg"))
            self.assertEqual(name.encode(errors="surrogateescape"), b"J\xf6rg")
            self.assertEqual(mailmap.lookup(b"jd", b"j@x").name, b"J\xf6rg")
            self.assertEqual(list(mailmap.map_contacts(["\udcff <j@x>"])), ["J\udcf6rg <j@x>"])
        with Mailmap("") as mailmap:
            for call in (gix_mailmap.compact, gix_mailmap.verify, mailmap.add, lambda text: mailmap.lookup(text, "")):
                with self.assertRaises(NotAText):
                    call("\ud800 <j@x>")
            with self.assertRaises(NotAText):
                list(mailmap.map_contacts(["a", "\ud800"]))

    def test_mixed_kinds(self):
        with Mailmap(TEXT) as of_str, Mailmap(TEXT.encode()) as of_bytes:
            calls = [
                lambda: Mailmap("", b""),
                lambda: of_str.add(b""),
                lambda: of_bytes.add(""),
                lambda: of_str.lookup("", b""),
                lambda: of_bytes.lookup(bytearray(), ""),
                lambda: gix_mailmap.check("", b""),
                lambda: gix_mailmap.report([("", b"")]),
                lambda: gix_mailmap.report([("", ""), (b"", b"")]),
                lambda: gix_mailmap.report([("", "")], (b"", b"")),
                lambda: gix_mailmap.findings([(b"", b"")], ("", "")),
                lambda: gix_mailmap.unneeded([("", b"")], ""),
                lambda: gix_mailmap.unneeded([("", "")], b""),
                lambda: list(of_str.map_contacts(["", b""])),
                lambda: list(of_str.map_contacts(["x"] * 10_000 + [b""])),
            ]
            for call in calls:
                with self.assertRaises(TypeError):
                    call()

    def test_what_is_no_text(self):
        self.assertEqual(gix_mailmap.compact(array.array("b", b"N <a@x>")), b" N <a@x>\n")
        for wrong in (None, 1, [b"N <a@x>"], (b"",)):
            for call in (Mailmap, Mailmap().add, gix_mailmap.compact, gix_mailmap.prune, gix_mailmap.verify):
                with self.assertRaises(TypeError):
                    call(wrong)
            for call in (gix_mailmap.check, Mailmap().lookup):
                for arguments in ((wrong, b""), (b"", wrong), ("", wrong), (wrong, wrong)):
                    with self.assertRaises(TypeError):
                        call(*arguments)
            with self.assertRaises(TypeError):
                list(Mailmap().map_contacts([wrong]))


class Errors(unittest.TestCase):
    def test_each_error_is_also_one_of_pythons(self):
        self.assertTrue(issubclass(Error, Exception))
        for error, usual in (
            (Closed, ValueError), (NoEntry, IndexError), (NotALine, ValueError), (NotAnEntry, ValueError),
            (NotAText, UnicodeEncodeError), (OutOfMemory, MemoryError), (Unwritable, ValueError),
        ):
            self.assertTrue(issubclass(error, Error) and issubclass(error, usual))

    def test_kinds_of_a_later_library(self):
        said = ":1: warning: no effect: :2 says the same [no-effect]\n:3: warning: odd [odd]\n"
        with mock.patch.object(_native, "verify", lambda _text: ([(1, 7, 2), (3, 100, 0)], said)):
            known, later = gix_mailmap.verify("")
        words = "warning: no effect: line 2 says the same [no-effect]"
        self.assertEqual(known, Finding(1, Kind.NO_EFFECT, 2, None, words))
        self.assertEqual(later, Finding(3, Kind(100), None, None, "warning: odd [odd]"))
        self.assertEqual((later.kind, later.kind.name, str(later.kind)), (100, "NUMBER_100", "100"))
        for wrong in (0, -1, "100"):
            with self.assertRaises(ValueError):
                Kind(wrong)


if __name__ == "__main__":
    unittest.main()
