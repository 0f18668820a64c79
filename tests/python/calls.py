"""The calls of the package gix_mailmap, and the exceptions they raise."""
import copy
import gc
import io
import pickle
import tempfile
import unittest
from pathlib import Path
from unittest.mock import Mock

import gix_mailmap
from gix_mailmap import Answer, Closed, Entry, Finding, Kind, Mailmap, Named, NotALine, NotAnEntry, Notice, Place, Position
from gix_mailmap import Unwritable

MAP = b"Jane Doe <jane@x> <jd@y>\nJoe <joe@x>\n"
JANE = Entry(b"Jane Doe", b"jane@x", None, b"jd@y")
JOE = Entry(b"Joe", None, None, b"joe@x")
COUNT = 200_000
# what follows an ignored text that looks like a name
CURE = " (an old name needs an email after it)"
MANY = b"".join(b" N%d <%d@x>\n" % (number, number) for number in range(COUNT, 2 * COUNT))


class Texts(unittest.TestCase):
    def test_check(self):
        self.assertEqual(gix_mailmap.check(MAP, b"jd <JD@y>\r\nplain"), b"Jane Doe <jane@x>\nplain\n")
        self.assertEqual(gix_mailmap.check(b"", b""), b"")

    def test_an_answer_longer_than_the_first_buffer(self):
        lines = b"plain line\n" * 10_000
        self.assertEqual(gix_mailmap.check(MAP, lines), lines)

    def test_compact(self):
        self.assertEqual(gix_mailmap.compact(b"N <a@x>\nM <A@x>"), b" M <a@x>\n")

    def test_prune(self):
        self.assertEqual(gix_mailmap.prune(b"N <a@x>\n# why\nM <a@x>\nplain"), b"# why\nM <a@x>\nplain")

    def test_verify(self):
        """One mailmap for each kind: what is found in it, and the words of mailmap_verify."""
        cases = [
            (b"plain", [(1, Kind.NO_EMAIL, None, None, "error: no email in brackets [no-email]")]),
            (b"Jane <a@x", [
                (1, Kind.MISSING_CLOSING_BRACKET, None, None, "error: the first '<' has no '>' [unclosed-email]"),
            ]),
            (b"Jane < > <b@x>", [
                (1, Kind.EMPTY_EMAIL, None, None, "error: the first email is empty [empty-email]"),
                (1, Kind.GIT_READS, None, "it as Jane < > <b@x>",
                 "warning: git reads it as Jane < > <b@x> [git-reads]"),
            ]),
            (b"<a@x>", [(1, Kind.NOTHING_TO_MAP, None, None, "error: an email alone maps nothing [nothing-to-map]")]),
            (b"Jo <c@x> <d", [
                (1, Kind.UNCLOSED_SECOND, None, None, "error: the second '<' has no '>' [unclosed-second-email]"),
            ]),
            (b"Joe <joe@x> joe\x1b\xff", [
                (1, Kind.IGNORED_TEXT, None, "joe\\x1b\udcff",
                 f"warning: ignored text: joe\\x1b\udcff{CURE} [ignored-text]"),
            ]),
            (b"Joe <joe@x> #" + CURE.encode(), [
                (1, Kind.IGNORED_TEXT, None, "#" + CURE, f"warning: ignored text: #{CURE} [ignored-text]"),
            ]),
            (b"N <e@x>\n\nM <e@x>", [
                (1, Kind.NO_EFFECT, 3, None, "warning: no effect: line 3 says something else [no-effect]"),
            ]),
            (b"N <e@x>\nN <e@x>", [
                (1, Kind.NO_EFFECT, 2, None, "warning: no effect: line 2 says the same [no-effect]"),
            ]),
            (b"Eve <eve@w> <eve@o>\n<eve@e> <eve@w>", [
                (1, Kind.ITSELF_MAPPED, None, "Eve <eve@e>",
                 "warning: Eve <eve@w> is itself mapped, to Eve <eve@e> by line 2 [itself-mapped]"),
            ]),
            (b"x> is itself mapped, to y <a@x> <b@x>\nZ <a@x>", [
                (1, Kind.ITSELF_MAPPED, None, "Z <a@x>",
                 "warning: x> is itself mapped, to y <a@x> is itself mapped, to Z <a@x> by line 2 [itself-mapped]"),
            ]),
            (b"J is itself mapped, to J <a@x> <b@x>\n<c@x> <a@x>", [
                (1, Kind.ITSELF_MAPPED, None, "J is itself mapped, to J <c@x>",
                 "warning: J is itself mapped, to J <a@x> is itself mapped, to J is itself mapped, to J <c@x> by line 2 "
                 "[itself-mapped]"),
            ]),
            (b"by :1 <a@w> <a@o>\nZ <z@x> z <A@w>\nE by :9 <A@w>", [
                (1, Kind.ITSELF_MAPPED, None, "E by :9 <A@w>",
                 "warning: by :1 <a@w> is itself mapped, to E by :9 <A@w> by line 2, line 3 [itself-mapped]"),
            ]),
            (b"J\0e <joe@x>", [
                (1, Kind.GIT_READS, None, "nothing here", "warning: git reads nothing here [git-reads]"),
            ]),
            (b"\xef\xbb\xbf # J <j@x>", [
                (1, Kind.BYTE_ORDER_MARK, None, None, "warning: byte order mark: delete it [byte-order-mark]"),
                (1, Kind.COMMENT_IN_LINE, None, None,
                 "warning: the name begins with #, which begins a comment only as the first byte of a line "
                 "[comment-in-line]"),
            ]),
            (MAP, []),
            (b"", []),
        ]
        for mailmap, found in cases:
            for text in (mailmap, mailmap.decode(errors="surrogateescape")):
                with self.subTest(mailmap=text):
                    findings = gix_mailmap.verify(text)
                    self.assertEqual(findings, [Finding(*one) for one in found])
                    self.assertEqual([str(finding) for finding in findings], [one[-1] for one in found])

    def test_report(self):
        both = [(b"team", b"N <e@x>\nplain\n"), (b"own", b"M <e@x>\nI <i@x> \x1b")]
        lines = [
            b"team:1: warning: no effect: own:1 says something else [no-effect]",
            b"team:2: error: no email in brackets [no-email]",
            b"own:2: warning: ignored text: \\x1b" + CURE.encode() + b" [ignored-text]",
        ]
        self.assertEqual(gix_mailmap.report(both), b"".join(line + b"\n" for line in lines))
        error = b":1: error: no email in brackets [no-email]\n"
        self.assertEqual(gix_mailmap.report(iter([(b"", b"plain"), (b"a\0b", b"")])), error)
        self.assertEqual(gix_mailmap.report([(b"a\0b", b"\0\nN <e@x>")]), b"a\\x00b" + error)
        self.assertEqual(gix_mailmap.report([]), b"")
        many = gix_mailmap.report([(b"many", b"plain\n" * COUNT)])
        self.assertEqual(many.count(b": error: no email in brackets [no-email]\n"), COUNT)
        self.assertTrue(many.endswith(b"\nmany:200000: error: no email in brackets [no-email]\n"))

    def test_findings(self):
        """Findings about mailmaps and contacts, in a `str` and in bytes that are no UTF-8."""
        own, history = (b"own", b"N <e@x>\nplain\nN <e@x>\n"), (b"h", b"Jane <j@x>\nJ\xff <J@x>\n\nplain\nJane <j@x>")
        nothing = Named(None, None, None)
        wanted = [
            Notice(b"own", 1, "warning", "no-effect", b"no effect: own:3 says the same", Place(b"own", 3), nothing, None),
            Notice(b"own", 2, "error", "no-email", b"no email in brackets", None, nothing, None),
            Notice(b"own", 3, "warning", "unneeded", b"no contact needs it", None, nothing, None),
            Notice(b"h", 2, "warning", "same-email", b"J\xff <J@x> (1) has the email of Jane <j@x> (2)", Place(b"h", 1),
                   Named(b"J\xff", b"J@x", 1), Named(b"Jane", b"j@x", 2)),
            Notice(b"h", 4, "error", "no-contact", b"no contact", None, nothing, None),
        ]
        self.assertEqual(gix_mailmap.findings([own], history), wanted)
        self.assertEqual(gix_mailmap.findings(iter([own])), wanted[:2])
        lines = [b"%b:%d: %b: %b [%b]\n" % (n.file, n.line, n.level.encode(), n.message, n.kind.encode()) for n in wanted]
        self.assertEqual(gix_mailmap.report([own], history), b"".join(lines))
        self.assertEqual(gix_mailmap.report([own], format="gcc"), b"".join(lines[:2]))
        of_str = gix_mailmap.findings([("ä", "plain")], ("b", "J\udcff <a>\nj <A>"))
        self.assertEqual(of_str, [
            Notice("ä", 1, "error", "no-email", "no email in brackets", None, nothing, None),
            Notice("b", 2, "warning", "same-email", "j <A> (1) has the email of J\udcff <a> (1)", Place("b", 1),
                   Named("j", "A", 1), Named("J\udcff", "a", 1)),
        ])
        # names and emails without a number, and each without the other
        found = gix_mailmap.findings([("own", "N <b@x> <a@x>\nP <n@x> <b@x>\nM < q@x >\n")])
        self.assertEqual([(one.kind, one.named, one.beside) for one in found], [
            ("itself-mapped", Named("N", "b@x", None), Named("P", "n@x", None)),
            ("git-reads", Named("M", None, None), Named(None, " q@x ", None)),
        ])
        self.assertEqual(gix_mailmap.report([("o,n", "plain%"), ("team", "N <a@x>\nN <a@x> ##[x\n")], format="github"),
                         "::error file=o%2Cn,line=1,title=no-email::no email in brackets\n"
                         "::warning file=team,line=1,title=no-effect::no effect: team:2 says the same\n"
                         "::warning file=team,line=2,title=ignored-text::ignored text: ##\\x5bx\n")
        self.assertEqual(gix_mailmap.report([], ("h", "a <a@x>\nplain\nA <b@x>\n"), "github"),
                         "::error file=h,line=2,title=no-contact::no contact\n"
                         "::notice file=h,line=3,title=same-name::A <b@x> (1) has the name of a <a@x> (1)\n")
        self.assertEqual(gix_mailmap.findings([]), [])
        self.assertEqual(gix_mailmap.findings([], ("", "")), [])
        # a line separator in a message ends no line of the report
        many = gix_mailmap.findings([("many", "N <a@x> b\u2028c\n" * 1000)])
        self.assertEqual(sum("\u2028" in found.message for found in many), 1000)
        for wrong in (
            lambda: gix_mailmap.report([own], format="xml"), lambda: gix_mailmap.report([own], format=None),
        ):
            with self.assertRaises(ValueError):
                wrong()
        for wrong in (
            lambda: gix_mailmap.report([own], b"history"), lambda: gix_mailmap.report([own], ("h", "")),
            lambda: gix_mailmap.findings([own], (b"h",)), lambda: gix_mailmap.report([own], "gcc"),
        ):
            with self.assertRaises(TypeError):
                wrong()

    def test_parse(self):
        """Each form of an entry, each fault, and the lines that are passed over: the texts at their places."""
        text = (
            "# ü\n\u00a0Jäne Doe <\u3000jane@x> \t<jd@y >\r\n\n Joe<joe@x>\n<a@x> b <>c\nN <n@x> Ö\udcff <o@x>\n"
            "plain\nN <n@x\nN < > <n@x>\n \t\n<n@x> <o@x"
        )
        wanted = [
            (2, None, "Jäne Doe <\u3000jane@x> \t<jd@y >", "Jäne Doe", "jane@x", None, "jd@y"),
            (4, None, "Joe<joe@x>", "Joe", None, None, "joe@x"),
            (5, None, "<a@x> b <>c", None, "a@x", "b", ""),
            (6, None, "N <n@x> Ö\udcff <o@x>", "N", "n@x", "Ö\udcff", "o@x"),
            (7, Kind.NO_EMAIL, "plain", None, None, None, None),
            (8, Kind.MISSING_CLOSING_BRACKET, "N <n@x", None, None, None, None),
            (9, Kind.EMPTY_EMAIL, "N < > <n@x>", None, None, None, None),
            (11, Kind.NOTHING_TO_MAP, "<n@x> <o@x", None, None, None, None),
        ]
        lines = gix_mailmap.parse(text)
        self.assertEqual([(*line[:2], *(text[at] if at is not None else None for at in line[2:])) for line in lines], wanted)
        at = text.index("Joe<joe@x>")
        self.assertEqual((lines[1].text, lines[1].new_name), (slice(at, at + 10), slice(at, at + 3)))
        encoded = text.encode(errors="surrogateescape")
        for kind in (bytes, bytearray, memoryview):
            lines = gix_mailmap.parse(kind(encoded))
            texts = [[None if at is None else bytes(kind(encoded)[at]) for at in line[2:]] for line in lines]
            self.assertEqual(texts, [[t and t.encode(errors="surrogateescape") for t in row[2:-1]]
                                     + [None if row[-1] is None else row[-1].encode()] for row in wanted])
        # surrogates that together are a character stay apart
        self.assertEqual(gix_mailmap.parse("\udcc3\udca4 <a@x>")[0].old_email, slice(4, 7))
        self.assertEqual([gix_mailmap.parse(empty) for empty in ("", b"", "# a <b>\n\n", "ä"[:0])], [[]] * 4)
        self.assertEqual(len(gix_mailmap.parse(MANY)), COUNT)
        self.assertEqual([line.number for line in gix_mailmap.parse("ä\n" * 1000)], list(range(1, 1001)))
        for wrong in (None, 1, io.StringIO("N <a@x>"), io.BytesIO(b"N <a@x>")):
            with self.assertRaises(TypeError):
                gix_mailmap.parse(wrong)

    def test_explain(self):
        both = [(b"team", b"Jane Doe <jane@x>\n<jane@x> <jd@y>\n"), (b"own", b"Jane Doe <jd@y>\nI\x1b <i@x>")]
        cases = [
            (b"jd <JD@y>", b"jd <JD@y> is Jane Doe <jane@x> by team:2, own:1\n"),
            (b"  jane  <jane@x>\r", b"jane <jane@x> is Jane Doe <jane@x> by team:1\n"),
            (b"bob <b@x>", b"bob <b@x> is not mapped\n"),
            (b"plain", b"plain is no contact\n"),
            (b"i <i@x>", b"i <i@x> is I\\x1b <i@x> by own:2\n"),
            (b" ", b""),
        ]
        for contact, said in cases:
            with self.subTest(contact=contact):
                self.assertEqual(gix_mailmap.explain(iter(both), contact), said)
        contacts = b"\n".join(contact for contact, _ in cases)
        self.assertEqual(gix_mailmap.explain(both, contacts), b"".join(said for _, said in cases))
        self.assertEqual(gix_mailmap.explain([], b"a <b>"), b"a <b> is not mapped\n")
        self.assertEqual(gix_mailmap.explain([(b"", MAP)], b"j <joe@x>"), b"j <joe@x> is Joe <joe@x> by :2\n")
        many = gix_mailmap.explain([(b"many", MANY)], MANY)
        self.assertEqual(many.count(b" by many:"), COUNT)
        self.assertTrue(many.endswith(b"\nN399999 <399999@x> is N399999 <399999@x> by many:200000\n"))
        with self.assertRaises(TypeError):
            gix_mailmap.explain(both, "a <b>")

    def test_unneeded(self):
        team, own = b"Joe <joe@x>\n<jane@x> <jd@y>\n", b"Jane Doe <jd@y>\nBob <b@x>\n# Bob\nRobert <b@x>\nplain\n"
        both = [(b"team", team), (b"own", own)]
        cases = [
            (b"", [(0, 1), (0, 2), (1, 1), (1, 4)]),
            (b"plain\n\nal <al@x>", [(0, 1), (0, 2), (1, 1), (1, 4)]),
            (b"jd <JD@y>\r\n", [(0, 1), (1, 4)]),
            (b"bob <B@x>\njd <jd@y>", [(0, 1)]),
            (b"joe <joe@x>\nbob <b@x>\njd <jd@y>", []),
        ]
        for contacts, positions in cases:
            with self.subTest(contacts=contacts):
                listed = gix_mailmap.unneeded(iter(both), contacts)
                self.assertEqual(listed, [Position(*position) for position in positions])
        self.assertEqual(gix_mailmap.unneeded([], b"a <b>"), [])
        self.assertEqual(gix_mailmap.unneeded([(b"a\0b", b"\0\nN <e@x>")], b""), [Position(mailmap=0, line=2)])
        self.assertEqual(gix_mailmap.unneeded([(b"many", MANY)], MANY), [])
        every = [Position(0, line) for line in range(1, COUNT + 1)]
        self.assertEqual(gix_mailmap.unneeded([(b"many", MANY)], b"plain"), every)

    def test_suggest(self):
        """Cases of tests/c/calls.c, and a text that is longer than the first buffer."""
        cases = [
            ([b"ann <D@X> <q@x>\n", b"Ann L <q@x> Ann <D@X>\nJane Doe <c@x>\n"],
             b"ann <A@x>\n\xff <b@x>\n\xff <b@x>\na>b <b@x>\na>b <b@x>\na>b <b@x>\nann <A@x>\nAnn <q@x>\nann <A@x>\n",
             b"# 3 a>b <b@x>\n# 2 \xff <b@x>\na>b <b@x>\n\n# 3 ann <A@x>\n# 1 ann <D@X>\n#?ann <A@x> <q@x>\n\n"),
            (["<A@x> <é@x>\n<a@x>\n".encode(), b"ann < d@x>\n"], b"Ann <d@x>",
             b"# 1 ann <d@x>\n# 1 Ann <d@x> by git\nann <d@x>\n\n"),
            ([], b"#x <c@x>\n#x <e@x>\n#x <c@x>\r\n", b"# 2 #x <c@x>\n# 1 #x <e@x>\n#? #x <c@x> <e@x>\n\n"),
            ([b"1\n", b"1"], b"j <a@x>\nJ <a@x>\n", b"\n# 1 j <a@x>\n# 1 J <a@x>\nj <a@x>\n\n"),
            ([MAP], b"j <joe@x>\nplain\n\n", b""),
        ]
        for texts, contacts, suggested in cases:
            with self.subTest(contacts=contacts):
                named = [(b"", text) for text in texts]
                self.assertEqual(gix_mailmap.suggest(iter(named), contacts), suggested)
                of_str = [("", text.decode(errors="surrogateescape")) for text in texts]
                said = gix_mailmap.suggest(of_str, contacts.decode(errors="surrogateescape"))
                self.assertEqual(said.encode(errors="surrogateescape"), suggested)
        contacts = b"".join(b"a%d <%d@x>\nb%d <%d@x>\nb%d <%d@x>\n" % ((number,) * 6) for number in range(1000))
        many = gix_mailmap.suggest([], contacts)
        self.assertEqual(many.count(b"\n\n"), 1000)
        self.assertTrue(many.endswith(b"\n\n# 2 b999 <999@x>\n# 1 a999 <999@x>\nb999 <999@x>\n\n"))
        with self.assertRaises(TypeError):
            gix_mailmap.suggest([("", "")], b"a <b>")

    def test_more_findings_than_the_first_array_holds(self):
        words = "error: no email in brackets [no-email]"
        found = [Finding(line, Kind.NO_EMAIL, None, None, words) for line in range(1, 1001)]
        self.assertEqual(gix_mailmap.verify(b"plain\n" * 1000), found)

    def test_many_lines(self):
        """200,000 lines fit into memory."""
        lines = MANY.replace(b"\n ", b"\n")[1:]
        self.assertEqual(gix_mailmap.check(MANY, MANY), lines)
        self.assertEqual(gix_mailmap.compact(lines), MANY)
        self.assertEqual(gix_mailmap.prune(MANY), MANY)
        self.assertEqual(gix_mailmap.verify(MANY), [])
        self.assertEqual(len(gix_mailmap.verify(b"plain\n" * COUNT)), COUNT)

    def test_what_is_no_list_of_mailmaps(self):
        calls = [
            gix_mailmap.report, lambda mailmaps: gix_mailmap.explain(mailmaps, ""),
            lambda mailmaps: gix_mailmap.suggest(mailmaps, ""), lambda mailmaps: gix_mailmap.unneeded(mailmaps, ""),
        ]
        for call in calls:
            for wrong, words in (
                ("..", "expected a pair of a mailmap's name and its text, not '.'"),
                (b"ab", "expected a pair of a mailmap's name and its text, not 97"),
                (["ab"], "expected a pair of a mailmap's name and its text, not 'ab'"),
                ([("a", "b", "c")], "expected a pair of .*, not \\('a', 'b', 'c'\\)"),
                ([("a", None)], "expected str or bytes, not <class 'NoneType'>"),
                (None, "not iterable"),
            ):
                with self.assertRaisesRegex(TypeError, words):
                    call(wrong)


class Files(unittest.TestCase):
    """Texts as open files, and mailmaps by their paths."""

    def setUp(self):
        folder = tempfile.TemporaryDirectory()
        self.addCleanup(folder.cleanup)
        self.folder = Path(folder.name)
        self.path = self.folder / "map"
        self.path.write_bytes(b"J\xf6rg <jane@x> <jd@y>\r\nJoe <joe@x>\n")

    def test_calls_of_files(self):
        text = self.path.read_bytes()
        for first, second in ((io.BytesIO, io.BytesIO), (io.BytesIO, bytes)):
            self.assertEqual(gix_mailmap.check(first(text), second(b"jd <jd@y>")), b"J\xf6rg <jane@x>\n")
            said = gix_mailmap.explain([(b"a", first(text))], second(b"x <joe@x>"))
            self.assertEqual(said, b"x <joe@x> is Joe <joe@x> by a:2\n")
            self.assertEqual(gix_mailmap.unneeded([(b"a", first(text))], second(b"x <joe@x>")), [Position(0, 1)])
        for call in (gix_mailmap.compact, gix_mailmap.prune, gix_mailmap.verify):
            with self.path.open("rb") as file:
                self.assertEqual(call(file), call(text))
        error = "a:1: error: no email in brackets [no-email]\n"
        self.assertEqual(gix_mailmap.report([("a", io.StringIO("x"))]), error)
        with self.path.open("rb") as file, Mailmap(file, b"Joseph <joe@x>") as mailmap:
            mailmap.add(io.BytesIO(b"Jane <jd@y>"))
            self.assertEqual(mailmap.write(), b" Jane <jane@x> <jd@y>\n Joseph <joe@x>\n")
            with self.assertRaisesRegex(TypeError, "can't be mixed"):
                mailmap.add(io.StringIO(""))

    def test_errors_of_files_pass(self):
        class Broken:
            def read(self):
                raise OSError("broken")

        class Numbers:
            def read(self):
                return 1

        with Mailmap(MAP) as mailmap:
            for call in (Mailmap, mailmap.add, gix_mailmap.compact, gix_mailmap.verify):
                with self.assertRaisesRegex(OSError, "broken"):
                    call(Broken())
                with self.assertRaisesRegex(TypeError, "expected str or bytes, not <class 'int'>"):
                    call(Numbers())
            self.assertEqual(list(mailmap), [JANE, JOE])

    def test_a_file_that_closes_the_mailmap(self):
        class Closing:
            def read(self):
                mailmap.close()
                return b"N <a@x>"

        mailmap = Mailmap(MAP)
        with self.assertRaises(Closed):
            mailmap.add(Closing())

    def test_from_path(self):
        for path in (self.path, str(self.path)):
            with Mailmap.from_path(path) as mailmap:
                self.assertEqual(mailmap[0], Entry("J\udcf6rg", "jane@x", None, "jd@y"))
                self.assertEqual(mailmap.lookup(b"jd", b"jd@y").name, b"J\xf6rg")
        with self.assertRaises(FileNotFoundError):
            Mailmap.from_path(self.folder / "none")

    def test_of_repository(self):
        below = self.folder / "a" / "b"
        below.mkdir(parents=True)
        with self.assertRaises(FileNotFoundError) as raised:
            Mailmap.of_repository(below)
        self.assertEqual(raised.exception.filename, str(below))
        (self.folder / ".git").mkdir()
        self.assertEqual(Mailmap.of_repository(below).write(), "")
        (self.folder / ".mailmap").symlink_to(self.path)
        self.assertEqual(Mailmap.of_repository(below).write(), "")
        self.path.rename(self.folder / ".mailmap")
        for path in (self.folder, below, str(below)):
            with Mailmap.of_repository(path) as mailmap:
                self.assertEqual(mailmap.lookup("x", "joe@x").name, "Joe")


class Handles(unittest.TestCase):
    def test_lookup(self):
        with Mailmap(MAP) as mailmap:
            self.assertEqual(mailmap.lookup(b"jd", b"JD@Y"), Answer(b"Jane Doe", b"jane@x", True, True))
            self.assertEqual(mailmap.lookup(b"q", b"q@z"), Answer(b"q", b"q@z", False, False))
            self.assertEqual(mailmap.lookup(b"", b""), Answer(b"", b"", False, False))
            long, nul = b"n" * 100_000, b"a\0b"
            self.assertEqual(mailmap.lookup(long, nul), Answer(long, nul, False, False))

    def test_an_answer_that_is_kept_stays_as_it_is(self):
        """A lookup uses the object of an earlier answer again, but only if nothing else refers to it."""
        with Mailmap(MAP) as mailmap:
            mailmap.lookup(b"jd", b"JD@y")
            jane, joe = mailmap.lookup(b"jd", b"jd@y"), mailmap.lookup(b"Joseph", b"JOE@x")
            name, *others = mailmap.lookup(b"al", b"al@x")
            mailmap.lookup(b"jd", b"jd@y")
        self.assertEqual(jane, Answer(b"Jane Doe", b"jane@x", True, True))
        self.assertEqual(joe, Answer(b"Joe", b"joe@x", True, True))
        self.assertEqual([name, *others], [b"al", b"al@x", False, False])

    def test_later_texts_count(self):
        with Mailmap(MAP, b"JD <jd@y>\nnot an entry\n") as mailmap:
            self.assertEqual(mailmap.lookup(b"jd", b"jd@y"), Answer(b"JD", b"jane@x", True, True))
            mailmap.add(b"J <jd@y>")
            self.assertEqual(mailmap.lookup(b"jd", b"jd@y").name, b"J")

    def test_map_contact(self):
        """The answers of map_contacts, for entries that lines can hold and that they can't."""
        contacts = [b"jd <JD@y>", b" jd\t<jd@y > x\r", b"al <al@x>", b"<joe@x>", b"plain\r", b"", b"a <b", b"a\n"]
        with Mailmap(MAP) as mailmap:
            for _ in range(2):
                answers = list(mailmap.map_contacts(contacts))
                self.assertEqual([mailmap.map_contact(contact) for contact in contacts], answers)
                mailmap.add_entry(Entry(b"<", None, None, b"a\n"))
            self.assertEqual(mailmap.map_contact("jd <JD@y>"), "Jane Doe <jane@x>")
            with self.assertRaises(NotALine):
                mailmap.map_contact("jd\n <jd@y>")

    def test_a_path_is_no_text(self):
        with tempfile.TemporaryDirectory() as folder:
            path = Path(folder, "mailmap")
            path.write_bytes(MAP)
            for text in (str(path), bytes(path)):
                with self.assertWarnsRegex(UserWarning, "from_path opens a file"):
                    Mailmap(text)
            for text in ("", str(path) + "\n", f"<{path}>", str(path) + "?", "\0", "\udc80", b"x" * 10_000):
                Mailmap(text)

    def test_repr(self):
        mailmap = Mailmap(MAP)
        self.assertEqual(repr(mailmap), "<Mailmap: 2 entries>")
        mailmap.close()
        self.assertEqual(repr(mailmap), "<Mailmap: closed>")

    def test_add_entry(self):
        with Mailmap(MAP) as mailmap:
            mailmap.add_entry(Entry(b"J", None, None, b"JOE@x"))
            mailmap.add_entry(Entry(b"", b"b@x", b"Bo", b"b@y"))
            self.assertEqual(mailmap.lookup(b"Bo", b"b@y"), Answer(b"Bo", b"b@x", False, True))
            self.assertEqual(mailmap.lookup(b"joe", b"joe@x").name, b"J")
            mailmap.add_entry(Entry(old_email=b"jd@y", new_name=b"JD"))
            self.assertEqual(mailmap.lookup(b"jd", b"jd@y"), Answer(b"JD", b"jane@x", True, True))
            for fields, why in (
                ((None, None, None, b"a"), "an entry has a new name or a new email"),
                ((b"", b"", b"a", b"a"), "an entry has a new name or a new email"),
                ((b"A", None, b"a", b"a"), "an entry with an old name has a new email"),
                ((b"A",), "an entry has an old email"),
            ):
                with self.assertRaisesRegex(NotAnEntry, f"^{why}$"):
                    mailmap.add_entry(Entry(*fields))
            for wrong in (tuple(JOE), list(JOE), None):
                with self.assertRaisesRegex(TypeError, "expected an Entry"):
                    mailmap.add_entry(wrong)
            self.assertEqual(len(mailmap), 3)

    def test_write(self):
        with Mailmap(MAP) as mailmap:
            self.assertEqual(mailmap.write(), b" Jane Doe <jane@x> <jd@y>\n Joe <joe@x>\n")
            mailmap.add_entry(Entry(b"<", None, None, b"a\n"))
            self.assertEqual(mailmap.lookup(b"a", b"a\n").name, b"<")
            with self.assertRaises(Unwritable):
                mailmap.write()
        with Mailmap() as mailmap:
            self.assertEqual(mailmap.write(), b"")

    def test_entries(self):
        with Mailmap(MAP) as mailmap:
            self.assertEqual(mailmap.entries(), [JANE, JOE])
            self.assertEqual(list(mailmap), [JANE, JOE])
            self.assertEqual((len(mailmap), mailmap[0], mailmap[1], mailmap[-1]), (2, JANE, JOE, JOE))
            for place in (2, -3, 2**63, 2**64):
                with self.assertRaises(IndexError):
                    mailmap[place]

    def test_an_entry_longer_than_the_first_buffer(self):
        name = b"n" * 1000
        with Mailmap(name + b" <n@x>") as mailmap:
            self.assertEqual(mailmap[0], Entry(name, None, None, b"n@x"))

    def test_many_entries(self):
        """200,000 entries fit into memory."""
        with Mailmap(MANY) as mailmap:
            mailmap.add(MANY)
            self.assertEqual((len(mailmap), len(mailmap.entries()), mailmap.write()), (COUNT, COUNT, MANY))

    def test_an_empty_mailmap_has_no_entries(self):
        with Mailmap() as mailmap:
            self.assertEqual((mailmap.entries(), len(mailmap)), ([], 0))

    def test_calls_on_a_closed_mailmap_raise_closed(self):
        with Mailmap(MAP) as mailmap:
            self.assertFalse(mailmap.closed)
            list(mailmap.map_contacts([b"a"]))
        self.assertTrue(mailmap.closed)
        mailmap.close()
        calls = [
            lambda: mailmap.lookup(b"jd", b"jd@y"),
            lambda: mailmap.add(MAP),
            lambda: mailmap.add_entry(JOE),
            lambda: mailmap.map_contact(b"plain"),
            lambda: mailmap.merge(Mailmap(MAP)),
            lambda: Mailmap(MAP).merge(mailmap),
            mailmap.copy,
            mailmap.write,
            mailmap.entries,
            lambda: len(mailmap),
            lambda: mailmap[0],
            lambda: list(mailmap),
            lambda: mailmap[:],
            lambda: mailmap.map_contacts([]),
            lambda: gix_mailmap._native.Stream(mailmap, []),
            mailmap.__enter__,
            Mailmap.__new__(Mailmap).entries,
        ]
        for call in calls:
            with self.assertRaises(Closed):
                call()

    def test_copies(self):
        with Mailmap(MAP) as mailmap:
            for call in (copy.copy, copy.deepcopy, Mailmap.copy):
                made = call(mailmap)
                made.add(b"JD <jd@y>")
                self.assertEqual(mailmap.lookup(b"jd", b"jd@y").name, b"Jane Doe")
                self.assertEqual(made.lookup(b"jd", b"jd@y"), Answer(b"JD", b"jane@x", True, True))
                self.assertEqual(list(made.map_contacts([b"jd <jd@y>"])), [b"JD <jane@x>"])
            with self.assertRaisesRegex(TypeError, "can't be pickled"):
                pickle.dumps(mailmap)
            for call in (copy.copy, copy.deepcopy, pickle.dumps):
                with self.assertRaisesRegex(TypeError, "cannot pickle"):
                    call(mailmap.map_contacts([]))
        self.assertEqual(made.lookup(b"jd", b"jd@y").name, b"JD")

    def test_merge(self):
        with Mailmap(MAP) as mailmap, Mailmap(b"JD <JD@y>\nNew <new@x> old <q@z>") as other:
            mapped = mailmap.map_contacts([b"jd <jd@y>", b"jd <jd@y>"])
            self.assertEqual(next(mapped), b"Jane Doe <jane@x>")
            for _ in range(2):
                mailmap.merge(other)
                mailmap.merge(mailmap)
            self.assertEqual(next(mapped), b"JD <jane@x>")
            self.assertEqual(mailmap.lookup(b"old", b"q@z"), Answer(b"New", b"new@x", True, True))
            self.assertEqual((len(mailmap), len(other)), (3, 2))
            for wrong in (Mailmap("J <j@x>"), MAP, None, Mock(spec=Mailmap)):
                with self.assertRaises(TypeError):
                    mailmap.merge(wrong)

    def test_what_does_not_change_is_the_object_that_was_given(self):
        with Mailmap(b"Jane Doe <jane@x> <jd@y>\nJoe <joe@x>\n") as mailmap:
            for name, email in (("Jane\udcff", "q\u00e4@z"), (b"J\xff", b"q@z"), ("Joe", "joe@x"), (b"Joe", b"joe@x")):
                found = mailmap.lookup(name, email)
                self.assertTrue(found.name is name and found.email is email)
            lines = ["plain", "a <b>", b"plain", b"a <b>"]
            for line in lines:
                self.assertIs(next(mailmap.map_contacts([line])), line)
            own = bytearray(b"joe")
            self.assertIs(type(mailmap.lookup(own, own).name), bytes)

    def test_arguments_by_name(self):
        with Mailmap(MAP) as mailmap:
            jane = mailmap.lookup(b"jd", b"jd@y")
            self.assertEqual(mailmap.lookup(b"jd", email=b"jd@y"), jane)
            self.assertEqual(mailmap.lookup(name=b"jd", email=b"jd@y"), jane)
            self.assertEqual(mailmap.lookup(email=b"jd@y", name=b"jd"), jane)
            for given, named in (
                ((), {}), ((b"a",), {}), ((b"a", b"b", b"c"), {}), ((b"a",), {"name": b"b"}), ((), {"email": b"b"}),
                ((b"a", b"b"), {"email": b"b"}), ((), {"name": b"a", "mail": b"b"}),
            ):
                with self.assertRaisesRegex(TypeError, r"lookup\(\) takes a name and an email"):
                    mailmap.lookup(*given, **named)
        with self.assertRaisesRegex(TypeError, "unexpected keyword"):
            Mailmap(text=MAP)

    def test_entries_of_other_lengths(self):
        """A subclass of a tuple may have any."""
        with Mailmap(MAP) as mailmap:
            for items in ((), (b"a",), (b"a",) * 5):
                with self.assertRaisesRegex(TypeError, "expected an Entry"):
                    mailmap.add_entry(tuple.__new__(Entry, items))

    def test_dropped_mailmaps_are_collected(self):
        for _ in range(100):
            Mailmap(MAP)
        gc.collect()


if __name__ == "__main__":
    unittest.main()
