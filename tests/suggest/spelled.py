"""Names and emails with what is read in them, and histories in which it decides who is one person.

The model has to read the same, and the program has to suggest for these histories what the model does.
"""
from names import are_related, first_words, login, login_keys, marks, words

WORDS = {
    "Ann Lee": "ann lee", "Lee, Ann": "lee ann", "O'Neil-Roe": "o neil roe", "": "", "...": "",
    # without asides
    "J. Müller II (work) via a list": "j muller ii", 'Ann "Zoe" Lee': "ann lee", 'Ann "a" b "c': "ann b c",
    "(a (b) c": "a c", "[[Ann] Lee] Roe": "lee roe", "a [b (c] d) e": "a d e", "(Ann) (Lee)": "ann lee",
    # and without the list that sent it
    "Ann Lee (x) VIA list": "ann lee", "Ann viA list via x": "ann", "Ann via": "ann via", "via Ann": "via ann",
    "Ann\tvia list": "ann via list", " via list": "via list", "(x) via list": "x via list",
    # letters with marks, in one character or in two, ligatures, wide and small letters, I with and without a dot,
    # digits, Hangul in syllables or in letters
    "Øystein Þór": "oystein thor", "Đặng Łukasz": "dang lukasz", "Ħal ıŋ ŧæœ ð": "hal in taeoe d", "ﬁn ﬀ": "fin ff",
    "STRASSE Straße": "strasse strasse", "İbrahim ISIK ış": "ibrahim isik is", "ΣΊΣΥΦΟΣ": "σισυφοσ",
    "a\u0323\u0307b \u1ea1\u0307b": "ab ab", "Ａｎｎ ｱﾞ": "ann ア", "Ⅳ ½ ²": "iv 1 2 2", "中文": "中文",
    "한": "\u1112\u1161\u11ab", "\u1112\u1161\u11ab": "\u1112\u1161\u11ab", "x\u200dy\u00adz": "x y z",
}
NOT_UTF_8 = b"Ann \xff", b"Ann \xc3", b"\xed\xa0\x80", b"\xc0\xa0"
# n: the name itself, w: its words in order, t: its words put together
MARKS = {
    "Jane Q. Doe": "njane q. doe|wdoe jane|tjaneqdoe", "Doe, Jane": "ndoe, jane|wdoe jane|tdoejane",
    "J. Doe": "nj. doe|wdoe j|tjdoe", "J. Q. Doe": "nj. q. doe|wdoe j q|tjqdoe", "jd": "njd", "J. D.": "nj. d.",
    "JaneDoe": "njanedoe|wjanedoe|tjanedoe", "Jane (work) Doe": "njane (work) doe|wdoe jane|tjanedoe", "root": "nroot",
    "Root": "nroot", "ad-min": "nad-min", "Admins": "nadmins|wadmins|tadmins", "Ann": "nann|wann|tann",
    "王小明": "n王小明|w王小明|t王小明", "王明": "n王明", "Æ Ø": "nÆ Ø|wae o|taeo", "": "", "...": "n...",
}
FIRST_WORDS = {
    "Jane Doe": "jane", "Jane": "", "a b": "a", "王 小明": "王", "...": "", "Jane (work)": "",
}
RELATED = [
    ("Jane Doe", "Doe, JANE"), ("Jane Doe", "JaneDoe"), ("J. Doe", "Doe"), ("Jane Doe", "Jane Roe"),
    ("Ann Doe", "Ann Roe"), ("...", "..."), ("a-b", "A-B"), ("root", "Root"),
    ("Zoe Yan Xia Doe Ann", "Bob Eve Ann Roe Kim"), ("Zoe Yan Zoe Xia Zoe", "Kim Zoe"),
]
UNRELATED = [
    ("Li Doe", "Li Roe"), ("a-b", "ab"), ("", " "), ("root", "r-oot"), ("Jane Doe", " "),
    ("Zoe Yan Xia Doe Ann", "Bob Eve Roe Kim Ian"), ("Ann Lee Joann", "Jo Leeann"),
]
# what is in front of the last @, but for what a forge or a user adds, and its marks
LOGINS = {
    "jane@example.com": "jane|wjane|tjane", "Jane.Doe@example.com": "Jane.Doe|wdoe jane|tjanedoe",
    "jane+lists+x@example.com": "jane|wjane|tjane", "+jane@example.com": "+jane|wjane|tjane", "++x@y": "+",
    "12345+jane@users.noreply.github.com": "jane|wjane|tjane",
    "12345+jane+x@USERS.noreply.github.com": "jane|wjane|tjane",
    "+jane@users.noreply.github.com": "+jane|wjane|tjane", "12345+jane@example.com": "12345|w12345|t12345",
    "12345@users.noreply.github.com": "12345|w12345|t12345", "a@b@example.com": "a@b", "jane": "jane|wjane|tjane",
    "info@example.com": "info", "No-Reply@example.com": "No-Reply", "jd@example.com": "jd",
    "12345+git@users.noreply.github.com": "git", "@example.com": "", "": "",
}
STRANGERS = b"Qadir Zhou", b"Wim Vogel"


def split(texts):
    return [text.encode() for text in texts.split("|")] if texts else []


def of_model():
    """What is read, what the model reads, and what should be read."""
    for name, some in WORDS.items():
        yield f"words of {name!r}", words(name.encode()), some.split()
    for name in NOT_UTF_8:
        yield f"words of {name!r}", words(name), []
    for name, some in MARKS.items():
        yield f"marks of {name!r}", marks(name.encode()), set(split(some))
    for name, first in FIRST_WORDS.items():
        some = {b"w" + first.encode(), b"t" + first.encode()} if first else set()
        yield f"first words of {name!r}", first_words(name.encode()), some
    for are, pairs in (True, RELATED), (False, UNRELATED):
        for one, other in ([text.encode() for text in pair] for pair in pairs):
            yield f"{one!r} and {other!r}", (are_related(one, other), are_related(other, one)), (are, are)
    for email, texts in LOGINS.items():
        own, *keys = split(texts) or [b""]
        yield f"login of {email!r}", (login(email.encode()), login_keys(email.encode())), (own, set(keys))


def contacts(names, email=b"%d@x"):
    return b"".join(b"%b <%b>\n" % (name, email.replace(b"%d", b"%d" % place)) for place, name in enumerate(names))


def histories():
    """Contacts whose suggestions depend on what is read."""
    pairs = [(name.encode(), some.encode()) for name, some in WORDS.items()]
    pairs += [(name.encode(), name.encode().swapcase()) for name in MARKS] + [(name, b"Ann") for name in NOT_UTF_8]
    for pair in pairs:
        yield f"both names of {pair!r}", contacts(pair)
        yield f"both names of {pair!r} with another word", contacts([b"Xaver " + name for name in pair])
    yield "all names", contacts(name for pair in pairs for name in pair)
    # two names with a word in common aren't strangers
    words_alone = [(name, f"{word} Xaver") for name, some in WORDS.items() for word in some.split()]
    for one, other in RELATED + UNRELATED + words_alone:
        yield f"{one!r}, {other!r} and strangers", contacts([one.encode(), other.encode(), *STRANGERS], b"s@x")
    # a login is linked to a name that is its word alone, unless names of several people begin with the word
    for name, first in FIRST_WORDS.items():
        word = first.encode() or b"Jane"
        names, last = [name.encode(), word], b"%b <%b@y>\n" % (STRANGERS[0], word)
        yield f"a login, and names with the first word of {name!r}", contacts(names) + last
        yield f"a login, and more names with the first word of {name!r}", contacts([*names, word + b" Roe"]) + last
    for email, texts in LOGINS.items():
        own = (split(texts) or [b""])[0]
        yield f"the login of {email!r}", contacts([own]) + b"%b <%b>\n" % (STRANGERS[0], email.encode())
