"""The model of what names have in common, and of the login in an email.

The definitions are in `specs` of `mailmap_names`. Names and emails are bytes, words are characters, and a mark is a
text that two alike names have in common; its first byte says what it is made of.
"""
from functools import cache
from itertools import groupby
from unicodedata import category, normalize

from mailmap import folded

# names and logins that many people have
PLACEHOLDERS = {
    "root", "admin", "administrator", "unknown", "none", "nobody", "anonymous", "user", "me", "test", "ubuntu",
    "debian", "localhost", "git",
}
GENERIC_LOGINS = {
    b"root", b"admin", b"administrator", b"info", b"mail", b"me", b"git", b"github", b"contact", b"dev", b"devel",
    b"noreply", b"no-reply", b"hello", b"user", b"unknown", b"none", b"nobody", b"webmaster", b"postmaster",
    b"devnull", b"anonymous", b"support", b"test", b"linux", b"email", b"web", b"home", b"office", b"hi", b"code",
}
# letters that Unicode doesn't decompose
LETTERS = {
    "\xf8": "o", "\u0111": "d", "\xf0": "d", "\xfe": "th", "\u0142": "l", "\u0127": "h", "\u0131": "i", "\xe6": "ae",
    "\u0153": "oe", "\u0167": "t", "\u014b": "n",
}
CLOSING = {"(": ")", "[": "]", '"': '"'}
VIA = b" via "
# the host of the emails that GitHub makes: a number, a plus and a login
NUMBERED_HOST = b"users.noreply.github.com"


# ---- words

def aside_end(text, start):
    """Where the aside that begins here ends, or None. It has no bracket of its own kind inside."""
    opening = text[start]
    for end in range(start + 1, len(text)) if opening in CLOSING else ():
        if text[end] == CLOSING[opening]:
            return end + 1
        if text[end] == opening:
            return None
    return None


def without_asides(text):
    """The text with a space in place of each aside, from left to right."""
    parts, place = [], 0
    while place < len(text):
        end = aside_end(text, place)
        parts.append(" " if end else text[place])
        place = end or place + 1
    return "".join(parts)


def without_via(text):
    """The text up to the first ` via `, ASCII case aside."""
    before, _, _ = folded(text.encode()).partition(VIA)
    return text[:len(before.decode())]


def plain(text):
    """The text without case, accents and what else letters can be combined with."""
    text = normalize("NFKD", normalize("NFKD", text).casefold())
    return "".join(LETTERS.get(letter, letter) for letter in text if not category(letter).startswith("M"))


def runs(text):
    """The longest runs of letters and digits."""
    pieces = groupby(text, lambda letter: category(letter)[0] in "LN")
    return ["".join(letters) for are_letters, letters in pieces if are_letters]


@cache
def words(name):
    try:
        text = name.decode("utf-8")
    except UnicodeDecodeError:
        return []
    return runs(plain(without_via(without_asides(text)))) or runs(plain(text))


# ---- what names have in common

def words_mark(some):
    return ("w" + " ".join(sorted(some))).encode()


def together_mark(some):
    return ("t" + "".join(some)).encode()


@cache
def keys(name):
    """The words in ascending order, and the words put together; none if these are too short or a placeholder."""
    some = words(name)
    if len("".join(some)) < 3 or "".join(some) in PLACEHOLDERS:
        return frozenset()
    longer = [word for word in some if len(word) > 1]
    return frozenset([words_mark(longer if len(longer) >= 2 else some), together_mark(some)])


@cache
def marks(name):
    return keys(name) | {b"n" + folded(name)} if name else frozenset()


@cache
def first_words(name):
    """The keys that the first word of several would have alone."""
    first, *others = words(name) or [""]
    return frozenset([words_mark([first]), together_mark([first])] if others else [])


def are_related(one, other):
    """Whether two names are alike or have a longer word in common."""
    common = set(words(one)) & set(words(other))
    return bool(marks(one) & marks(other)) or any(len(word) >= 3 for word in common)


# ---- logins

def login(email):
    local, at, host = email.rpartition(b"@")
    if not at:
        local = email
    number, plus, rest = local.partition(b"+")
    if at and folded(host) == NUMBERED_HOST and plus and number.isdigit():
        local = rest
    tag = local.find(b"+", 1)
    return local if tag < 0 else local[:tag]


@cache
def login_keys(email):
    """The keys of the login as of a name, unless it is generic."""
    return frozenset() if folded(login(email)) in GENERIC_LOGINS else keys(login(email))
