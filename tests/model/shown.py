"""The model of how texts are shown: what is escaped, where long texts are cut, and which names look the same.

The definitions are in `specs` of `shown_text` (`Shown`), of `mailmap_suggestions` (`Shortened`) and of
`mailmap_report` (`Report`).
"""
import unicodedata

from mailmap import trim_start

# the longest text that a finding shows whole
LIMIT = 256
# general categories of characters that can't be seen or that turn the direction of text
HIDDEN = ("Cf", "Zl", "Zp")


def is_control(code):
    return code < 32 or 127 <= code < 160


def is_hidden(character):
    return unicodedata.category(character) in HIDDEN


def escaped(character):
    """A byte that is no part of a character is a lone surrogate, as in file names."""
    code = ord(character)
    if 0xDC80 <= code < 0xDD00 and is_control(code - 0xDC00):
        return f"\\x{code - 0xDC00:02x}"
    if is_control(code) or is_hidden(character):
        return f"\\x{code:02x}" if code < 128 else f"\\u{code:04x}" if code < 0x10000 else f"\\U{code:08x}"
    return character


def shown_text(text):
    """A text with what could control a terminal, can't be seen or turns the direction of text escaped, and with `##[`,
    which GitHub takes for a command."""
    characters = text.decode("utf-8", "surrogateescape")
    return "".join(map(escaped, characters)).replace("##[", "##\\x5b").encode("utf-8", "surrogateescape")


def shown(text):
    """The line of a report, with escapes, also of what GitHub takes for a command at the beginning of a line, whatever
    white space is before it: `::`."""
    rest = trim_start(text)
    if not rest.startswith(b"::"):
        return shown_text(text) + b"\n"
    return shown_text(text[: len(text) - len(rest)]) + b"\\x3a:" + shown_text(rest[2:]) + b"\n"


def is_character(text):
    try:
        return len(text.decode("utf-8")) == 1
    except UnicodeDecodeError:
        return False


def shortened(text, limit=LIMIT):
    """As many bytes of a long text as the limit says, or up to three fewer so that no character is cut, and two dots."""
    if len(text) <= limit:
        return text
    cut = [
        start for start in range(limit - 3, limit) for end in range(limit + 1, start + 5) if is_character(text[start:end])
    ]
    return text[:cut[0] if cut else limit] + b".."


def comment(text):
    """A comment with escapes. git would read what comes after 1,023 bytes as a line of its own, so a long one is cut."""
    return b"# " + shortened(shown_text(text), 1000)


def seen(text):
    """A text in NFC, without hidden characters."""
    return unicodedata.normalize("NFC", "".join(one for one in text.decode("utf-8") if not is_hidden(one)))


def look_alike(one, other):
    """Whether two names that differ look the same. Those that aren't UTF-8 don't."""
    try:
        return one != other and seen(shortened(one)) == seen(shortened(other))
    except UnicodeDecodeError:
        return False


def alike_text(one, other):
    return b" (they look the same)" if look_alike(one, other) else b""
