"""The model of `mailmap_shortlog`. The definitions are in `specs` of `mailmap_shortlog` (`Shortlog`)."""
from mailmap import answer, contact_of, entries_of, lines, trim
from shown import shown_text


def shortlog(buffers, contacts, by_count=False, with_email=False):
    """A line for each distinct answer with its count and with escapes, sorted by text or by count."""
    merged = entries_of(buffers)
    answers = [answer(merged, *contact) for contact in map(contact_of, lines(contacts)) if contact]
    # a space precedes the email, even if the name is empty
    texts = [b"%b <%b>" % (name, email) if with_email else name for name, email in answers]
    order = sorted(set(texts), key=lambda text: (-texts.count(text) if by_count else 0, text))
    return b"".join(b"%6d\t%b\n" % (texts.count(text), shown_text(text)) for text in order)


def skipped(contacts):
    """The message about the lines that are neither blank nor contacts; empty if there are none."""
    numbers = [number for number, line in enumerate(lines(contacts), 1) if trim(line) and not contact_of(line)]
    if not numbers:
        return b""
    return b"mailmap_shortlog: lines without a contact: %d; the first is line %d\n" % (len(numbers), numbers[0])
