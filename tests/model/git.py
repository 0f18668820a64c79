"""The model of git's grammar for a line of a mailmap and for a line of contacts, and of its answers.

The definitions are in `specs` of `mailmap_findings` (`Git`, `GitAnswers`), of `mailmap_suggestions` (`GitContacts`) and
of `mailmap_redundancy` (`Origins`).
"""
from mailmap import Entry, accepted, cut, entry_of, folded, last_given, lines
from shown import shortened

# git trims only these, and only from names, of contacts only at their ends
WHITE_SPACE = b" \t\r\n"
# git reads this many bytes of a line at a time
PART = 1023


def entry_of_part(part):
    """The entry of a part of a line, or None. A zero byte ends the part."""
    text = part.split(b"\0")[0]
    first = None if text.startswith(b"#") else cut(text)
    if first is None or not first[1]:
        return None
    new_name, new_email, rest = first
    new_name = new_name.strip(WHITE_SPACE) or None
    second = cut(rest)
    if second:
        old_name, old_email, _ = second
        return Entry(new_name, new_email, old_name.strip(WHITE_SPACE) or None, old_email)
    return Entry(new_name, None, None, new_email) if new_name else None


def git_entries(line):
    """The entries that git reads from a line. Each part of the line can have one."""
    parts = [line[start:start + PART] for start in range(0, len(line), PART)]
    return [entry for entry in map(entry_of_part, parts) if entry]


def git_contact_of(line):
    """The contact on a line, or None: its name, trimmed at its end only, and its email. A zero byte ends the line."""
    parts = cut(line.split(b"\0")[0])
    return (parts[0].rstrip(WHITE_SPACE), parts[1]) if parts else None


def reads_otherwise(line):
    own = entry_of(line)
    return git_entries(line) != ([own] if own else [])


def git_entries_of(buffers):
    """The entries that git reads from buffers, one buffer after another."""
    return [entry for buffer in buffers for line in lines(buffer) for entry in git_entries(line)]


def git_answer(merged, name, email):
    """What git answers to a contact. An email that isn't replaced stays as it is spelled."""
    of_email = [entry for entry in accepted(merged) if folded(entry.old_email) == folded(email)]
    of_name = [entry for entry in of_email if entry.old_name is not None and folded(entry.old_name) == folded(name)]
    counting = of_name[-1:] or [entry for entry in of_email if entry.old_name is None]
    new_name = last_given(entry.new_name for entry in counting)
    new_email = last_given(entry.new_email for entry in counting)
    return (name if new_name is None else new_name, email if new_email is None else new_email)


def line_text(entry):
    """An entry as a mailmap line, with its texts shortened."""
    fields = [
        (b"%b", entry.new_name), (b"<%b>", entry.new_email), (b"%b", entry.old_name), (b"<%b>", entry.old_email),
    ]
    return b" ".join(form % shortened(field) for form, field in fields if field is not None)


def reading_text(line):
    """The text after `git reads`."""
    found = git_entries(line)
    if len(found) > 1:
        return b"it as %d lines" % len(found)
    return b"it as " + line_text(found[0]) if found else b"nothing here"
