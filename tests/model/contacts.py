"""The model of `mailmap_verify --explain` and `--contacts`.

The definitions are in `specs` of `mailmap_redundancy` (`Origins`), `mailmap_findings` (`Explanations`, `Needs`,
`Remarks`), `mailmap_contacts` (`Contacts`, `Proper`), `mailmap_suggestions` and
`mailmap_report` (`Explained`, `Report`).
"""
from findings import (
    Mailmaps, behind, contact_text, error, findings, note, origins, position_text, positions_text, short_contact_text,
    warning
)
from git import git_answer, git_contact_of, git_entries_of
from mailmap import answer, contact_of, lines, new_fields, trim
from shown import alike_text, shortened, shown
from suggest import BY_EMAIL, is_remembered, proper, suggested_blocks, tallied, tallies_of


# ---- --explain

def explanation(mailmaps, names, line):
    """The explanation of a line of contacts that isn't blank."""
    contact = contact_of(line)
    if contact is None:
        return trim(line) + b" is no contact"
    if new_fields(mailmaps.merged, *contact) == (None, None):
        return contact_text(*contact) + b" is not mapped"
    by = positions_text(names, behind(mailmaps, *contact))
    return b"%b is %b by %b" % (contact_text(*contact), contact_text(*answer(mailmaps.merged, *contact)), by)


def explain(buffers, names, contacts):
    mailmaps = Mailmaps(buffers)
    return b"".join(shown(explanation(mailmaps, names, line)) for line in lines(contacts) if trim(line))


# ---- --contacts

def needed(mailmaps, contacts):
    """The positions that at least one of the contacts needs."""
    each = [contact_of(line) for line in lines(contacts)]
    return {
        position
        for contact in each if contact
        for positions in origins(mailmaps.effective, *contact) for position in positions
    }


def counted(one):
    return b"%b (%d)" % (short_contact_text(*one.contact), one.count)


def answers_in(block, answers):
    """The answers of a block that are answers by the mailmaps alone, in the order in which they first come."""
    members = [one.contact for one in block.answers]
    return [one for one in answers if one.contact in members]


def said_of_shared_email(block, answers):
    members = answers_in(block, answers)
    count = sum(one.count for one in members)
    words = b"%b is the email of several people (%d)" % (shortened(members[0].email), count)
    return [(members[0].line, note(words, b"shared-email"))]


def said_of_others(block, answers):
    """Each answer that isn't the proper one of its block, beside that one. Only where git reads lines otherwise can the
    proper one be no answer by the mailmaps alone: then nothing is said.
    """
    members = answers_in(block, answers)
    best = [one for one in answers if one.contact == block.proper]
    if block.stage == BY_EMAIL:
        level, words, kind = warning, b"has the email of", b"same-email"
    elif block.heads:
        level, words, kind = note, b"has a name like", b"similar-name"
    else:
        # the proper one by the counts that are shown
        level, words, kind, best = note, b"has the name of", b"same-name", [proper(members)] if members else []
    pairs = [(one, of) for of in best for one in members if one != of]
    return [
        (one.line, level(b"%b %b %b%b" % (counted(one), words, counted(of), alike_text(one.name, of.name)), kind))
        for one, of in pairs
    ]


def said_of_block(block, answers):
    is_of_shared_email = block.stage == BY_EMAIL and block.heads
    return (said_of_shared_email if is_of_shared_email else said_of_others)(block, answers)


def other_git_answers(mailmaps, gits, numbered):
    """git's answer to each contact, as git reads it, that it answers otherwise, and the number of the first line."""
    known = set()
    for number, contact, line in numbered:
        read = git_contact_of(line)
        if read and read not in known:
            known.add(read)
            if git_answer(gits, *read) != answer(mailmaps.merged, *contact):
                yield number, git_answer(gits, *read)


# what is said on a line is in this order
ORDER = b"no-contact", b"same-email", b"shared-email", b"same-name", b"similar-name", b"git-answers"


def place(said):
    number, words = said
    return number, [words.endswith(b" [%b]" % kind) for kind in ORDER].index(True)


def said_of_contacts(mailmaps, buffers, text):
    """The findings about contacts, line by line."""
    numbered = [(number, contact_of(line), line) for number, line in enumerate(lines(text), 1)]
    no_contact = error(b"no contact", b"no-contact")
    said = [(number, no_contact) for number, contact, line in numbered if not contact and trim(line)]
    tallies = tallies_of(text)
    answers = tallied((answer(mailmaps.merged, *one.contact), one.count, one.line) for one in tallies)
    for block in suggested_blocks(buffers, tallies):
        said += [] if is_remembered(buffers, block) else said_of_block(block, answers)
    said += [
        (number, warning(b"git answers " + short_contact_text(*other), b"git-answers"))
        for number, other in other_git_answers(mailmaps, git_entries_of(buffers), numbered)
    ]
    return sorted(said, key=place)


def verify_contacts(buffers, names, contacts, file):
    """The status and the report of mailmaps, followed by that of contacts in a file of that name."""
    mailmaps = Mailmaps(buffers)
    some_need = needed(mailmaps, contacts)
    said = []
    for line in mailmaps.lines:
        remarks = findings(mailmaps, names, line)
        if mailmaps.has_effect(line.position) and line.position not in some_need:
            remarks.append(warning(b"no contact needs it", b"unneeded"))
        said += [(True, position_text(names, line.position) + b": " + remark) for remark in remarks]
    said += [
        (not words.startswith(b"note"), b"%b:%d: %b" % (file, number, words))
        for number, words in said_of_contacts(mailmaps, buffers, contacts)
    ]
    return (1 if any(counts for counts, _ in said) else 0), b"".join(shown(text) for _, text in said)
