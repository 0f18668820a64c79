"""The model of `mailmap_verify --suggest`, and of what git answers.

The definitions are in `specs` of `mailmap_suggestions`. `Histories` has the entries of mailmaps as this library reads
them, and as git does.
"""
from collections.abc import Callable
from typing import NamedTuple

from findings import short_contact_text
from git import git_answer, git_entries_of
from mailmap import Entry, accepted, answer, contact_of, entries_of, folded, lines
from names import VIA, are_related, first_words, keys, login, login_keys, marks
from shown import comment, shortened

# the longest line that git reads whole, without its line feed
LONGEST_LINE = 1022


class Tally(NamedTuple):
    """A contact, or an answer, with how often it comes, and its first line."""
    name: bytes
    email: bytes
    count: int
    line: int

    @property
    def contact(self):
        return self.name, self.email


def tallied(numbered):
    """Each distinct contact once, given with a count and a line, in the order in which they come."""
    seen = {}
    for contact, count, line in numbered:
        before = seen.get(contact, (0, line))
        seen[contact] = before[0] + count, min(before[1], line)
    return [Tally(*contact, *occurrences) for contact, occurrences in seen.items()]


def tallies_of(contacts):
    numbered = [(contact_of(line), number) for number, line in enumerate(lines(contacts), 1)]
    return tallied((contact, 1, number) for contact, number in numbered if contact)


def by_frequency(tallies):
    return sorted(tallies, key=lambda one: (-one.count, one.line))


def proper(tallies, shared=frozenset()):
    """Of those with a name, or of all, the one that comes most often; of several of these the first one. One with a
    shared email only if all with a name have one.
    """
    def order(one):
        return not one.name, bool(one.name) and folded(one.email) in shared, -one.count, one.line

    return min(tallies, key=order)


# ---- answers

def by_old_email(entries):
    of_email = {}
    for entry in entries:
        of_email.setdefault(folded(entry.old_email), []).append(entry)
    return of_email


class Histories:
    """Only the entries for its email count for the answer to a contact."""

    def __init__(self, ours, gits):
        self.ours, self.gits = by_old_email(ours), by_old_email(gits)

    def of_email(self, email):
        """The histories of the entries for an old email."""
        return Histories(self.ours.get(folded(email), []), self.gits.get(folded(email), []))

    def plus(self, more):
        ours, gits = ([entry for some in one.values() for entry in some] for one in (self.ours, self.gits))
        return Histories(ours + more, gits + more)

    def answer(self, contact):
        return answer(self.ours.get(folded(contact[1]), []), *contact)

    def git_answer(self, contact):
        return git_answer(self.gits.get(folded(contact[1]), []), *contact)

    def is_answered(self, contact, to):
        return self.answer(contact) == to == self.git_answer(contact)

    def has_own_entry(self, contact):
        one = self.of_email(contact[1])
        key = folded(contact[1]), folded(contact[0])
        return any(entry.key == key for some in (*one.ours.values(), *one.gits.values()) for entry in accepted(some))

    def without_old_names(self):
        """The histories of the entries for an old email and any name."""
        both = [[entry for some in one.values() for entry in some if entry.old_name is None]
                for one in (self.ours, self.gits)]
        return Histories(*both)


def histories_of(buffers):
    return Histories(entries_of(buffers), git_entries_of(buffers))


def answered(histories, tallies):
    """The answers with an email, in the order in which they first come, each with the contacts that it answers."""
    of_answer = {}
    for one in tallies:
        of_answer.setdefault(histories.answer(one.contact), []).append(one)
    return {to: contacts for to, contacts in of_answer.items() if to[1]}


# ---- shared emails

def strangers(names):
    """Names of which none is related to an earlier one."""
    found = []
    for name in names:
        if not any(are_related(name, other) for other in found):
            found.append(name)
    return found


def are_several_people(names):
    """Two strangers are enough where a mailing list has put its own email in place of theirs."""
    return len(strangers(names)) >= (2 if any(VIA in folded(name) for name in names) else 4)


def shared_by(answers):
    names_of = {}
    for name, email in answers:
        names_of.setdefault(folded(email), []).extend([name] if name else [])
    return {email for email, names in names_of.items() if are_several_people(names)}


def shared_emails(histories, tallies):
    """The folded emails that several people share. One stays shared when they get lines of their own."""
    unnamed = histories.without_old_names()
    return shared_by(answered(histories, tallies)) | shared_by(answered(unnamed, tallies))


# ---- entries

def plain_entries(histories, to, contacts, shared):
    """The entry for contacts without entries of their own, if one is needed. It would also be for others who share the
    email of their answers, so these contacts are left out.
    """
    plain = [
        contact for contact in contacts
        if not histories.has_own_entry(contact) and folded(histories.answer(contact)[1]) not in shared
    ]
    if all(histories.is_answered(contact, to) for contact in plain):
        return []
    name, email = to[0] or None, to[1]
    short = Entry(name, None, None, email)
    if name and folded(email) == folded(plain[0][1]):
        if all(histories.plus([short]).is_answered(contact, to) for contact in plain):
            return [short]
    return [Entry(name, email, None, plain[0][1])]


def entries_for_email(histories, to, contacts, shared):
    made = plain_entries(histories, to, contacts, shared)
    for contact in contacts:
        if not histories.plus(made).is_answered(contact, to):
            made.append(Entry(to[0] or None, to[1], *contact))
    return made


def entries_to(histories, to, contacts, shared):
    """The entries by which all these contacts are answered by `to`, old email by old email."""
    of_email = {}
    for contact in contacts:
        of_email.setdefault(folded(contact[1]), []).append(contact)
    return [
        entry for email, some in of_email.items()
        for entry in entries_for_email(histories.of_email(email), to, some, shared)
    ]


def line_text(entry):
    fields = [
        (b"%b", entry.new_name), (b"<%b>", entry.new_email), (b"%b", entry.old_name), (b"<%b>", entry.old_email),
    ]
    text = b" ".join(form % field for form, field in fields if field is not None)
    return b" " + text if text.startswith(b"#") else text


# ---- groups of answers, each with what its block begins with

def classes(items, are_linked):
    """The items that are linked directly or through others, each class in the order of the items."""
    left = list(items)
    while left:
        found = {left[0]}
        new = found
        while new:
            new = {one for one in left if one not in found and any(are_linked(one, other) for other in new)}
            found = found | new
        yield [one for one in left if one in found]
        left = [one for one in left if one not in found]


def email_groups(answers, shared):
    for group in classes(answers, lambda one, other: folded(one[1]) == folded(other[1])):
        email = group[0][1]
        yield group, [b"several people may share " + shortened(email)] if folded(email) in shared else []


def are_equal(one, other):
    """Whether two texts are equal, ASCII case aside."""
    return folded(one) == folded(other)


def takes_part(answers, shared, to):
    """Whether an answer can be in a group by name or login. If its email is shared, each of its contacts needs a line
    of its own, and so an old name, and the first such line spells the email for all others. A line with an old name is
    for all spellings of that name, so answers that are equal, ASCII case aside, take part together.
    """
    spellings = {email for _, email in answers if folded(email) == folded(to[1])}
    contacts = [one for other in answers if all(map(are_equal, other, to)) for one in answers[other]]
    return folded(to[1]) not in shared or (len(spellings) == 1 and all(one.name for one in contacts))


def names_of(answers, to):
    """The name of an answer, and those of the contacts that it answers."""
    return [to[0]] + [one.name for one in answers[to]]


def emails_of(answers, to):
    return [to[1]] + [one.email for one in answers[to]]


def union(sets):
    return frozenset(item for some in sets for item in some)


def name_groups(answers, shared):
    of = {to: union(map(marks, names_of(answers, to))) for to in answers if to[0] and takes_part(answers, shared, to)}
    for group in classes(of, lambda one, other: of[one] & of[other]):
        yield group, [b"alike"] if len({folded(name) for name, _ in group}) > 1 else []


def common_first_words(answers):
    """The keys that are the first word of names of several answers."""
    firsts = [key for to in answers for key in union(map(first_words, names_of(answers, to)))]
    return {key for key in firsts if firsts.count(key) > 1}


class LoginKeys:
    """The keys of the names of answers, and of their logins."""

    def __init__(self, answers, shared):
        self.answers, self.shared = answers, shared
        common = common_first_words(answers)
        part = [to for to in answers if takes_part(answers, shared, to)]
        self.of_names = {to: union(map(keys, names_of(answers, to))) - common for to in part}
        self.of_emails = {to: union(map(self.of_email, emails_of(answers, to))) for to in part}

    def of_email(self, email):
        return frozenset() if folded(email) in self.shared else login_keys(email)

    def are_linked(self, one, other):
        return self.of_names[one] & self.of_emails[other] or self.of_names[other] & self.of_emails[one]

    def linking_logins(self, group):
        """The logins with a key of a name of another answer in the group."""
        for to in group:
            of_others = union(self.of_names[other] for other in group if other != to)
            yield from (login(email) for email in emails_of(self.answers, to) if self.of_email(email) & of_others)


def login_groups(answers, shared):
    own = LoginKeys(answers, shared)
    for group in classes(own.of_names, own.are_linked):
        if len(group) > 1:
            yield group, [b"login " + shortened(next(own.linking_logins(group)))]


# ---- blocks

BY_EMAIL, BY_NAME, BY_LOGIN = email_groups, name_groups, login_groups


class Block(NamedTuple):
    """What is suggested for a group of contacts. `answers` and `gits` are those before its entries."""
    stage: Callable
    heads: list
    group: list
    answers: list
    gits: list
    proper: tuple
    entries: list
    is_too_long: bool

    @property
    def needs_review(self):
        return self.stage != BY_EMAIL


def block(stage, heads, histories, before, group, shared):
    """The block of contacts that `histories` answers; its entries are made for the history `before`."""
    answers = by_frequency(tallied((histories.answer(one.contact), one.count, one.line) for one in group))
    others = [one for one in by_frequency(group) if histories.git_answer(one.contact) != histories.answer(one.contact)]
    gits = by_frequency(tallied((histories.git_answer(one.contact), one.count, k) for k, one in enumerate(others)))
    to = proper(answers, shared).contact
    contacts = [one.contact for one in group]
    is_of_shared_email = stage == BY_EMAIL and heads
    made = [] if is_of_shared_email else entries_to(before, to, contacts, shared)
    is_too_long = any(len(line_text(entry)) > LONGEST_LINE for entry in made)
    return Block(stage, heads, contacts, answers, gits, to, [] if is_too_long else made, is_too_long)


def blocks_of_stage(stage, histories, before, tallies, shared):
    answers = answered(histories, tallies)
    for members, heads in stage(answers, shared):
        group = sorted((one for to in members for one in answers[to]), key=lambda one: one.line)
        to = histories.answer(group[0].contact)
        if not all(histories.is_answered(one.contact, to) for one in group):
            yield block(stage, heads, histories, before, group, shared)


def entries_of_blocks(blocks):
    return [entry for one in blocks for entry in one.entries]


def suggested_blocks(buffers, tallies):
    """The blocks of all stages. The mailmaps alone, without any entries of these, decide which emails are shared."""
    histories = histories_of(buffers)
    shared = shared_emails(histories, tallies)
    by_email = list(blocks_of_stage(BY_EMAIL, histories, histories, tallies, shared))
    one = histories.plus(entries_of_blocks(by_email))
    by_name = list(blocks_of_stage(BY_NAME, one, one, tallies, shared))
    # the lines for logins are right without those for names
    by_login = list(blocks_of_stage(BY_LOGIN, one.plus(entries_of_blocks(by_name)), one, tallies, shared))
    return by_email + by_name + by_login


# ---- the text

def lines_to_print(buffers, block):
    """The lines of a block; those that need a review only if no mailmap has them yet."""
    if not block.needs_review:
        return [line_text(entry) for entry in block.entries]
    there = {line.removesuffix(b"\n") for buffer in buffers for line in lines(buffer)}
    return [line for line in (b"#?" + line_text(entry) for entry in block.entries) if line not in there]


def is_remembered(buffers, block):
    """Whether the mailmaps have all lines of a block that needs a review."""
    return block.entries != [] and not lines_to_print(buffers, block)


def block_text(buffers, block):
    said = [b"too long for git"] * block.is_too_long + block.heads
    said += [b"%d %b" % (one.count, short_contact_text(*one.contact)) for one in block.answers]
    said += [b"%d %b by git" % (one.count, short_contact_text(*one.contact)) for one in block.gits]
    return b"".join(line + b"\n" for line in [*map(comment, said), *lines_to_print(buffers, block), b""])


def suggest(buffers, contacts):
    """What is printed, which begins with the line feed that the last mailmap lacks."""
    blocks = suggested_blocks(buffers, tallies_of(contacts))
    printed = b"".join(block_text(buffers, one) for one in blocks if not is_remembered(buffers, one))
    lacks_line_feed = buffers and buffers[-1] and not buffers[-1].endswith(b"\n")
    return b"\n" + printed if printed and lacks_line_feed else printed
