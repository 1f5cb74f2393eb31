"""The model of an area: what each command answers and leaves, who sees what, and what the files then hold, made from docs/FORMATS.md, "The rules of an
area". It is plain and slow and has nothing of the program. Names and texts are bytes, as callers are shown them.
"""
import time
from typing import NamedTuple

import jam

# the level from which on a user is the sysop of the areas here
SYSOP_LEVEL = 200
DATE = "%Y-%m-%d %H:%M:%S"


class User(NamedTuple):
    name: bytes
    level: int


class Posted(NamedTuple):
    number: int


class Edited(NamedTuple):
    number: int


class Killed(NamedTuple):
    number: int


class Marked(NamedTuple):
    last: int
    high: int


class Relinked(NamedTuple):
    changed: int


class Packed(NamedTuple):
    base: int
    live: int
    dropped: int


class Figures(NamedTuple):
    base: int
    next: int
    visible: int
    unread: int
    last: int
    high: int


class NoMessage(NamedTuple):
    number: int


class Denied(NamedTuple):
    rule: str


SHOWN = {Posted: "Posted as {number}.", Edited: "Edited {number}.", Killed: "Killed {number}.", Marked: "Mark is {last}, high {high}.",
         Relinked: "Relinked: {changed} changed.", Packed: "Packed: base {base}, live {live}, dropped {dropped}.",
         Figures: "{visible} visible, {unread} unread.", NoMessage: "No such message.", Denied: "Denied by rule {rule}."}


def shown(reply):
    """A reply as a caller is shown it."""
    return SHOWN[type(reply)].format(**reply._asdict()).encode() + b"\r\n"


class Message:
    """A message as it was posted, in answer to a number or to 0, and what became of it: with the links that its header holds."""

    def __init__(self, sender, receiver, subject, text=(), is_private=False, answers=0):
        self.sender, self.receiver, self.subject, self.text = sender, receiver, subject, text
        self.is_private, self.answers, self.links = is_private, answers, (answers, 0, 0)
        self.is_killed, self.times_read, self.is_received, self.date = False, 0, False, None

    def is_of(self, user):
        """Whether it is the user's: its sender's, its receiver's or the sysop's."""
        return user.name in (self.sender, self.receiver) or user.level >= SYSOP_LEVEL

    def attribute(self):
        return 0x00800001 | 4 * self.is_private | 8 * self.is_received

    def line(self, number):
        """How it is listed."""
        return b"%8d  %s > %s  %s\r\n" % (number, self.sender, self.receiver, self.subject)

    def letter(self, number):
        """How it is shown, before and behind its date."""
        return (b"Message %d\r\nFrom: %s\r\nTo: %s\r\nSubject: %s\r\nDate: " % (number, self.sender, self.receiver, self.subject),
                b"\r\n\r\n" + b"".join(line + b"\r\n" for line in self.text) + b"\r\n")


class Area:
    """An area with an ordinal among those of its board: its messages by their numbers, killed ones too up to a pack, and what each user has read."""

    def __init__(self, ordinal=1):
        self.ordinal, self.base, self.next, self.messages, self.marks = ordinal, 1, 1, {}, {}

    def msgid(self, number):
        return b"2:5020/1042 %08x" % ((self.ordinal << 24) + number)

    def live(self):
        return [number for number, message in sorted(self.messages.items()) if not message.is_killed]

    def seen(self, user, of=lambda message: True):
        """The numbers that a user sees, or those of them that are of a kind."""
        return [number for number in self.live() for message in [self.messages[number]]
                if (not message.is_private or message.is_of(user)) and of(message)]

    def unread(self, user):
        return [number for number in self.seen(user) if number > self.mark_of(user).last]

    def addressed(self, user):
        return self.seen(user, lambda message: message.receiver == user.name)

    def thread(self, user, number):
        """A message and those that answer it."""
        return [number] + self.seen(user, lambda message: message.answers == number)

    def listed(self, numbers):
        return b"".join(self.messages[number].line(number) for number in numbers)

    def mark_of(self, user):
        return self.marks.get(user.name, Marked(0, 0))

    def figures(self, user):
        return Figures(self.base, self.next, len(self.seen(user)), len(self.unread(user)), *self.mark_of(user))

    def adds(self, number, message):
        """A message was posted under this number, which the program may have told: it is linked behind the others that answer the same."""
        if message.answers:
            others = [other for other in self.live() if self.messages[other].answers == message.answers and other < number]
            changed, at = (self.messages[others[-1]], 2) if others else (self.messages[message.answers], 1)
            changed.links = (*changed.links[:at], number, *changed.links[at + 1:])
        self.messages[number], self.next = message, max(self.next, number + 1)

    def post(self, user, message):
        if message.answers and message.answers not in self.seen(user):
            return NoMessage(message.answers)
        self.adds(self.next, message)
        return Posted(self.next - 1)

    def read(self, user, number):
        """What is read, which is counted, and is received where the receiver reads it."""
        if number not in self.seen(user):
            return NoMessage(number)
        message = self.messages[number]
        message.times_read, message.is_received = message.times_read + 1, message.is_received or user.name == message.receiver
        return message

    def kill(self, user, number):
        if number not in self.seen(user):
            return NoMessage(number)
        if not self.messages[number].is_of(user):
            return Denied("A4")
        self.messages[number].is_killed = True
        return Killed(number)

    def edit(self, user, number, subject, text):
        if number not in self.seen(user):
            return NoMessage(number)
        message = self.messages[number]
        if user.name != message.sender and user.level < SYSOP_LEVEL:
            return Denied("A6")
        message.subject, message.text = subject, text
        return Edited(number)

    def mark(self, user, number):
        if number >= self.next:
            return NoMessage(number)
        self.marks[user.name] = Marked(number, max(number, self.mark_of(user).high))
        return self.marks[user.name]

    def linked(self):
        """The links of each live message in a linked area."""
        answers = {number: self.messages[number].answers for number in self.live()}
        return jam.linked({number: parent if parent in answers else 0 for number, parent in answers.items()})

    def relink(self, user):
        if user.level < SYSOP_LEVEL:
            return Denied("A5")
        changed = [(self.messages[number], links) for number, links in self.linked().items() if links != self.messages[number].links]
        for message, links in changed:
            message.links = links
        return Relinked(len(changed))

    def pack(self, user):
        if user.level < SYSOP_LEVEL:
            return Denied("A5")
        self.relink(user)
        live, count = self.live(), len(self.messages)
        self.messages = {number: self.messages[number] for number in live}
        self.base = min(live, default=self.next)
        return Packed(self.base, len(live), count - len(live))

    def compares(self, trial, what, base, since, ids):
        """Looks whether this is what the files of a base hold: these messages, each once, with all that is known of them, and nothing else; and the
        marks of these users, by the numbers that they have."""
        live, linked = base.live(), self.linked()
        trial.is_so(f"{what}: which messages are there", sorted(live), self.live())
        trial.is_so(f"{what}: the reply links", jam.held_links(base), jam.links_of(base))
        trial.holds(f"{what}: it counts its messages", jam.ulong(base.fixed, 12) == len(live))
        for number in live.keys() & self.messages.keys():
            found, message = live[number], self.messages[number]
            head = found.head
            trial.is_so(f"{what}: message {number}", [found.first(kind) for kind in (2, 3, 4, 5, 6)] + [found.text, found.owner],
                        [message.sender, message.receiver, self.msgid(number), self.msgid(message.answers) if message.answers else None,
                         message.subject, b"".join(line + b"\r" for line in message.text), jam.crc(message.receiver)])
            trial.is_so(f"{what}: the header of message {number}",
                        (head["number"], *(head[link] for link in jam.LINKS), head["attribute"], head["read"]),
                        (number, *linked.get(number, ()), message.attribute(), message.times_read))
            trial.holds(f"{what}: the date of message {number}", since <= head["written"] <= time.time()
                        and message.date in (None, time.strftime(DATE, time.gmtime(head["written"])).encode()))
        marks = [base.marks[at:at + 16] for at in range(0, len(base.marks), 16)]
        wanted = [jam.mark(name, ids[name], *mark) for name, mark in self.marks.items()]
        trial.is_so(f"{what}: what has been read", sorted(marks), sorted(wanted))
