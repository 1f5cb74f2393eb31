"""What sessions do that several scripts have, and what must be sent to them: one that answers a letter, and eight callers of one board, made from what all
of them did.
"""
import random
import re
import threading

from area import Area, Message, shown
from caller import BARE, PLAIN, TALKATIVE, Otherwise
from harness import AREAS, CALLERS, COUNT, GREETING, IDS, NAMES, NO_MEMORY, OFFERS, SYSOP, password_of

CLIENTS = [PLAIN, TALKATIVE, BARE, PLAIN, PLAIN, TALKATIVE, BARE, PLAIN]
# one who answers the letter of a base with one message, and what is sent then; and what to one who guesses
START = OFFERS + GREETING
ANSWERED = ["Hello", "test", "1", "N", "R", "Thanks", ".", "Q"]
FIRST = START + (
    b"Password: Welcome, Hello.\r\nTop> 1 visible, 1 unread.\r\n[general] "
    b"Message 1\r\nFrom: Test\r\nTo: Hello\r\nSubject: abc\r\nDate: 2001-09-09 01:46:40\r\n\r\nGood\r\n\r\n[general] "
    b"Reply to Test, subject Re: abc\r\nText, . ends, ! cancels\r\nPosted as 2.\r\n[general] Goodbye.\r\n")
# one who edits the letter, and what is sent then
EDITED = ["Test", "abc", "1", "E 1", "abcd", "Bye", ".", "Q"]
EDIT = START + (b"Password: Welcome, Test.\r\nTop> 1 visible, 1 unread.\r\n[general] Subject (empty keeps): Text, . ends, ! cancels\r\n"
                b"Edited 1.\r\n[general] Goodbye.\r\n")
# one who pages themselves, and what is sent then
PAGED = ["Hello", "test", "S 1", "hi", "G", "G", "S 3", "Q"]
PAGES = START + (b"Password: Welcome, Hello.\r\nTop> Page: Sent.\r\nTop> Page from node 1: hi\r\nTop> No pages.\r\nTop> No such node.\r\n"
                 b"Top> Goodbye.\r\n")
WRONG = START + b"Password: Login incorrect.\r\nName: " * 2 + b"Password: Login incorrect.\r\nGoodbye.\r\n"
LISTED, LISTED_ANSWER = b"       1  Test > Hello  abc\n", b"       2  Hello > Test  Re: abc\n"


def goes_as_far(trial, what, found, status):
    """Looks at what was sent of the answer to a letter where memory was refused, and how far the base came: the letter read, then marked, then answered."""
    base = trial.base()
    done = [base.slots[0].head["read"] == 1, len(base.marks) == 16, len(base.slots) == 2]
    if found == NO_MEMORY[0]:
        trial.is_so(f"{what}: nothing is done", (done, status), ([False] * 3, NO_MEMORY[1]))
        return
    shown_at, posted_at = FIRST.index(b"Message 1"), FIRST.index(b"Posted")
    steps = sum(done)
    # what is done was said, or was to be said next
    least = 3 if len(found) > posted_at else 2 if len(found) > shown_at else 0
    most = 3 if len(found) >= posted_at else 2 if len(found) >= shown_at else 0
    trial.is_so(f"{what}: the status of {found!r}", status, 0 if found == FIRST else 6)
    trial.holds(f"{what}: {found!r} is sent", FIRST.startswith(found))
    trial.holds(f"{what}: {found!r} is sent, and {done} done", done == [n < steps for n in range(3)] and least <= steps <= most)


def edit_goes_as_far(trial, what, found, status):
    """The same of an edit of that letter: it is done whole or not at all."""
    message = trial.base().slots[0]
    done = [message.first(6) == b"abcd", message.text == b"Bye\r"]
    trial.holds(f"{what}: the letter is as it was, or edited: {message.first(6)}, {message.text}", done[0] == done[1]
                and (done[0] or (message.first(6), message.text) == (b"abc", b"Good\r")))
    if found == NO_MEMORY[0]:
        trial.is_so(f"{what}: nothing is done", (done[0], status), (False, NO_MEMORY[1]))
        return
    edited_at = EDIT.index(b"Edited")
    trial.is_so(f"{what}: the status of {found!r}", status, 0 if found == EDIT else 6)
    trial.holds(f"{what}: {found!r} is sent", EDIT.startswith(found))
    trial.holds(f"{what}: {found!r} is sent, and {done} done", done[0] if len(found) > edited_at else len(found) == edited_at or not done[0])


def pages_go_as_far(trial, what, found, status):
    """The same of pages, with which nothing is done."""
    trial.is_so(f"{what}: the status of {found!r}", status, 0 if found == PAGES else 6)
    trial.holds(f"{what}: {found!r} is sent", found == NO_MEMORY[0] or PAGES.startswith(found))


class Hall:
    """The areas of the board, with what all callers have done in them so far."""

    def __init__(self):
        self.areas, self.lock = {name: Area(k + 1) for k, name in enumerate(AREAS)}, threading.Lock()

    def adds(self, name, number, message):
        with self.lock:
            if number in self.areas[name].messages:
                raise Otherwise(f"{number} of {name} was given to two messages")
            self.areas[name].adds(number, message)

    def compares(self, trial, what, since):
        """Looks whether the files of each area hold what was done."""
        for name, area in self.areas.items():
            area.compares(trial, f"{what}, {name}", trial.base(name), since, IDS)


class Visit:
    """One of the eight, with what it does in each of the three areas."""

    def __init__(self, hall, n, caller):
        self.hall, self.n, self.user, self.name, self.caller, self.draw = hall, n, CALLERS[n], NAMES[n], caller, random.Random(n)

    def in_each(self, done):
        """Enters each area in a drawn order, does this there, and leaves it."""
        for name in self.draw.sample(AREAS, len(AREAS)):
            prompt = b"[%s] " % name.encode()
            figures = self.caller.enters(b"%d" % (AREAS.index(name) + 1), prompt)
            if not re.fullmatch(rb"\d+ visible, \d+ unread\.\r\n", figures):
                raise Otherwise(f"{self.name}: {figures!r} came upon an area")
            done(name, self.hall.areas[name], prompt, figures)
            self.caller.answers(b"b", b"", b"Top> ")

    def own(self, area, n, kind):
        """The number of a message of this kind that the caller with this place posted in an area."""
        return next(number for number, message in sorted(area.messages.items()) if message.sender == NAMES[n] and message.subject.startswith(kind))

    def logs_in(self):
        self.caller.logs_in(self.name, password_of(self.name))
        self.caller.answers(b"4", b"No such area.\r\n", b"Top> ")

    def posts(self):
        """Two public messages and a private one in each area; a byte 255 is in each."""
        def done(name, _area, prompt, _figures):
            for kind, receiver, is_private in ((b"asked", b"All", False), (b"dropped", NAMES[(self.n + 2) % COUNT], False),
                                               (b"secret", NAMES[(self.n + 1) % COUNT], True)):
                text = [b"%s of %s in %s" % (kind, self.name, name.encode()), b"", b"\xff %d" % self.draw.randrange(10**9)]
                message = Message(self.name, receiver, b"%s by %s" % (kind, self.name), text, is_private)
                self.hall.adds(name, self.caller.posts(receiver, message.subject, text, is_private, prompt), message)
        self.in_each(done)

    def lists(self, area, prompt, letter, seen):
        """Looks whether the pages of this list show all of these, twenty at once."""
        start = b""
        while True:
            page, seen = seen[:20], seen[20:]
            self.caller.answers(letter + start, area.listed(page) or b"Nothing.\r\n", prompt)
            if not seen:
                return
            start = b" %d" % seen[0]

    def shows(self, area, prompt, number, key=None):
        """Looks whether a message is shown as it is."""
        with self.hall.lock:
            message = area.read(self.user, number)
        before, behind = message.letter(number)
        found = self.caller.enters(key or b"%d" % number, prompt)
        date = found[len(before):-len(behind)]
        if found != before + date + behind or not re.fullmatch(rb"\d{4}-\d\d-\d\d \d\d:\d\d:\d\d", date):
            raise Otherwise(f"{self.name}: {found!r} came upon message {number}")
        message.date = date

    def enters(self, name, area, figures):
        """Looks at what is told of an area as it is entered where nobody posts."""
        wanted = shown(area.figures(self.user))
        if figures != wanted:
            raise Otherwise(f"{self.name}: {figures!r} came, where {wanted!r} is wanted of {name}")

    def looks(self):
        """Lists and reads where nobody posts, so that all of it is known; the sysop packs and relinks meanwhile."""
        def done(name, area, prompt, figures):
            self.enters(name, area, figures)
            self.lists(area, prompt, b"L", area.seen(self.user))
            self.lists(area, prompt, b"y", area.addressed(self.user))
            first = area.unread(self.user)[0]
            self.shows(area, prompt, first, b"n")
            area.mark(self.user, first)
            self.caller.answers(b"x", shown(area.pack(self.user)), prompt)
            if self.n == SYSOP:
                self.caller.answers(b"z", shown(area.relink(self.user)), prompt)
        self.in_each(done)
        lines = [b"%3d  %-24s%6d unread\r\n" % (k + 1, name.encode(), len(area.unread(self.user))) for k, (name, area) in enumerate(self.hall.areas.items())]
        self.caller.answers(b"a", b"".join(lines), b"Top> ")

    def answers(self):
        """Answers two messages, kills and marks, while the others do and the sysop packs."""
        def done(name, area, prompt, _figures):
            for other in ((self.n + 1) % COUNT, (self.n + 3) % COUNT):
                number = self.own(area, other, b"asked")
                self.shows(area, prompt, number)
                subject = b"Re: " + area.messages[number].subject
                self.caller.enters(b"r")
                self.caller.reads(b"Reply to %s, subject %s\r\n" % (NAMES[other], subject))
                text = [b"%s answers in %s" % (self.name, name.encode())]
                self.hall.adds(name, self.caller.number_of(self.caller.ends_text(text, prompt)),
                               Message(self.name, NAMES[other], subject, text, False, number))
            for number in [self.own(area, self.n, b"dropped")] * 2 + [self.own(area, (self.n + 1) % COUNT, b"asked")] * (self.n != SYSOP):
                self.caller.answers(b"k %d" % number, shown(area.kill(self.user, number)), prompt)
            if self.n == SYSOP:
                self.packs(prompt)
            low = self.own(area, self.n, b"asked")
            self.caller.answers(b"m %d" % low, shown(area.mark(self.user, low)), prompt)
        self.in_each(done)

    def packs(self, prompt):
        found = self.caller.enters(b"x", prompt)
        if not re.fullmatch(rb"Packed: base [1-9]\d*, live \d+, dropped [1-9]\d*\.\r\n", found):
            raise Otherwise(f"{self.name}: {found!r} came upon a pack")
        self.caller.answers(b"z", b"Relinked: 0 changed.\r\n", prompt)

    def lists_again(self):
        """Looks whether all that was done is seen, and a thread."""
        def done(name, area, prompt, figures):
            self.enters(name, area, figures)
            self.lists(area, prompt, b"l", area.seen(self.user))
            number = self.own(area, (self.n + 1) % COUNT, b"asked")
            self.caller.answers(b"t %d" % number, area.listed(area.thread(self.user, number)), prompt)
        self.in_each(done)
