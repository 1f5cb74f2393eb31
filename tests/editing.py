#!/usr/bin/env python3
"""Tries edits of messages by callers of the built program, over real files: who may edit what, what an editor is asked, what may come between, and
that an edit is done whole or not at all, also where the program is killed while others read and pack.

usage: editing.py PROGRAM [--kills N]

What must be answered, and what the files then hold, is told by the model of an area (area.py) and by jam.py, which knows the tables of the JAM
proposal and nothing of the program; bases of other programs are written by it too. Where N is given, as many runs are killed, at other moments, and
nothing else is tried.
"""
import random
import re
import signal
import struct
import sys
import threading
import time

import jam
from area import Message, shown
from caller import BARE, GUARD, PLAIN, TALKATIVE, Otherwise
from harness import AREAS, CALLERS, IN_DOUBT, NAMES, SYSOP, TOP, Served, goes_through, resets, with_limit
from visits import Hall, Visit

PROMPT = b"[general] "
ASKS_SUBJECT, ASKS_TEXT, CANCELLED, UNKNOWN = b"Subject (empty keeps): ", b"Text, . ends, ! cancels\r\n", b"Cancelled.\r\n", b"Unknown command.\r\n"
MOST_TEXT_BYTES, MOST_SUBJECT_BYTES = 16_384, 72
ADA, BARBARA, EDSGER, GRACE, HEDY, JOHN = range(6)


class Editor(Visit):
    """One of the users in the first area, who is answered as the model answers."""

    def __init__(self, trial, hall, n, client=BARE):
        super().__init__(hall, n, trial.guest(n, client=client))
        self.area = hall.areas["general"]

    def writes(self, receiver, subject, text, is_private=False):
        """Posts a message, and gives its number."""
        message = Message(self.name, receiver, subject, text, is_private)
        number = self.caller.posts(receiver, subject, text, is_private, PROMPT)
        self.hall.adds("general", number, message)
        return number

    def edits(self, number, subject, text):
        """Edits a message, and looks at the answer."""
        wanted = subject or self.area.messages[number].subject
        self.hears(self.caller.edits(number, subject, text), self.area.edit(self.user, number, wanted, text))

    def hears(self, found, reply):
        if found != shown(reply):
            raise Otherwise(f"{self.name}: {found!r} came, where {shown(reply)!r} is wanted")

    def begins(self, number, subject, text):
        """Edits a message up to the end of its text."""
        self.caller.begins_edit(number, subject)
        self.caller.reads(ASKS_TEXT)
        for line in text:
            self.caller.enters(line)

    def ends(self, wanted):
        """Ends what was begun, and looks at what comes."""
        self.caller.answers(b".", wanted, PROMPT)

    def sees(self):
        """Looks whether the lists and all letters are as in the model."""
        self.lists(self.area, PROMPT, b"l", self.area.seen(self.user))
        for number in self.area.seen(self.user):
            self.shows(self.area, PROMPT, number)


class Edits(Served):
    """Runs of `serve` in which callers edit."""

    def has_letters_of(self, hall):
        """New bases, a run, and letters in the first area: of Ada to all and in private to Barbara, of Barbara to Ada, of the sysop to Ada."""
        self.has_bases()
        self.begins()
        ada, barbara, sysop = (Editor(self, hall, n, client) for n, client in ((ADA, PLAIN), (BARBARA, TALKATIVE), (SYSOP, BARE)))
        ada.writes(b"All", b"first", [b"a line", b"and one more"])
        ada.writes(b"Barbara", b"second", [b"hush"], True)
        barbara.writes(b"Ada", b"third", [])
        sysop.writes(b"Ada", b"fourth", [b"\xff a line"])
        return ada, barbara, sysop

    def stands(self, what, hall, since):
        """Ends the run, and looks whether the files hold what was done, before a pack by the tool and behind it."""
        self.is_ended(what)
        for turn in (what, f"{what}, packed"):
            self.checks(turn)
            hall.compares(self, turn, since)
            for name, area in hall.areas.items():
                self.is_so(f"{turn}: a pack of {name}", self.ended("pack", "areas", name), (shown(area.pack(CALLERS[SYSOP])).replace(b"\r", b""), 0))
        self.is_so(f"{what}: what no message has, packed", [jam.read(self.areas, name)[1:] for name in AREAS], [(0, 0)] * len(AREAS))


def try_editors(trial):
    """The sender and the sysop edit a message, all others see it at once, and nobody else may."""
    since, hall = int(time.time()), Hall()
    ada, barbara, sysop = trial.has_letters_of(hall)
    edsger = Editor(trial, hall, EDSGER)
    for editor in (ada, barbara, sysop, edsger):
        editor.sees()
    ada.edits(1, b"first, again", [b"another line"])
    for editor in (barbara, sysop, edsger, ada):
        editor.sees()
    ada.edits(1, b"", [b"the subject stays", b"", b"\xff"])
    ada.edits(2, b"x" * MOST_SUBJECT_BYTES, [])
    barbara.edits(2, b"by its receiver", [b"no"])
    barbara.edits(1, b"", [b"no"])
    edsger.caller.answers(b"e 2", b"No such message.\r\n", PROMPT)
    sysop.edits(2, b"second, by the sysop", [b"hush, hush"])
    sysop.edits(3, b"", [b"not empty"])
    ada.edits(3, b"by its receiver", [b"no"])
    ada.edits(4, b"of the sysop", [b"no"])
    for subject in (b".", b"!", b"  spaces stay ", b"Private (Y/N): "):
        ada.edits(1, subject, [b"a subject as it is typed", b"..", b"! ", b" ."])
        edsger.sees()
    for editor in (ada, barbara, sysop):
        editor.sees()
        editor.caller.quits()
    edsger.caller.quits()
    trial.stands("edits", hall, since)


def try_words(trial):
    """What is typed wrong, what is too long, and what is cancelled changes nothing, and the caller goes on."""
    since, hall = int(time.time()), Hall()
    ada, _, sysop = trial.has_letters_of(hall)
    before = trial.files()
    caller = ada.caller
    caller.answers(b"e 1", b"", ASKS_SUBJECT)
    caller.enters(b"not this")
    caller.reads(ASKS_TEXT)
    caller.answers(b"!", CANCELLED, PROMPT)
    caller.answers(b"r", b"No message shown.\r\n", PROMPT)
    for typed in (b"e", b"e x", b"e 1 2", b"e -1", b"e 4294967296", b"edit 1", b"e1"):
        caller.answers(typed, UNKNOWN, PROMPT)
    for typed in (b"e 0", b"e 5", b"E 16777216", b"  e   4294967295 "):
        caller.answers(typed, b"No such message.\r\n", PROMPT)
    for length in (MOST_SUBJECT_BYTES + 1, MOST_SUBJECT_BYTES + 6):
        found = caller.edits(1, b"y" * length, [b"no"])
        trial.is_so(f"a subject of {length} bytes", found, b"Field Subject too long: %d bytes.\r\n" % length)
    caller.answers(b"b", b"", b"Top> ")
    caller.answers(b"e 1", UNKNOWN, b"Top> ")
    caller.enters(b"1", PROMPT)
    trial.holds("what is typed wrong changes nothing", trial.keeps(before))
    # a reply is to the letter that was shown, whatever was edited since
    ada.shows(ada.area, PROMPT, 3)
    ada.edits(1, b"", [b"edited"])
    caller.enters(b"r")
    caller.reads(b"Reply to Barbara, subject Re: third\r\n" + ASKS_TEXT)
    caller.answers(b"!", CANCELLED, PROMPT)
    # as long a text as there may be: 210 lines of 78 bytes with their ends, and one of four
    text = [b"%077d" % n for n in range(210)] + [b"end"]
    ada.begins(1, b"long", text)
    for line in (b"", b"more"):
        caller.enters(line)
        caller.reads(b"Text full, line dropped.\r\n")
    ada.ends(shown(ada.area.edit(ada.user, 1, b"long", text)))
    trial.is_so("the longest text", len(trial.base().live()[1].text), MOST_TEXT_BYTES)
    sysop.sees()
    for editor in (ada, sysop):
        editor.caller.quits()
    trial.stands("words of an edit", hall, since)


def try_hangups(trial):
    """Who hangs up, or is cut off, before an edit has ended changes nothing."""
    since, hall = int(time.time()), Hall()
    ada, barbara, sysop = trial.has_letters_of(hall)
    for editor in (ada, barbara):
        editor.caller.quits()
    before = trial.files()
    for typed in (b"e 1", b"e 1\n", b"e 1\nnot this", b"e 1\nnot this\n", b"e 1\n\nnot th", b"e 1\nnot this\nnot this\n", b"e 1\n\nnot this\n."):
        for is_cut_off in (False, True):
            caller = trial.guest(ADA)
            caller.types(typed)
            if is_cut_off:
                resets(caller.line)
            else:
                caller.line.close()
    # each who hung up has left by the time that all nodes can be had
    callers = [trial.guest(n) for n in range(len(NAMES) - 1)]
    sysop.sees()
    after = trial.files()
    # the sysop has read, which is counted in .JHR
    trial.holds("who hangs up changes nothing",
                len(after["jhr"]) == len(before["jhr"]) and all(after[it] == before[it] for it in ("jdt", "jdx", "jlr")))
    for caller in callers + [sysop.caller]:
        caller.quits()
    trial.stands("editors who hung up", hall, since)


def try_between(trial):
    """What others do to a message while it is edited: the edit is answered by how things stand at its end."""
    since, hall = int(time.time()), Hall()
    ada, barbara, sysop = trial.has_letters_of(hall)
    area = ada.area
    ada.begins(1, b"killed meanwhile", [b"a line"])
    sysop.caller.answers(b"k 1", shown(area.kill(sysop.user, 1)), PROMPT)
    ada.ends(b"No such message.\r\n")
    ada.begins(2, b"", [b"packed meanwhile"])
    sysop.caller.answers(b"x", shown(area.pack(sysop.user)), PROMPT)
    trial.is_so("the base number behind a pack", trial.base().number, 2)
    ada.ends(shown(area.edit(ada.user, 2, b"second", [b"packed meanwhile"])))
    # an empty line keeps the subject that the letter had when it was asked for
    ada.begins(2, b"", [b"edited meanwhile"])
    sysop.edits(2, b"by the sysop", [b"and then"])
    barbara.sees()
    ada.ends(shown(area.edit(ada.user, 2, b"second", [b"edited meanwhile"])))
    # two at once: who ends last has the message
    barbara.begins(3, b"Barbara's", [b"of Barbara"])
    sysop.begins(3, b"the sysop's", [b"of the sysop"])
    barbara.ends(shown(area.edit(barbara.user, 3, b"Barbara's", [b"of Barbara"])))
    ada.sees()
    sysop.ends(shown(area.edit(sysop.user, 3, b"the sysop's", [b"of the sysop"])))
    # packed and killed, so that its number is behind the base or of no message
    barbara.begins(3, b"", [b"never"])
    for number in (2, 3):
        sysop.caller.answers(b"k %d" % number, shown(area.kill(sysop.user, number)), PROMPT)
    sysop.caller.answers(b"x", shown(area.pack(sysop.user)), PROMPT)
    barbara.ends(b"No such message.\r\n")
    trial.is_so("the base number behind another pack", trial.base().number, 4)
    sysop.caller.answers(b"z", shown(area.relink(sysop.user)), PROMPT)
    for editor in (ada, barbara, sysop):
        editor.sees()
        editor.caller.quits()
    trial.stands("edits with others between", hall, since)


def with_subject(fields, subject):
    """Subfields with this subject as that of the first of its kind, or behind all where there is none."""
    at = 0
    while at < len(fields):
        kind, upper, size = struct.unpack_from("<HHI", fields, at)
        if kind == 6:
            return fields[:at] + jam.subfields((6, upper, subject)) + fields[at + 8 + size:]
        at += 8 + size
    return fields + jam.subfields((6, subject))


def edited(files, number, subject, text):
    """The files behind one edit: a header and a text more, another place in the index, and two counts; no other byte is another one."""
    headers, texts, index = files["jhr"], files["jdt"], files["jdx"]
    base = jam.base_in(files)[0]
    at = 8 * (number - base.number) + 4
    old = base.live()[number]
    fields = with_subject(old.fields, subject)
    head = old.head | {"number": number, "subfields": len(fields), "offset": len(texts), "length": len(text)}
    counts = struct.pack("<II", (jam.ulong(headers, 8) + 1) % 2**32, len(base.live()))
    return files | {"jhr": headers[:8] + counts + headers[16:] + jam.header_bytes(head, fields), "jdt": texts + text,
                    "jdx": index[:at] + struct.pack("<I", len(headers)) + index[at + 4:]}


def odd_messages():
    """Messages of other programs by their numbers, with what this program would not write, an empty slot and a killed one."""
    odd = dict(reserved=3, read=7, reply_crc=5, received=9, processed=11, attribute2=13, password=15, cost=17)
    long, three = b"a subject of one hundred bytes ".ljust(100, b"."), ((2, b"aDA"), (3, b"All"))
    letters = {
        1: (jam.subfields(*three, (6, 9, long), (4, b"2:5020/1042 01000001")), {}),
        2: (jam.subfields((2000, b"k" * 262_128)), {}),
        3: (jam.subfields((2000, b"first"), *three, (6, b"caf\xe9 \x01\x7f\xff"), (2001, 5, b""), (6, b"second"), (2, b"not she")), odd),
        4: (jam.subfields(*three, (6, b"gone")), {"attribute": jam.DELETED}),
        6: (jam.subfields(*three, (2004, b"no subject")), odd | {"number": 77}),
        7: (jam.subfields(*three, (6, b"fixed")), {}),
    }
    slots = [None] * 7
    for number, (fields, values) in letters.items():
        head = jam.head_of(fields, **{"number": number, "written": 10**9, "attribute": 0x00800001, **values})
        slots[number - 1] = jam.Message(head, fields, b"the text of %d\r" % number, jam.crc(b"All"))
    slots[6].head["reply_to"], slots[2].head["reply_first"] = 3, 7
    return jam.Base(jam.fixed_header(counter=2**32 - 2, live=9), slots, jam.mark(b"Ada", 11, 2, 3)), long


def try_odd_bases(trial):
    """Messages of other programs, each edit to the byte: a subject of 100 bytes stays where it is kept, and what is not understood stays always."""
    trial.has_bases()
    base, long = odd_messages()
    jam.write_files(trial.areas, "general", jam.files_of(base, random.Random(5)), str.upper)
    trial.begins()
    ada, sysop = trial.guest(ADA, client=PLAIN), trial.guest(SYSOP)
    refused = b"Field Subject too long: %d bytes.\r\n"
    first_subject = base.slots[2].first(6)
    edits = ((ada, 1, b"", long, [b"the subject stays"], b""), (ada, 1, b"y" * 73, None, [b"no"], refused % 73),
             (ada, 1, long[:73], None, [b"no"], refused % 73), (sysop, 1, b"", long, [], b""),
             (ada, 2, b"", None, [b"no"], b"Denied by rule A6.\r\n"),
             (sysop, 2, b"a", None, [], b"Subfields full: 262145 bytes.\r\n"), (sysop, 2, b"", b"", [b"a line"], b""),
             (sysop, 2, b"a", None, [b"no"], b"Subfields full: 262145 bytes.\r\n"), (sysop, 2, b"", b"", [b"a line", b"more"], b""),
             (ada, 3, b"", first_subject, [b"its bytes stay"], b""), (ada, 3, b"the first", b"the first", [b"and no other"], b""),
             (ada, 6, b"", b"", [b"an empty subject"], b""), (ada, 6, b"a subject", b"a subject", [b"behind all"], b""))
    for caller, number, typed, subject, text, answer in edits:
        before = trial.files()
        found = caller.edits(number, typed, text)
        what = f"message {number} with {typed[:20]!r} and {text}"
        trial.is_so(f"{what}: the answer", found, answer or b"Edited %d.\r\n" % number)
        wanted = before if subject is None else edited(before, number, subject, b"".join(line + b"\r" for line in text))
        after = trial.files()
        trial.is_so(f"{what}: the files that are otherwise", [it for it in jam.FILES if after[it] != wanted[it]], [])
    for number in (4, 5):
        ada.answers(b"e %d" % number, b"No such message.\r\n", PROMPT)
    # what was kept is no longer what the message has
    ada.begins_edit(1, b"")
    trial.is_so("another subject meanwhile", sysop.edits(1, b"short", [b"by the sysop"]), b"Edited 1.\r\n")
    ada.reads(ASKS_TEXT)
    ada.answers(b".", refused % 100, PROMPT)
    before = trial.base().live()
    sysop.answers(b"x", b"Packed: base 1, live 5, dropped 1.\r\n", PROMPT)
    after, *dead = jam.read(trial.areas, "general")
    trial.is_so("behind a pack: what no message has", dead, [0, 0])
    trial.is_so("behind a pack: the messages", {n: (m.fields, m.text, m.owner) for n, m in after.live().items()},
                {n: (m.fields, m.text, m.owner) for n, m in before.items()})
    before = trial.files()
    trial.is_so("an edit behind a pack", ada.edits(7, b"not fixed", [b"end"]), b"Edited 7.\r\n")
    trial.is_so("an edit behind a pack: the files", trial.files() | {"jnl": b""}, edited(before, 7, b"not fixed", b"end\r") | {"jnl": b""})
    for caller in (ada, sysop):
        caller.quits()
    trial.is_ended("messages of other programs")
    trial.checks("messages of other programs")
    trial.is_so("messages of other programs: a list", trial.ended("list", "areas", "general"), (jam.listing(trial.base()), 0))


def try_real_base(trial):
    """The sysop edits messages of a base that another program wrote (tests/peer), each to the byte; the others stay, also behind a pack."""
    trial.has_bases()
    jam.write_files(trial.areas, "general", {it: open(f"{TOP}/tests/peer/PLAIN.{it}", "rb").read() for it in jam.FILES}, str.upper)
    trial.begins()
    sysop, draw = trial.guest(SYSOP), random.Random(6)
    for turn in range(40):
        before = trial.files()
        live = jam.base_in(before)[0].live()
        number, subject = draw.choice(list(live)), draw.choice((b"", b"subject %d" % turn))
        text = [b"line %d of %d" % (n, turn) for n in range(draw.randrange(4))]
        trial.is_so(f"edit {turn} of a real base", sysop.edits(number, subject, text), b"Edited %d.\r\n" % number)
        wanted, after = edited(before, number, subject or live[number].first(6), b"".join(line + b"\r" for line in text)), trial.files()
        trial.is_so(f"edit {turn} of a real base: the files that are otherwise", [it for it in jam.FILES if after[it] != wanted[it]], [])
    before = trial.base()
    sysop.answers(b"x", b"Packed: base 1, live 60, dropped 0.\r\n", PROMPT)
    sysop.quits()
    trial.is_ended("a real base")
    trial.checks("a real base")
    after, *dead = jam.read(trial.areas, "general")
    trial.is_so("a real base, packed: what no message has", dead, [0, 0])
    trial.is_so("a real base, packed: the messages", {n: (m.fields, m.text, m.owner) for n, m in after.live().items()},
                {n: (m.fields, m.text, m.owner) for n, m in before.live().items()})


def try_doubt(trial):
    """A disk that fails in an edit: the caller is told so, and the next run finds it undone, or done where its record was whole."""
    since, hall = int(time.time()), Hall()
    for caller in trial.has_letters_of(hall):
        caller.caller.quits()
    trial.is_ended("before the disk fails")
    area = hall.areas["general"]
    for what, most, is_done in (("a journal that does not grow", 40, False), ("headers that do not grow", len(trial.files()["jhr"]) + 20, True)):
        trial.begins(preexec_fn=with_limit(most))
        ada = trial.guest(ADA)
        trial.is_so(what, ada.edits(1, b"in doubt", [b"a line"]), IN_DOUBT)
        # a change that is not done yet is to be done before the message is looked at
        if is_done:
            ada.answers(b"e 1", IN_DOUBT, PROMPT)
        else:
            trial.is_so(f"{what}, again", ada.edits(1, b"in doubt again", [b"two", b"lines"]), IN_DOUBT)
        ada.quits()
        trial.is_ended(what)
        trial.checks(what)
        if is_done:
            area.edit(CALLERS[ADA], 1, b"in doubt", [b"a line"])
        hall.compares(trial, what, since)
    trial.begins()
    trial.is_so("the next run", trial.guest(ADA).edits(1, b"", [b"at last"]), shown(area.edit(CALLERS[ADA], 1, b"in doubt", [b"at last"])))
    trial.stands("a disk that failed in an edit", hall, since)


def edition(writer, count):
    """The subject and the text of an edition: each tells which it is."""
    draw = random.Random(f"{writer} {count}")
    name = b"edition %d by %s" % (count, writer)
    return name + b"+" * draw.randrange(40), [b"%s " % name + b"x" * draw.randrange(40) for _ in range(draw.randrange(30))]


class Target:
    """A message that is edited again and again. Of each of its writers it is known which edition is done, and which is under way."""

    def __init__(self, number, sender, writers):
        self.number, self.sender, self.done, self.under_way = number, sender, dict.fromkeys(writers, 0), dict.fromkeys(writers, 0)

    def editions(self):
        """Those that may stand: of more than one writer each last one, and those under way."""
        return {edition(writer, count)[0]: (writer, count) for counts in (self.done, self.under_way) for writer, count in counts.items()}

    def letter_of(self, subject, least):
        """The letter of the edition that has this subject. It is no older than the one that was done at some time; where there are two writers, that
        is left open."""
        found = re.fullmatch(rb"edition (\d+) by (\w+ \d)\+*", subject)
        if not found or found[2] not in self.done or edition(found[2], int(found[1]))[0] != subject:
            raise Otherwise(f"message {self.number} has the subject {subject!r}")
        if len(self.done) == 1 and int(found[1]) < least[found[2]]:
            raise Otherwise(f"message {self.number} has the subject {subject!r} where edition {least[found[2]]} was done")
        return Message(self.sender, b"All", *edition(found[2], int(found[1])))

    def settles(self, trial, what, message):
        """Looks whether an edition stands that may, with its subject and its text."""
        subject = message.first(6)
        known = self.editions()
        if trial.holds(f"{what}: message {self.number} has the subject {subject!r}, where one of {list(known)} is wanted", subject in known):
            writer, count = known[subject]
            trial.is_so(f"{what}: the text of message {self.number}", message.text, b"".join(line + b"\r" for line in edition(writer, count)[1]))
            self.done[writer] = count
        self.under_way = dict(self.done)


class Writer:
    """One who edits a message until the line breaks, and packs between where that is asked."""

    def __init__(self, trial, n, writer, target, packed=b""):
        self.caller, self.writer, self.target, self.packed, self.count = trial.guest(n), writer, target, packed, 0

    def goes_on(self, is_broken):
        try:
            while True:
                self.edits()
                if self.packed:
                    self.caller.answers(b"x", self.packed, PROMPT)
        except (Otherwise, ConnectionError):
            if not is_broken.is_set():
                raise
            if b"Edited " in self.caller.seen:
                self.is_done()

    def edits(self):
        count = max(self.target.done[self.writer], self.target.under_way[self.writer]) + 1
        self.target.under_way[self.writer] = count
        subject, text = edition(self.writer, count)
        found = self.caller.edits(self.target.number, subject, text)
        if found != b"Edited %d.\r\n" % self.target.number:
            raise Otherwise(f"{self.writer}: {found!r} came upon an edit")
        self.is_done()

    def is_done(self):
        self.target.done[self.writer] = self.target.under_way[self.writer]
        self.count += 1


class Reader:
    """One who reads until the line breaks: each letter is an edition, none is older than what was done before, and what nobody edits is as it was."""

    def __init__(self, trial, n, targets, fixed, draw):
        self.caller, self.targets, self.fixed, self.draw, self.count = trial.guest(n), targets, fixed, draw, 0

    def goes_on(self, is_broken):
        try:
            while True:
                self.reads(self.draw.choice(self.targets))
                self.lists()
                self.shows(*self.draw.choice(list(self.fixed.items())), self.draw.choice((b"%d", b"t %d")))
                self.count += 1
        except (Otherwise, ConnectionError):
            if not is_broken.is_set():
                raise

    def reads(self, target):
        least = dict(target.done)
        found = self.caller.enters(b"%d" % target.number, PROMPT)
        subject = re.search(rb"\r\nSubject: ([^\r]*)\r\n", found)
        self.is_letter(target.number, target.letter_of(subject[1] if subject else b"", least), found)

    def is_letter(self, number, message, found):
        before, behind = message.letter(number)
        if not (found.startswith(before) and found.endswith(behind) and len(found) == len(before) + 19 + len(behind)):
            raise Otherwise(f"{found!r} came upon message {number}, where {before!r}, a date and {behind!r} are wanted")

    def shows(self, number, message, typed):
        found = self.caller.enters(typed % number, PROMPT)
        if typed.startswith(b"t"):
            if found != message.line(number):
                raise Otherwise(f"{found!r} came upon the thread of {number}")
        else:
            self.is_letter(number, message, found)

    def lists(self):
        least = [dict(target.done) for target in self.targets]
        found = self.caller.enters(b"l", PROMPT).split(b"\r\n")[:-1]
        if len(found) != len(self.targets) + len(self.fixed):
            raise Otherwise(f"{found!r} came upon a list")
        for target, done in zip(self.targets, least):
            line = found[target.number - 1] + b"\r\n"
            if line != target.letter_of(line[:-2].split(b"  ")[-1], done).line(target.number):
                raise Otherwise(f"{line!r} came upon a list")


def begin_letters(trial):
    """New bases with letters that are edited, and those that nobody edits."""
    trial.has_bases()
    trial.begins()
    targets, fixed = [], {}
    for n, writers in ((ADA, (b"Ada 1", b"Ada 2")), (BARBARA, (b"Barbara 1",)), (EDSGER, (b"Edsger 1",)), (JOHN, (b"Sysop 1",))):
        caller = trial.guest(n)
        subject, text = edition(writers[0], 0)
        number = caller.posts(b"All", subject, text)
        targets.append(Target(number, NAMES[n], writers))
        message = Message(NAMES[n], b"All", b"fixed by %s" % NAMES[n], [b"nobody edits this", b"%d" % n])
        fixed[caller.posts(b"All", message.subject, message.text)] = message
        caller.quits()
    trial.is_ended("before the edits")
    return targets, fixed


def compares(trial, what, targets, fixed):
    """Looks whether an edition of each message stands whole, and what nobody edits is as it was."""
    base = trial.base()
    live = base.live()
    trial.is_so(f"{what}: which messages are there", sorted(live), sorted([*fixed, *(it.number for it in targets)]))
    for target in targets:
        target.settles(trial, what, live[target.number])
    for number, message in fixed.items():
        trial.is_so(f"{what}: message {number}, which nobody edits", (live[number].first(6), live[number].text),
                    (message.subject, b"".join(line + b"\r" for line in message.text)))
    senders = {it.number: it.sender for it in targets} | {number: message.sender for number, message in fixed.items()}
    for number, found in live.items():
        msgid = b"2:5020/1042 %08x" % ((1 << 24) + number)
        trial.is_so(f"{what}: what an edit keeps of message {number}",
                    ([found.first(kind) for kind in (2, 3, 4)], found.owner, *(found.head[it] for it in ("number", "attribute", "msgid_crc"))),
                    ([senders[number], b"All", msgid], jam.crc(b"All"), number, 0x00800001, jam.crc(msgid)))


def try_kills(trial):
    """The program is ended at drawn moments while callers edit, read and pack, and begun again over the same base: each edit that was acknowledged
    stands, and subject and text are of the same one."""
    runs = int(trial.option.split()[1]) if trial.option else 4
    draw = random.Random(31 + runs)
    targets, fixed = begin_letters(trial)
    packed = b"Packed: base 1, live %d, dropped 0.\r\n" % (len(targets) + len(fixed))
    for turn in range(runs):
        how = signal.SIGTERM if turn % 4 == 2 else signal.SIGKILL
        what = f"run {turn + 1} of edits, which is ended by {how.name}"
        trial.begins()
        writers = [Writer(trial, n, writer, target, packed if n == SYSOP else b"")
                   for n, target in zip((ADA, BARBARA, EDSGER, SYSOP), targets) for writer in target.done]
        readers = [Reader(trial, n, targets, fixed, random.Random(draw.random())) for n in (GRACE, HEDY)]
        is_broken, many, rest = threading.Event(), draw.randrange(10, 120), draw.random() / 200
        threads = [threading.Thread(target=trial.tells_wrong, args=(what, lambda it=it: it.goes_on(is_broken))) for it in (*writers, *readers)]
        for thread in threads:
            thread.start()
        end = time.monotonic() + GUARD
        while sum(it.count for it in writers) < many and all(thread.is_alive() for thread in threads) and time.monotonic() < end:
            time.sleep(0.0005)
        time.sleep(rest)
        is_broken.set()
        trial.is_ended(what, how)
        for thread in threads:
            thread.join()
        trial.holds(f"{what}: {many} edits were acknowledged", sum(it.count for it in writers) >= many)
        trial.checks(what)
        compares(trial, what, targets, fixed)
    trial.is_so("a pack behind all runs", trial.ended("pack", "areas", "general"), (packed.replace(b"\r", b""), 0))
    trial.is_so("a pack behind all runs: what no message has", jam.read(trial.areas, "general")[1:], (0, 0))
    compares(trial, "a pack behind all runs", targets, fixed)
    trial.checks("a pack behind all runs")


TRIES = (try_editors, try_words, try_hangups, try_between, try_odd_bases, try_real_base, try_doubt, try_kills)

if __name__ == "__main__":
    goes_through(Edits, "edits of messages", [try_kills] if sys.argv[2:] else TRIES, option=r"--kills \d+", in_memory=False)
