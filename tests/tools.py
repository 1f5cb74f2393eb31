#!/usr/bin/env python3
"""Tries the tools of the built program on small bases whose bytes stand here: what each prints, its status and the files then, also where a call of
the system fails or the program is killed before it; and how sessions and nodes end where their calls fail.

usage: tools.py PROGRAM

The bytes are made by the tables of the JAM proposal, the lines written by hand from docs/FORMATS.md; the figures of `load` come from another program.
A call of the system is made to fail by strace; where that is not installed, or may not be used, a line says so, and the rest is tried.
"""
import itertools
import os
import re
import shutil
import signal
import struct
import time
from random import Random

import jam
from bases import small_base, waiting_base, whole_base
from calls import COMMIT, CONVERSION, OPENING, words_of
from caller import GUARD
from harness import (ALREADY_THERE, GREETING, HOST_FAULT, LIMIT, LOCAL, NO_WORDS, OFFERS, SHORT_HEADER, STORE_FAULT, TOOLS, Served, goes_through, inject,
                     lines, one_by_one, resets, settings)
from jam import EMPTY, JDT, JDX, JHR, JLR, crc, fixed_header, header, journal_of, subfields
from visits import ANSWERED, FIRST, LISTED, LISTED_ANSWER, START, WRONG

WAYS = ("signal=KILL", "error=EIO")
FIGURES = b"base %d\nnext %d\nlive %d\nkilled %d\nempty %d\nmsgids %d\nlinked %s\n" + jam.CLOSED
# the seconds for which a door asks the system for a caller that it cannot let in
SECONDS = 600
HELP = b"".join(b"board %s\n" % form for form in (
    b"list DIR NAME", b"check DIR NAME", b"make DIR NAME", b"pack DIR NAME", b"relink DIR NAME", b"load SEED COUNT", b"local CONF", b"serve CONF",
    b"serve CONF --calls N", b"backup DIR NAME DIR2", b"serve CONF --calls N --backup DIR2", b"help"))
NO_COMMANDS = (
    "", "list", "list areas", "list  areas", "list areas ", "list areas general x", "LIST areas general", "lists areas general", "--help", "-h", "HELP",
    "help me", "--version", "check areas", "make areas", "pack areas", "relink areas", "relinks areas general", "load 7", "load 4294967296 1",
    "load 7 50001", "load 00000000007 1", "load +7 1", "load 7 -1", "load 7x 1", "load  1", "serve", "serve board.toml --calls",
    "serve board.toml --calls 0", "serve board.toml --calls 1000001", "serve board.toml --calls one", "serve board.toml --nodes 1", "backup areas general", "backup areas general areas",
    "backup areas general copies x", "serve board.toml --backup", "serve board.toml --backup copies --calls 1", "local",
    "local board.toml --calls 1")
# with what each write of a session ends whose lines come one by one, and how many lines were read before it: nothing is said to the one of the text
ENDS = (b"Name: ", b"Password: ", b"Top> ", b"1 unread.\r\n[general] ", b"Good\r\n\r\n[general] ", b"cancels\r\n", b"as 2.\r\n[general] ", b"Goodbye.\r\n")
READS_BEFORE = (0, 1, 2, 3, 4, 5, 7, 8)
# a workload's seed and count, and its eleven figures
LOADS = (
    ("7 2000", "posts 1800,reads 200,kills 200,live 1600,linked 400,unread 800,base 1,next 1801,JHR 230224,JDT 106000,JDX 14400"),
    ("0 0", "posts 0,reads 0,kills 0,live 0,linked 0,unread 0,base 1,next 1,JHR 1024,JDT 0,JDX 0"),
    ("7 1", "posts 1,reads 0,kills 0,live 1,linked 0,unread 1,base 1,next 2,JHR 1159,JDT 30,JDX 8"),
    ("4294967295 0000000030", "posts 27,reads 3,kills 3,live 24,linked 9,unread 12,base 1,next 28,JHR 4462,JDT 1710,JDX 216"),
    ("7 20", "posts 18,reads 2,kills 2,live 16,linked 4,unread 8,base 1,next 19,JHR 3316,JDT 1060,JDX 144"))
# a place of the base of one message with what comes there, or None where the file is cut, and how the base is refused
DAMAGES = (
    ("jhr", 1023, None, "3.1 ShortHeader"), ("jhr", 0, b"X", "3.2 BadSignature"), ("jhr", 20, b"\0", "3.3 BaseZero"),
    ("jdx", 8, bytes(4), "3.4 IndexLength"), ("jlr", 0, b"\0", "3.5 LastreadLength"), ("jdx", 8, b"\xff" * 8_000_000, "3.6 TooManySlots"),
    ("jhr", 20, b"\xff" * 4, "3.7 NumberRange"), ("jdx", 5, b"\3", "3.8 HeaderPlace 1"), ("jhr", 1024, b"X", "3.9 HeaderSignature 1"),
    ("jhr", 1028, b"\2", "3.10 HeaderRevision 1"), ("jhr", 1032, b"\x3f", "3.11 Subfields 1 53"), ("jhr", 1088, b"\6", "3.12 TextPlace 1"),
    ("jdx", 8, b"yY\xef\xc9\0\4\0\0", "3.13 HeadersOverlap 1 2"), ("jnl", 0, b"\1" + bytes(16), "3.14 BadJournal 16"),
    ("jnl", 0, b"\2\2" + bytes(15), "3.14 BadJournal 16"))
NEW_SUBJECT, EMPTYING = [(JHR, 1161, b"xyz")], journal_of([], [(JDT, 0)])
FILLING, ODD_INDEX = journal_of([(JLR, 0, b"mark")], [(JLR, 4)]), ([(JDX, 0, b"\xff" * 4)], [(JDX, 4)])
# a change in the journal of each version: that of the first has no number
CHANGES = (None, 1, 2**64 - 1)
# the journal that puts 5 in place of the counter of changes, whose bytes stand here, in both versions, and that of the second where its change is the ninth
ONE = b"\1" + bytes(15) + b"JBJ1" + bytes(4) + b"\1\0\0\0" + bytes(4) + b"\x08\0\0\0\4\0\0\0" + b"\5\0\0\0" + b"JBJE"
TWO = (b"\2\2" + bytes(14) + b"JBJ2" + b"\x09" + bytes(7) + bytes(4) + b"\1\0\0\0" + bytes(4) + b"\x08" + bytes(7) + b"\4" + bytes(7) + b"\5\0\0\0"
       + b"JBJF")


def message(**values):
    """The message of the small base, or one that differs in these fields."""
    return jam.files_of(jam.one_message(**values))["jhr"][1024:]


def four_slots(**values):
    """Numbers 5 to 8: a message behind a killed one, the killed one, and two that are empty."""
    killed = header(b"", number=2, length=5, attribute=0x80800001, subfields=EMPTY, offset=EMPTY, written=10**9)
    index = struct.pack("<IIII", crc(b"Hello"), 1100, 2, 1024) + b"\xff" * 16
    return {"jhr": fixed_header(5, 1, 1) + killed + message(**values), "jdt": b"Good\r", "jdx": index}


def two_messages(is_mixed):
    """The message and one from a name with a control character and UTF-8, without a subject; mixed, these are the numbers 4 and 1, behind one another
    in the other order, with an empty slot and a killed message between."""
    second = header(subfields((2, b"A\x07\xc3\xa9"), (3, b"Bob")), number=2, attribute=0x00800001, written=10**9)
    first, other = crc(b"Hello"), crc(b"Bob")
    if not is_mixed:
        return {"jhr": fixed_header(1, 2, 2) + message() + second, "jdt": b"Good\r", "jdx": struct.pack("<4I", first, 1024, other, 1164)}
    killed = header(b"", number=3, length=5, attribute=0x80800001, subfields=64, written=10**9)
    return {"jhr": fixed_header(1, 2, 2) + message() + b"dead" + second + killed, "jdt": b"Good\r",
            "jdx": struct.pack("<8I", other, 1168, 0, EMPTY, 0, 1267, first, 1024)}


def put(files, extension, place, data):
    """The files with these bytes there, or cut there."""
    old = files.get(extension, b"")
    return files | {extension: old[:place] if data is None else old[:place] + data + old[place + len(data):]}


def whole(files):
    """All six files, of which those that are not there are empty."""
    return {extension: files.get(extension, b"") for extension in jam.ALL_FILES}


def of_base(files):
    """What the four files of the base hold."""
    return {extension: files.get(extension, b"") for extension in jam.FILES}


class Tools(Served):
    """Runs of the tools on one base in one folder, also under strace."""

    def path(self, extension):
        return f"{self.areas}/general.{extension.upper()}"

    def has(self, files):
        """Only a base of these files."""
        jam.write_only(self.areas)
        jam.write_files(self.areas, "general", files, str.upper)

    def there(self):
        """The files that are there."""
        return {it: open(self.path(it), "rb").read() for it in jam.ALL_FILES if os.path.exists(self.path(it))}

    def held(self):
        """What all six files hold."""
        return whole(self.there())

    def held_base(self):
        """What the four files of the base hold."""
        return of_base(self.there())

    def upon(self, calls, *paths):
        """The words of strace for these calls upon these paths, or all that a tool may sync."""
        paths = paths or (self.areas, *map(self.path, jam.ALL_FILES))
        return *(word for path in paths for word in ("-P", path)), "-e", f"trace={calls}"

    def tool(self, word):
        return self.ended(word, "areas", "general")

    def answers(self, what, word, answer):
        """Looks whether a tool prints this and has this status: what it prints, if it is done."""
        return self.is_so(f"{what}: {word}", self.tool(word), answer if isinstance(answer, tuple) else (answer, 0))

    def stopped(self, word, calls, hows):
        """A tool over the files as they are now, once for each of these calls that it makes of them and each of these ways: it is killed before the call,
        or the call fails. Each run with what is printed and its status; the files are then as it left them."""
        start = self.there()
        trace = self.traced(word, "areas", "general", by=self.upon(",".join(calls)))[2]
        for call in calls:
            made = [line for line in trace if re.match(rf"\d+ +{call}\(", line)]
            for at in range(1, len(made) + 1):
                for how in hows:
                    self.has(start)
                    printed, status, _ = self.traced(word, "areas", "general", by=(*self.upon(call), *inject(call, how, at)))
                    yield f"{word}, {call} {at} with {how}", printed, status


def try_words(trial):
    """Words that are no command line, help, and workloads; settings that are not there or refused; a refusal that cannot be printed."""
    trial.has(small_base())
    for words in NO_COMMANDS:
        trial.is_so(f"the words '{words}'", trial.ended(*words.split(" ") if words else ()), NO_WORDS)
    trial.is_so("help", trial.ended("help"), (HELP, 0))
    for words, figures in LOADS:
        trial.is_so(f"load {words}", trial.ended("load", *words.split()), (figures.replace(",", "\n").encode() + b"\n", 0))
    for words in ("local nothing.toml", "serve nothing.toml", "serve nothing.toml --calls 1000000"):
        trial.is_so(words, trial.ended(*words.split()), HOST_FAULT)
    for text, line in (("x =", b"fault 2.1 NotToml\n"), (settings().replace("read = 10", "read = 256"), b"fault 2.4 OutOfRange area.1.read\n")):
        trial.has_settings(text)
        for word in ("local", "serve"):
            trial.is_so(f"{word}, {line}", trial.ended(word, "board.toml"), (line, 2))
    with open("/dev/full", "wb") as full:
        for name, status in (("general", 5), ("nothing", 3)):
            trial.is_so(f"a list of {name} that cannot be printed", trial.done("list", "areas", name, stdout=full)[1], status)
    trial.holds("they leave the base", trial.held() == whole(small_base()))


def try_tools(trial):
    """What each tool prints of small bases, and leaves."""
    one, four = FIGURES % (1, 2, 1, 0, 0, 1, b"yes"), (5, 9, 1)
    both = LISTED + b"       2  A?\xc3\xa9 > Bob  \n"
    mixed = b"       1  A?\xc3\xa9 > Bob  \n       4  Test > Hello  abc\n"
    wrong = four_slots(reply_to=9)
    packed = fixed_header(5, 2, 1) + message(number=5), crc(b"Hello").to_bytes(4, "little") + b"\0\4\0\0" + b"\xff" * 24
    for what, files, runs, then in (
            ("one message", small_base(), [("list", LISTED), ("check", one), ("relink", b"Relinked: 0 changed.\n")], {}),
            ("one message", small_base(), [("pack", b"Packed: base 1, live 1, dropped 0.\n"), ("check", one), ("list", LISTED)], None),
            ("no message", {"jhr": fixed_header()}, [("list", b""), ("check", FIGURES % (1, 1, 0, 0, 0, 0, b"yes"))], {}),
            ("two messages", two_messages(False), [("list", both)], {}), ("mixed messages", two_messages(True), [("list", mixed)], {}),
            ("four slots", four_slots(), [("list", LISTED.replace(b"1", b"5", 1)), ("check", FIGURES % (*four, 1, 2, 1, b"yes"))], {}),
            ("a wrong link", wrong, [("check", FIGURES % (*four, 1, 2, 1, b"no")), ("relink", b"Relinked: 1 changed.\n"),
                                     ("check", FIGURES % (*four, 1, 2, 1, b"yes")), ("relink", b"Relinked: 0 changed.\n")],
             {"jhr": put(four_slots(), "jhr", 8, b"\2")["jhr"]}),
            ("a killed message", four_slots(), [("pack", b"Packed: base 5, live 1, dropped 1.\n"), ("check", FIGURES % (*four, 0, 3, 1, b"yes")),
                                                ("list", LISTED.replace(b"1", b"5", 1))], dict(zip(("jhr", "jdx"), packed))),
            ("a gate that is closed", small_base() | {"jnl": b"\7" + bytes(16)}, [("list", LISTED)], {}),
            ("a gate with nothing behind", small_base() | {"jnl": b"\1" * 16}, [("list", LISTED)], {}),
            ("a gate of the second version with nothing behind", small_base() | {"jnl": b"\2" * 16}, [("list", LISTED), ("check", one)], {}),
            *((f"a gate of {gate}", small_base() | {"jnl": gate + bytes(15)}, [("list", LISTED), ("check", one)], {})
              for gate in (b"\2\0", b"\2\1", b"\1\2", b"\0\2", b"\2\3"))):
        trial.has(files)
        for word, text in runs:
            trial.answers(what, word, text)
        if then is not None:
            wanted = of_base(files | then)
            trial.is_so(f"{what}: which files are others", [it for it, data in trial.held_base().items() if data != wanted[it]], [])


def try_refusals(trial):
    """Each tool refuses a damaged base by its line, and leaves the files; make does so with each base in which there is a byte."""
    cases = [(f".{extension} at {place}", put(small_base(), extension, place, data), line) for extension, place, data, line in DAMAGES]
    cases += [("no header file", {"jdt": b"Good\r"}, "3.1 ShortHeader"), ("an empty header file", {"jlr": b"12345"}, "3.1 ShortHeader"),
              ("a journal alone", {"jnl": b"\1" * 17}, "3.14 BadJournal 16"),
              ("a record that is cut off", {"jhr": fixed_header(), "jnl": journal_of(*ODD_INDEX)[:-1]}, "3.14 BadJournal 52"),
              ("one of the second version", {"jhr": fixed_header(), "jnl": journal_of(*ODD_INDEX, change=9)[:-1]}, "3.14 BadJournal 72"),
              *((f"a record cut to {size} bytes", {"jhr": fixed_header(), "jnl": journal[:size]}, f"3.14 BadJournal {place}")
                for journal, size, place in ((ONE, 23, 20), (TWO, 19, 16), (TWO, 27, 20), (TWO, 31, 28), (TWO, 35, 32), (TWO, 59, 36), (TWO, 63, 60))),
              ("a record of the first version behind a gate of the second", {"jhr": fixed_header(), "jnl": TWO[:16] + ONE[16:]}, "3.14 BadJournal 16"),
              ("a record of the second version behind a gate of the first", {"jhr": fixed_header(), "jnl": ONE[:16] + TWO[16:]}, "3.14 BadJournal 16"),
              *((f"a length of .{jam.FILES[file]}, {length}, in version {1 if change is None else 2}",
                 {"jhr": fixed_header(), "jnl": journal_of([], [(file, length)], change)}, f"3.14 BadJournal {24 if change is None else 32}")
                for change in (None, 1) for file, most in enumerate(jam.RECORD_CEILINGS[1 if change is None else 2])
                for length in (most + 1, 2**32 - 1)),
              ("a cut of all files", {"jhr": fixed_header()[:20], "jdt": b"text", "jdx": b"index!!", "jlr": b"x"}, "3.1 ShortHeader")]
    for what, files, line in cases:
        for word in TOOLS:
            trial.has(files)
            answer = ALREADY_THERE if word == "make" and "Journal" not in line else (f"fault {line}\n".encode(), 3)
            trial.answers(what, word, answer)
            trial.holds(f"{what}: {word} leaves the files", trial.held() == whole(files))


def try_waiting(trial):
    """Each tool does first what waits in a journal of either version, and leaves the gate closed; also where the base is refused then. A check tells of
    what it has done, once."""
    for word, change in itertools.product(TOOLS, CHANGES):
        journal, what = journal_of(NEW_SUBJECT, change=change), f"a new subject waits, change {change}"
        checked = FIGURES % (1, 2, 1, 0, 0, 1, b"yes")
        answer = {"list": LISTED.replace(b"abc", b"xyz"), "check": checked.replace(jam.CLOSED, jam.recovered(journal)), "make": ALREADY_THERE,
                  "pack": b"Packed: base 1, live 1, dropped 0.\n", "relink": b"Relinked: 0 changed.\n"}[word]
        trial.has(small_base() | {"jnl": journal})
        trial.answers(what, word, answer)
        then = trial.held()
        # a tool that may change the base besides makes the journal one of the second version
        head = b"\0\2" if change or word in ("pack", "relink") else b"\0\0"
        trial.is_so(f"{what}: what {word} leaves", (then["jhr"][1161:], then["jnl"][:2]), (b"xyz", head))
        trial.answers(f"{what}, {word} did it", "check", checked)
        trial.has({"jhr": fixed_header(), "jnl": journal_of(*ODD_INDEX, change)})
        trial.answers(f"an odd index waits, change {change}", word, ALREADY_THERE if word == "make" else (b"fault 3.4 IndexLength\n", 3))
        trial.is_so(f"an odd index waits: what {word} leaves", (trial.held()["jdx"], trial.held()["jnl"][:1]), (b"\xff" * 4, b"\0"))


def try_versions(trial):
    """A change in each version of the journal, and what is none: of the other version's gate, or cut by a byte. And an index of as many slots as may be."""
    empty, none = {"jhr": fixed_header()}, FIGURES % (1, 1, 0, 0, 0, 0, b"yes")
    for what, journal, last in (("the first version", ONE, b"recovered 1 0\n"), ("the second", TWO, b"recovered 2 9\n")):
        trial.has(empty | {"jnl": journal})
        trial.answers(what, "check", none.replace(jam.CLOSED, last))
        trial.is_so(f"{what}: what it leaves", trial.held(), whole({"jhr": fixed_header(counter=5), "jnl": b"\0" + journal[1:]}))
        trial.answers(f"{what}, once more", "check", none)
    for what, journal, answer in (("the gate of the first in the second", b"\1" + TWO[1:], none), ("that of the second in the first", b"\2" + ONE[1:], none),
                                  ("the second, cut", TWO[:63], (b"fault 3.14 BadJournal 60\n", 3))):
        trial.has(empty | {"jnl": journal})
        trial.answers(what, "check", answer)
        trial.holds(f"{what}: the files stay", trial.held() == whole(empty | {"jnl": journal}))
    for slots in (65_001, 1_000_000):
        trial.has(empty | {"jdx": b"\xff" * 8 * slots})
        found = trial.ended("check", "areas", "general", limit=LIMIT)
        trial.is_so(f"{slots} empty slots", found, (FIGURES % (1, 1 + slots, 0, 0, slots, 0, b"yes"), 0))


def try_far(trial):
    """Changes at the ends of the longest files, which are holes: a text is copied from the end of .NDT to that of .JDT, and bytes go to that of .JHR."""
    headers, texts, copies = jam.CEILINGS[JHR], jam.CEILINGS[JDT], 2_147_483_648
    far = journal_of([(JDT, texts - 5, (copies - 5, 5)), (JHR, headers - 3, b"end"), (JHR, 1088, b"\5\0\0\0")], [(JHR, headers), (JDT, texts)], 3)
    offset = struct.pack("<I", texts - 5)
    trial.has(small_base() | {"jhr": put(small_base(), "jhr", 1084, offset)["jhr"], "jnl": far})
    with open(trial.path("ndt"), "r+b") as file:
        file.truncate(copies)
        file.seek(copies - 5)
        file.write(b"Ended")
    trial.answers("the longest files", "check", (FIGURES % (1, 2, 1, 0, 0, 1, b"yes")).replace(b"closed", b"2 3"))
    for extension, size, end in (("jhr", headers, b"end"), ("jdt", texts, b"Ended"), ("ndt", copies, b"Ended")):
        with open(trial.path(extension), "rb") as file:
            file.seek(-len(end), os.SEEK_END)
            trial.is_so(f"the longest .{extension}: its length, and its end", (os.path.getsize(trial.path(extension)), file.read()), (size, end))
    trial.answers("the longest files are packed", "pack", b"Packed: base 1, live 1, dropped 0.\n")
    found = trial.held_base()
    trial.is_so("the longest files: what is left", (len(found["jhr"]), found["jdt"]), (1164, b"Ended"))


def placed_at(trial, extension, end):
    """The small base, whose header, or whose text, ends here and not where it stood; what is between is a hole."""
    data = message() if extension == "jhr" else b"Good\r"
    start = struct.pack("<I", end - len(data))
    trial.has(put(small_base(), "jdx", 4, start) if extension == "jhr" else put(small_base(), "jhr", 1084, start))
    with open(trial.path(extension), "r+b") as file:
        file.truncate(end)
        file.seek(-len(data), os.SEEK_END)
        file.write(data)


def try_ends(trial):
    """A header and a text may end where the longest files do, and no byte behind."""
    one = FIGURES % (1, 2, 1, 0, 0, 1, b"yes")
    for extension, most, line in (("jhr", jam.CEILINGS[JHR], b"fault 3.8 HeaderPlace 1\n"), ("jdt", jam.CEILINGS[JDT], b"fault 3.12 TextPlace 1\n")):
        for end, answer in ((most, one), (most + 1, (line, 3))):
            placed_at(trial, extension, end)
            trial.answers(f"what ends at {end} in .{extension}", "check", answer)


def is_new(trial, what, since):
    """Looks whether the base is one that was made now: .JHR by its bytes, and the others empty, but for the journal behind a closed gate."""
    found = trial.held()
    made = struct.unpack_from("<I", found["jhr"].ljust(8, b"\0"), 4)[0]
    wanted = put({"jhr": fixed_header()}, "jhr", 4, struct.pack("<I", made))
    trial.holds(f"{what}: when it was made: {made}", since <= made <= time.time())
    trial.holds(f"{what}: the files of a new base", {**found, "jnl": b""} == whole(wanted))
    trial.is_so(f"{what}: the gate", found["jnl"][:1], b"\0")


def try_make(trial):
    """A base is made where nothing is, or where a record takes away what is there, is used, and is not made again."""
    since = int(time.time())
    shutil.rmtree(trial.areas)
    trial.answers("no folder", "make", STORE_FAULT)
    for what, files in (("nothing", {}), ("empty files", whole({})), ("a record that empties", {"jdt": b"text", "jnl": EMPTYING})):
        trial.has(files)
        trial.answers(what, "make", b"")
        is_new(trial, what, since)
        for word, answer in (("list", b""), ("relink", b"Relinked: 0 changed.\n"), ("make", ALREADY_THERE)):
            trial.answers(what, word, answer)
        is_new(trial, what, since)
        trial.answers(what, "pack", b"Packed: base 1, live 0, dropped 0.\n")
    for extension in jam.FILES:
        trial.has({extension: b"x"})
        trial.answers(f"a byte in .{extension}", "make", ALREADY_THERE)
        trial.holds(f"a byte in .{extension}: nothing is written", trial.held() == whole({extension: b"x"}))
    trial.has({"jnl": FILLING})
    trial.answers("a record that fills", "make", ALREADY_THERE)
    trial.is_so("a record that fills: what it leaves", trial.held_base(), {"jhr": b"", "jdt": b"", "jdx": b"", "jlr": b"mark"})


def try_calls(trial):
    """The calls of a make that sync, set a length or write, as many as they are told to be and in their order; where it is refused it only syncs."""
    for what, files, wanted in (("a base is made", {}, b""), ("a base is there", {"jlr": b"x"}, ALREADY_THERE[0])):
        trial.has(whole(files))
        printed, status, trace = trial.traced("make", "areas", "general", by=trial.upon("fsync,ftruncate,pwrite64"))
        trial.is_so(f"{what}: how it ends", (printed, status), (wanted, 3 if wanted else 0))
        calls = words_of(trace).replace("folder sync, ", "")
        opening = OPENING.replace("folder sync, ", "") + "ndt sync, "
        trial.is_so(f"{what}: what is synced first", calls[:len(opening)], opening)
        if wanted:
            trial.is_so(f"{what}: what is done then", calls[len(opening):], "")
            continue
        found = re.fullmatch(CONVERSION + COMMIT, calls[len(opening):])
        if trial.holds(f"{what}: the calls in order: {calls}", found):
            trial.is_so(f"{what}: what is changed, and what is synced", found.groups(), (
                "jhr len, jdt len, jdx len, jlr len, jhr write, ", "jhr sync, jdt sync, jdx sync, jlr sync, "))


# the first questions look for the header file, by both spellings and to lock it: what fails then is asked again by the calls behind it
LOOKS = re.compile("statx [1-3] with error")


def try_faults(trial):
    """A list of which any call that syncs, asks for a length or reads fails ends with 4, and leaves the files."""
    files = small_base() | {"jnl": bytes(17)}
    trial.has(files)
    count = 0
    for what, printed, status in trial.stopped("list", ("fsync", "statx", "pread64"), WAYS[1:]):
        trial.is_so(f"{what}: how it ends", (printed, status), (LISTED, 0) if LOOKS.search(what) else STORE_FAULT)
        trial.holds(f"{what}: the files stay", trial.held() == whole(files))
        count += 1
    trial.holds(f"a list: {count} calls were made to fail, where it has 13 of the disk at least", count >= 13)


def try_stopped_makes(trial):
    """A make that is killed before any of its calls, or of which any fails, leaves nothing or the base, and is made good by the next."""
    since = int(time.time())
    for files in ({}, whole({})):
        trial.has(files)
        for what, printed, status in trial.stopped("make", ("fsync", "statx", "pwrite64", "ftruncate"), WAYS):
            if not LOOKS.search(what) or status:
                trial.is_so(f"{what}: how it ends", (printed, status), STORE_FAULT if "error" in what else (b"", -signal.SIGKILL))
            found = trial.tool("list")
            if trial.holds(f"{what}: what is listed then: {found}", found in ((b"", 0), SHORT_HEADER)):
                trial.answers(what, "make", b"" if found == SHORT_HEADER else ALREADY_THERE)
            is_new(trial, what, since)


def try_stopped(trial):
    """A tool that is killed before any of its calls, or of which any fails, leaves the base as it was or as it is to be; the calls of a recovery too."""
    texts = whole_base(Random(25))[0]
    relinked = put(four_slots(), "jhr", 8, b"\2")
    for word, files, text, then in (("list", waiting_base(Random(25)), None, None), ("list", waiting_base(Random(25), 9), None, None),
                                    ("pack", texts, b"Packed: base 7, live 8, dropped 2.\n", None),
                                    ("pack", texts | {"jnl": b"\0" + ONE[1:]}, b"Packed: base 7, live 8, dropped 2.\n", None),
                                    ("relink", four_slots(reply_to=9), b"Relinked: 1 changed.\n", relinked)):
        listed, _, _, now = jam.told(whole(files))
        trial.has(files)
        trial.answers("without a fault", word, text or listed)
        after = trial.held_base()
        if word != "pack":
            trial.holds(f"{word}: what it leaves", after == of_base(then or now))
        before = of_base(now)
        trial.has(files)
        for what, printed, status in trial.stopped(word, ("fsync", "ftruncate", "pwrite64"), WAYS):
            trial.is_so(f"{what}: how it ends", (printed, status), STORE_FAULT if "error" in what else (b"", -signal.SIGKILL))
            trial.answers(what, "list", listed)
            trial.holds(f"{what}: the files are those before or behind it", trial.held_base() in (before, after))
            if trial.held_base() == before:
                trial.answers(what, word, text or listed)
            trial.holds(f"{what}: the files once it is done", trial.held_base() == after)


def try_numbers(trial):
    """The changes of one opening have the numbers 1, 2 and on, by which a check tells which of them waited; an opening behind it begins anew."""
    trial.has_settings(settings())
    typed = lines(["Test", "abc", "1", "P", "Hello", "abc", "N", "Good", ".", "M 1", "E 1", "abcd", "Well", ".", "Q"])
    by = trial.upon("pwrite64", trial.path("jnl"))
    start = {"jhr": fixed_header()}
    trial.has(start)
    trace = trial.traced(*LOCAL, by=by, typed=typed)[2]
    closings = [at for at, line in enumerate((line for line in trace if "pwrite64(" in line), 1) if words_of([line]) == "gate closed, "]
    trial.is_so("how many changes there are", len(closings), 3)
    for n, at in enumerate(closings, 1):
        trial.has(start)
        trial.traced(*LOCAL, by=(*by, *inject("pwrite64", WAYS[0], at)), typed=typed)
        told = b"recovered 2 %d\n" % n
        trial.is_so(f"change {n} waits", jam.recovered(trial.held()["jnl"]), told)
        printed, status = trial.tool("check")
        trial.holds(f"change {n} waits: what a check tells: {printed}", status == 0 and printed.endswith(told))
    for word, files in (("relink", four_slots(reply_to=9)), ("pack", four_slots())):
        trial.has(files)
        trace = trial.traced(word, "areas", "general", by=by)[2]
        trial.has(files)
        count = sum("pwrite64(" in line for line in trace)
        trial.traced(word, "areas", "general", by=(*by, *inject("pwrite64", WAYS[0], count)))
        trial.is_so(f"a {word} waits", jam.recovered(trial.held()["jnl"]), b"recovered 2 1\n")


def try_console(trial):
    """A console that fails at each of its reads and writes: what was sent is all before, and what was asked by then is done."""
    trial.has_settings(settings())
    with open(f"{trial.folder}/typed", "wb") as file:
        file.write(one_by_one(ANSWERED))
    sent = [FIRST[:FIRST.index(end) + len(end)] for end in ENDS]
    answered = LISTED + LISTED_ANSWER
    faults = [("write", at + 1, ([b""] + sent)[at], at >= 6) for at in range(9)]
    faults += [("read", at + 1, sent[sum(n <= at for n in READS_BEFORE) - 1], at >= 7) for at in range(9)]
    for call, at, wanted, is_done in faults:
        trial.has(small_base())
        with open(f"{trial.folder}/typed", "rb") as typed, open(f"{trial.folder}/sent", "w+b") as given:
            by = (*trial.upon(call, typed.name, given.name), *inject(call, WAYS[1], at))
            _, status, _ = trial.traced(*LOCAL, by=by, stdin=typed, stdout=given)
            given.seek(0)
            trial.is_so(f"{call} {at} of a console: what is sent, and the status", (given.read(), status), (wanted, 0 if at == 9 else 5))
        trial.answers(f"{call} {at} of a console", "list", answered if is_done else LISTED)
    trial.has(small_base())
    printed, status, _ = trial.done(*LOCAL, typed=b"\xff\xfa" + bytes(5000))
    trial.is_so("a command of Telnet that is cut off", (printed, status), (START, 0))


def serves(trial, *words, nodes=1, by=(), minutes=0):
    """Begins to serve the area, and packs it as it begins where minutes are given; where calls are to fail, under strace."""
    trial.has_settings(settings(port=trial.port, nodes=nodes, pack_minutes=minutes))
    trial.begins(*words, areas=("general",), nodes=nodes, under=trial.tracer(*by) if by else ())


def hears(trial, typed, sent):
    """A caller who types all of this at once, and is sent this behind the offers until the board hangs up."""
    caller = trial.caller("who types at once")
    caller.types(typed)
    while not caller.is_over:
        caller.take()
    trial.is_so(f"{typed}: what is sent", caller.seen, sent[len(OFFERS):])


def try_node(trial):
    """One node and its callers, one after another: who posts, and then five who guess, break off twice, leave and hang up; each call is counted."""
    trial.has({"jhr": fixed_header()})
    serves(trial, "--calls", "1")
    into = START + b"Password: Welcome, %s.\r\nTop> %d visible, %d unread.\r\n[general] "
    posted = b"To: Subject: Private (Y/N): Text, . ends, ! cancels\r\nPosted as 1.\r\n[general] Goodbye.\r\n"
    hears(trial, lines(["Test", "abc", "1", "P", "Hello", "abc", "N", "Good", ".", "Q"]), into % (b"Test", 0, 0) + posted)
    trial.ends("one call", 0)
    trial.is_so("one call: what is listed, and the index", (trial.tool("list"), trial.held_base()["jdx"]), ((LISTED, 0), b"yY\xef\xc9\0\4\0\0"))
    serves(trial, "--calls", "5")
    hears(trial, lines(["x", "y"] * 3), WRONG)
    for typed in (b"", b"Hello\r\n"):
        caller = trial.caller("who breaks off")
        caller.reads(GREETING)
        caller.types(typed)
        resets(caller.line)
    hears(trial, lines(["Hello", "test", "1", "R", "Q"]), into % (b"Hello", 1, 1) + b"No message shown.\r\n[general] Goodbye.\r\n")
    caller = trial.caller("who hangs up")
    caller.logs_in(b"Hello", b"test")
    caller.line.close()
    trial.ends("five calls", 0)
    trial.answers("five calls", "list", LISTED)


def try_nodes(trial):
    """Two nodes of one call each, beside the packer: one letter is read and answered while the other caller is there; then what was killed is packed."""
    trial.has(small_base())
    serves(trial, "--calls", "1", nodes=2, minutes=1)
    idle = trial.caller("who is gone at once")
    idle.reads(GREETING)
    hears(trial, lines(ANSWERED), FIRST)
    idle.line.close()
    trial.ends("two nodes", 0)
    trial.answers("two nodes", "list", LISTED + LISTED_ANSWER)
    found = trial.held_base()
    trial.is_so("two nodes: texts and marks", (found["jdt"], found["jlr"]), (b"Good\rThanks\r", jam.mark(b"Hello", 8, 1, 1)))
    serves(trial, "--calls", "1")
    hears(trial, lines(["Sysop", "hello", "1", "K 1", "Q"]), START + b"Password: Welcome, Sysop.\r\nTop> 2 visible, 2 unread.\r\n[general] "
          b"Killed 1.\r\n[general] Goodbye.\r\n")
    trial.ends("a letter is killed", 0)
    trial.is_so("a letter is killed: its text stays until a pack", trial.held_base()["jdt"], b"Good\rThanks\r")
    serves(trial, "--calls", "1", minutes=1)
    trial.caller("who leaves").line.close()
    trial.ends("a pack", 0)
    found = trial.held_base()
    trial.is_so("a pack: texts and index", (found["jdt"], found["jdx"]), (b"Thanks\r", struct.pack("<II", crc(b"Test"), 1024)))
    trial.answers("a pack", "list", LISTED_ANSWER)


def try_links(trial):
    """A line that fails at its first read, or at its second write, ends this session alone: its node serves the next caller, and the run ends with 0."""
    for call, at in (("recvfrom", 1), ("sendto", 2)):
        trial.has(small_base())
        serves(trial, "--calls", "2", by=("-e", f"trace={call}", *inject(call, "error=ECONNRESET", at)))
        hears(trial, lines(["Hello"]), START)
        trial.holds(f"{call} {at} fails", any("INJECTED" in line for line in trial.trace()))
        hears(trial, lines(ANSWERED), FIRST)
        trial.ends(f"{call} {at} of a line", 0)


def try_packers(trial):
    """A pack of the packer that fails leaves the area in doubt when the run ends: at its first call nothing is done, at its last, behind the change, all."""
    files = two_messages(False)
    killed = files | {"jhr": put(files, "jhr", 1024 + 55, b"\x80")["jhr"], "jnl": b"\0\2" + bytes(15), "ndt": b""}
    second = b"       2  A?\xc3\xa9 > Bob  \n"
    for what, path, call, at, is_done in (("the first call", "ndt", "ftruncate", 1, False), ("the last call", "jnl", "fsync", 3, True)):
        trial.has(killed)
        serves(trial, "--calls", "1", minutes=1, by=(*trial.upon(call, trial.path(path)), *inject(call, WAYS[1], at)))
        trial.caller("who leaves").line.close()
        trial.ends(f"a pack, {what}", 4)
        failed = [line.split("(")[0].split()[-1] for line in trial.trace() if "INJECTED" in line]
        trial.is_so(f"a pack, {what}: which calls fail", failed, [call])
        trial.answers(f"a pack, {what}", "list", second)
        trial.is_so(f"a pack, {what}: the texts", trial.held_base()["jdt"], b"" if is_done else b"Good\r")


def try_door(trial):
    """A door at which no caller may be let in any more ends its node, and the other one goes on; the status tells. Nothing is waited for between tries."""
    trial.has(small_base())
    serves(trial, nodes=2, by=("-e", "trace=accept,accept4,nanosleep,clock_nanosleep", *inject("accept,accept4", "error=EMFILE", "2+"),
                               "-e", "inject=nanosleep,clock_nanosleep:retval=0"))
    hears(trial, lines(["Hello", "test", "Q"]), START + b"Password: Welcome, Hello.\r\nTop> Goodbye.\r\n")
    end = time.monotonic() + GUARD
    while "exited with" not in "".join(trial.trace()) and time.monotonic() < end:
        time.sleep(0.1)
    trial.holds("a node whose door has failed ends", time.monotonic() < end)
    trial.holds("and does not end the run", trial.process.poll() is None)
    pauses = [re.search(r"nanosleep\(.*tv_sec=(\d+), tv_nsec=(\d+)", line) for line in trial.trace()]
    trial.is_so("for how long a caller is tried for", sum(int(it[1]) * 10**9 + int(it[2]) for it in pauses if it), SECONDS * 10**9)
    hears(trial, lines(ANSWERED), FIRST)
    trial.ends("two doors that fail", 5)
    trial.answers("two doors that fail", "list", LISTED + LISTED_ANSWER)


if __name__ == "__main__":
    goes_through(Tools, "the tools of an operator", (try_words, try_tools, try_refusals, try_waiting, try_versions, try_far, try_ends, try_make, try_node,
                                                     try_nodes),
                 (try_calls, try_faults, try_stopped_makes, try_stopped, try_numbers, try_console, try_links, try_packers, try_door))
