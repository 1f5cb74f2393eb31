#!/usr/bin/env python3
"""Makes first.tar.xz and first.txt beside this script: sets of the six files of a base as they lie when a program whose journal is of the first
version is stopped in a change, or as they are torn then, and what each of them opens to.

usage: make.py PROGRAM

They were made once, by the program that first.txt names, and stay; a program whose journal has another version is refused. It makes each kind of change,
on a clock that stands still, and is killed by strace before each of its calls of the system that writes, cuts or syncs; so is a list that recovers
what waits. Of the set with the gate open and nothing done others are made, as a crash of the system or damage may leave them: the record is cut or
torn, behind a gate that is open or closed, or is done in part. What each opens to is what jam.py reads in it, which was written from docs/FORMATS.md and
has nothing of the program. That has to be the state before the change or the one behind it, as the calls that were made say, and a fault where the
gate is open and no record stands there.
"""
import hashlib
import io
import os
import random
import re
import shutil
import signal
import subprocess
import sys
import tarfile
import tempfile

sys.path.insert(0, os.path.dirname(os.path.dirname(os.path.realpath(__file__))))
import jam  # noqa: E402
from calls import words_of  # noqa: E402
from harness import LOCAL, Runs, inject, lines, memory_folder, settings  # noqa: E402
from journals import ARCHIVE, LOOKS, NONE, TABLE, name_of  # noqa: E402

DISK_CALLS = "fsync,ftruncate,pwrite64"
# a clock that stands still, so that each run of a change writes the same bytes
CLOCK = r"""
#include <time.h>
int clock_gettime(clockid_t clock, struct timespec *now) { now->tv_sec = 1000000000; now->tv_nsec = 0; return 0; }
"""
HEAD = """\
# What each set of first.tar.xz opens to: files of a base that a program left whose journal is of the first version. Made by tests/journals/make.py with
# the program {program}.
#
# A file is named by the first twelve digits of its SHA-256; {none} is none, or, of what is there then, one without bytes.
# state NAME STATUS JHR JDT JDX JLR: the files of a base, and the status and the lines of `list` and `check` of it.
# calls NAME: the calls of the system that write, cut or sync, in their order, with the set in brackets that a stop before what follows leaves.
# set NUMBER JHR JDT JDX JLR JNL NDT STATE JNL, and what it is: the six files of a set, the state to which it opens, and the journal then; .NDT stays.
# In the place of a state, BadJournal@AT is a refusal as `fault 3.14 BadJournal AT`, with the files as they are.
"""
TEST, HELLO, SYSOP = ("Test", "abc", "1"), ("Hello", "test", "1"), ("Sysop", "hello", "1")
# who wrote what before: a letter and two answers, a private letter and a long one, a mark, a pack, and then an answer that is killed, whose link stays
BEFORE = (
    (*TEST, "P", "Hello", "A question", "N", "When is the next pack?", ".", "Q"),
    (*HELLO, "1", "R", "Tomorrow, I think.", ".", "Q"),
    (*SYSOP, "1", "R", "Now.", ".", "Q"),
    (*TEST, "P", "Hello", "For you alone", "Y", "A secret", ".", "Q"),
    (*TEST, "P", "All", "Long", "N", *(f"{n} lines of a text that is long" for n in range(9)), ".", "Q"),
    (*HELLO, "M 3", "Q"),
    (*SYSOP, "X", "K 3", "Q"))
TO_ALL = ("P", "All", "Fourth", "N")
POST = (*TEST, *TO_ALL, "A new letter", ".", "Q")
LIST, MAKE, PACK, RELINK = ((word, "areas", "general") for word in ("list", "make", "pack", "relink"))
# lines of a text that is longer than what is written at once; as many bytes as a post may have, and so many that a pack copies them in several parts
LINES = [f"line {n} of a text that is longer than what is written at once" for n in range(700)]
MOST_POSTED, LONG = 16_384, 40_000
# drawn bytes cannot be kept short: behind so many come zeros
MOST_DRAWN = 600
# who makes which change by a session over what these wrote, and the states through which it goes
CHANGES = (
    ("a post", POST, ("post",)),
    ("a first reading", (*HELLO, "4", "Q"), ("read",)),
    ("another reading", (*HELLO, "1", "Q"), ("reading",)),
    ("a reply", (*HELLO, "1", "R", "I know", ".", "Q"), ("reading", "reply")),
    ("a kill", (*TEST, "K 4", "Q"), ("kill",)),
    ("a first mark", (*TEST, "M 2", "Q"), ("mark",)),
    ("a second mark", (*HELLO, "M 5", "Q"), ("marks",)),
    ("a relink by a caller", (*SYSOP, "Z", "Q"), ("relink",)),
    ("a pack by a caller", (*SYSOP, "X", "Q"), ("pack",)),
    ("a long post", (*TEST, *TO_ALL, *"\r".join(LINES)[:MOST_POSTED - 1].split("\r"), ".", "Q"), ("long",)),
    ("an edit", (*TEST, "E 1", "A better question", "What is it, and why?", ".", "Q"), ("edited",)))
# values by which the record of a post breaks a rule, each in a field that is found by its words, and the place in it
BROKEN = (("the count of lengths", 0, b"\5"), ("length 2", 0, b"\0"), ("length 1", 3, b"\1"), ("piece 1", 0, b"\2"), ("piece 1", 1, b"\4"),
          ("piece 2", 2, b"\5"), ("piece 3", 3, b"\1"), ("piece 4", 7, b"\1"), ("piece 4", 0, b"\1"), ("the end", 3, b"1"))


def fields(record):
    """The fields of a record behind the head of the journal: place, length and what it is."""
    yield 16, 4, "the head"
    yield 20, 4, "the count of lengths"
    count, at = jam.ulong(record, 20), 24
    for n in range(count):
        yield at, 8, f"length {n + 1}"
        at += 8
    count = jam.ulong(record, at)
    yield at, 4, "the count of pieces"
    at += 4
    for n in range(count):
        size = 16 if record[at] else 12 + jam.ulong(record, at + 8)
        yield at, size, f"piece {n + 1}"
        at += size
    yield at, 4, "the end"


class Maker(Runs):
    """Sets of files, each once, with what they open to."""

    def __init__(self, program, folder):
        super().__init__(program, folder)
        self.contents, self.states, self.sets, self.told = {}, {}, {}, []
        with open(f"{folder}/clock.c", "w") as file:
            file.write(CLOCK)
        subprocess.run(["cc", "-O2", "-shared", "-fPIC", "-o", f"{folder}/clock.so", f"{folder}/clock.c"], check=True)
        self.has_settings(settings())

    def has(self, files):
        """Only a base of these files, of which none is there that is None."""
        jam.write_only(self.areas)
        jam.write_files(self.areas, "general", {it: data for it, data in files.items() if data is not None}, str.upper)

    def held(self):
        """What the six files hold, None where one is not there."""
        paths = {it: f"{self.areas}/general.{it.upper()}" for it in jam.ALL_FILES}
        return {it: open(path, "rb").read() if os.path.exists(path) else None for it, path in paths.items()}

    def run(self, words, typed, by=()):
        """The calls of a run, as the name of each and what it does, and the status."""
        _, status, trace = self.traced(*words, by=("-E", f"LD_PRELOAD={self.folder}/clock.so", "-s", "64", "-e", f"trace={DISK_CALLS}", *by),
                                       typed=lines(typed) if typed else None)
        made = [(re.match(r"\d+ +(\w+)\(", line)[1], words_of([line]).removesuffix(", ").removeprefix("first ")) for line in trace if re.match(r"\d+ +\w+\(.* = \d", line)]
        return made, status

    def file(self, data):
        """The name under which a file is kept."""
        if data is None:
            return NONE
        name = name_of(data)
        assert self.contents.setdefault(name, data) == data
        return name

    def state(self, files, name=None):
        """The name of the state that these files hold behind a closed gate; it is given to a new one."""
        listed, checked, status, then = jam.told({it: data or b"" for it, data in files.items()})
        key = tuple(name_of(then[it]) if then[it] else NONE for it in jam.FILES)
        if key not in self.states:
            assert name and name not in [it[0] for it in self.states.values()], (name, key)
            self.states[key] = name, status, listed, checked
        return self.states[key][0]

    def keeps(self, files, what, wanted):
        """Keeps a set, if it is a new one, which opens to one of the states that are wanted, or to a fault where none is; and gives its number."""
        known = {it: data or b"" for it, data in files.items()}
        listed, _, status, then = jam.told(known)
        if found := re.fullmatch(rb"fault 3\.14 BadJournal (\d+)\n", listed):
            opens = f"BadJournal@{int(found[1])}"
            assert then == known and status == 3 and not wanted, (what, listed, wanted)
        else:
            opens = self.state(files)
            assert opens in wanted and then["ndt"] == known["ndt"], (what, opens, wanted)
        key = tuple(self.file(files[it]) for it in jam.ALL_FILES)
        journal = name_of(then["jnl"]) if then["jnl"] else NONE
        number, *same, _ = self.sets.setdefault(key, (len(self.sets) + 1, opens, journal, what))
        assert same == [opens, journal], what
        return number

    def stops(self, what, files, words, typed, states):
        """What the program does over these files, killed before each of its calls; it opens to the first of these states, and behind each gate that it
        opens to the next one. Gives what each stop leaves, and what is left once it is done."""
        self.has(files)
        calls, status = self.run(words, typed)
        found, numbers, gates, shown = [self.held()], [], 0, ""
        assert status == 0, (what, status)
        for n, (call, did) in enumerate(calls):
            self.has(files)
            made, status = self.run(words, typed, inject(call, "signal=KILL", sum(call == it for it, _ in calls[:n + 1])))
            assert (made, status) == (calls[:n], -signal.SIGKILL), (what, n, made, status)
            found.insert(n, self.held())
            numbers.append(self.keeps(found[n], f"{what}, stopped before: {did}", states[gates:gates + 1]))
            shown += f" [{numbers[n]}]" * (numbers[n - 1:n] != numbers[n:]) + f" {did},"
            gates += did == "gate opened"
        assert gates == len(states) - 1, (what, gates)
        self.told.append(f"calls {what}:{shown} [{self.keeps(found[-1], f'{what}, done', states[-1:])}]")
        return calls, found

    def change(self, what, files, words, typed, states):
        """A change that the program makes, stopped at each of its calls, and then torn; it goes through these states. Gives what it leaves."""
        self.has(files)
        self.run(words, typed)
        left = self.held()
        assert left["jnl"][16:20] == b"JBJ1", "the journal of this program is not of the first version"
        self.state(left, states[-1])
        calls, found = self.stops(what, files, words, typed, states)
        waiting = found[1 + max(n for n, (_, did) in enumerate(calls) if did == "gate opened")]
        self.stops(f"{what} that waits", waiting, LIST, (), states[-1:])
        self.tears(what, waiting, states[-2], states[-1])
        return left

    def tears(self, what, files, before, after):
        """Tears of a set with the gate open and nothing done, between these two states."""
        journal, parts = files["jnl"], list(fields(files["jnl"]))
        first = next((it for it in parts if it[2] == "length 1"), parts[1])
        longest = max((it for it in parts if it[2].startswith("piece")), key=lambda it: it[1], default=first)
        for at, size, part in (parts[0], parts[1], first, longest, parts[-1]):
            self.keeps(files | {"jnl": journal[:at + size // 2]}, f"{what}, the gate open, cut in {part}", ())
        self.keeps(files | {"jnl": journal[:parts[-1][0]]}, f"{what}, the gate open, cut before the end", ())
        self.keeps(files | {"jnl": journal[:16]}, f"{what}, the gate open, cut before the record", [before])
        for at, size, part in (first, longest):
            cut = at + size // 2
            self.keeps(files | {"jnl": journal[:cut] + bytes(len(journal) - cut)}, f"{what}, the gate open, zeros from {part} on", ())
        cut = longest[0] + longest[1] // 2
        for part, data in (("cut", journal[1:cut]), ("its rest is zeros", journal[1:cut] + bytes(len(journal) - cut)),
                           ("its beginning is zeros", bytes(cut - 1) + journal[cut:])):
            self.keeps(files | {"jnl": b"\0" + data}, f"{what}, the gate closed, the record is torn: {part}", [before])
        self.keeps(files | {"jnl": b"\1" + bytes(range(200, 215)) + journal[16:] + b"JBJ1" + bytes(40)},
                   f"{what}, the gate open, with bytes in the head and behind the record", [after])
        lengths, pieces = jam.Record({it: data or b"" for it, data in files.items()}).changes()
        if files["ndt"] and any(part.startswith("piece") and journal[at] == 1 for at, _, part in parts):
            self.keeps(files | {"ndt": files["ndt"][:-1]}, f"{what}, the gate open, .NDT cut by a byte", ())
        if "jhr" in [it for it, _, _ in pieces] and "jhr" not in lengths:
            self.keeps(files | {"jhr": files["jhr"][:1030]}, f"{what}, the gate open, .JHR cut to 1,030 bytes", ())
        self.parts(what, files, after, lengths, pieces)

    def parts(self, what, files, after, lengths, pieces):
        """The record done in part, the gate open: some of its steps in their order or all but one, a step by half, and drawn bytes wherever it writes."""
        steps = [(f"the length of .{it.upper()}", it, length, None) for it, length in lengths.items()]
        steps += [(f"a write of .{it.upper()} at {at}", it, at, data) for it, at, data in pieces]
        for n in range(len(steps) + 1):
            self.keeps(done(files, steps[:n]), f"{what}, the first {n} steps done", [after])
            self.keeps(done(files, steps[:n] + steps[n + 1:]), f"{what}, all done but {steps[n][0] if n < len(steps) else 'nothing'}", [after])
        halves = []
        for n, (step, it, at, data) in enumerate(steps):
            half = (step, it, (len(files[it] or b"") + at) // 2, None) if data is None else (step, it, at, data[:len(data) // 2])
            halves.append(half)
            self.keeps(done(files, steps[:n] + [half]), f"{what}, {step} by half", [after])
        self.keeps(done(files, halves), f"{what}, each step by half", [after])
        draw = random.Random(25)
        drawn = [(step, it, at, data and draw.randbytes(len(data[:MOST_DRAWN])) + bytes(len(data[MOST_DRAWN:]))) for step, it, at, data in steps]
        self.keeps(done(files, drawn), f"{what}, drawn bytes where it writes", [after])

    def breaks(self, files):
        """The record of a post that breaks a rule."""
        parts = {part: at for at, _, part in fields(files["jnl"])}
        for part, more, value in BROKEN:
            at = parts[part] + more
            broken = files["jnl"][:at] + value + files["jnl"][at + 1:]
            self.keeps(files | {"jnl": broken}, f"a post, the gate open, {part} breaks a rule at its byte {more}", ())
        for gate in (2, 255):
            self.keeps(files | {"jnl": bytes([gate]) + files["jnl"][1:]}, f"a post, the gate of the value {gate}, which is closed", ["talk"])

    def writes(self):
        """Writes the table, and the files."""
        with open(TABLE, "w") as table, open(self.program, "rb") as program:
            table.write(HEAD.format(program=hashlib.sha256(program.read()).hexdigest(), none=NONE))
            for key, (name, status, *texts) in self.states.items():
                table.write(f"state {name} {status} {' '.join(key)}\n")
                for word, text in zip(LOOKS, texts):
                    table.writelines(f"{word}|{line}\n" for line in text.decode().splitlines())
            table.writelines(f"{line}\n" for line in self.told)
            for key, (number, opens, journal, what) in self.sets.items():
                table.write(f"set {number} {' '.join(key)} {opens} {journal} {what}\n")
        with tarfile.open(ARCHIVE, "w:xz", preset=9, format=tarfile.USTAR_FORMAT) as archive:
            for name, data in sorted(self.contents.items()):
                member = tarfile.TarInfo(name)
                member.size = len(data)
                archive.addfile(member, io.BytesIO(data))


def done(files, steps):
    """The files with these steps done: a length where a step has no bytes, else the bytes at its place, where the file becomes as long as that needs."""
    now = {it: None if data is None else bytearray(data) for it, data in files.items()}
    for _, it, at, data in steps:
        held = now[it] or bytearray()
        end = at if data is None else max(len(held), at + len(data))
        held[end:] = bytes(max(0, end - len(held)))
        if data is not None:
            held[at:at + len(data)] = data
        now[it] = held
    return {it: None if data is None else bytes(data) for it, data in now.items()}


def long_base():
    """A base of which a pack copies headers and texts in several parts, and cuts the text of a killed message."""
    base, text = jam.one_message(), "\r".join(LINES).encode()
    for length, attribute, more in ((300, jam.DELETED, ()), (LONG, 1, ()), (5, 1, ((2000, text[:MOST_POSTED]),))):
        fields = jam.named(b"Test", b"All", b"long", *more)
        base.slots.append(jam.Message(jam.head_of(fields, attribute=attribute), fields, text[:length], jam.crc(b"All")))
    return base


def make(maker):
    """Each kind of change: over nothing, over a base with a thread, a mark and a killed message, over a header file alone, and over two bases that are
    not by the program."""
    nothing = dict.fromkeys(jam.ALL_FILES)
    maker.state(nothing, "nothing")
    maker.has(maker.change("a make", nothing, MAKE, (), ("nothing", "made")))
    for typed in BEFORE:
        maker.run(LOCAL, typed)
    talk = maker.held()
    maker.state(talk, "talk")
    maker.change("a relink", talk, RELINK, (), ("talk", "relink"))
    maker.change("a pack", talk, PACK, (), ("talk", "pack"))
    for what, typed, states in CHANGES:
        maker.change(what, talk, LOCAL, typed, ("talk", *states))
    maker.has(talk)
    maker.run(LOCAL, POST)
    maker.breaks(talk | {"jnl": b"\1" + maker.held()["jnl"][1:]})
    maker.change("a first post", nothing | {"jhr": jam.fixed_header()}, LOCAL, POST, ("made", "posted"))
    for what, base, states in (("a long pack", long_base(), ("few", "packed")),
                               ("a pack of all", jam.one_message(attribute=jam.DELETED), ("killed", "emptied"))):
        files = nothing | jam.files_of(base)
        maker.state(files, states[0])
        maker.change(what, files, PACK, (), states)
    maker.writes()
    print(f"{len(maker.sets)} sets of {len(maker.contents)} files, {os.path.getsize(ARCHIVE)} bytes")


if __name__ == "__main__":
    if len(sys.argv) != 2:
        sys.exit(__doc__)
    room = tempfile.mkdtemp(dir=memory_folder())
    try:
        make(Maker(os.path.realpath(sys.argv[1]), room))
    finally:
        shutil.rmtree(room)
