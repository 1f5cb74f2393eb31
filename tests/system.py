#!/usr/bin/env python3
"""Tries what lies between the built program and the system, where no contract reaches: which calls a change makes on real files and in which
order, that a stop or a failure at any of them leaves the base before the change or after it, a console that takes a few bytes at a time, and
a pack of texts that are too long together, over files with holes.

usage: system.py PROGRAM [--all]

The calls are seen by strace; where that is not installed, or may not be used, a line says so, and the rest is tried. The order is that of
calls.py, and the counts those of crates/jb_journal. Without --all a stop and a failure are tried at
the calls of a post and of an edit alone, and no base with as many texts as it may have is packed.
"""
import collections
import fcntl
import os
import random
import re
import signal
import subprocess

import jam
from caller import Piped
from calls import CHANGE, COMMIT, CONVERSION, OPENING, TRACED, words_of
from harness import LIMIT, LOCAL, Runs, goes_through, inject, lines, settings

DISK_CALLS = ("fsync", "ftruncate", "pwrite64")
POST_CALLS = ("jnl len 1, jnl write 1, jnl sync 3, gate opened 1, gate closed 1, jhr len 1, jhr write 2, jhr sync 1, jdt len 1, jdt write 1, "
              "jdt sync 1, jdx len 1, jdx write 1, jdx sync 1")
ANSWER_CALLS = POST_CALLS.replace("jhr write 2", "jhr write 3")
EDIT_CALLS = POST_CALLS.replace("jdx len 1, ", "")
PACK_CALLS = POST_CALLS.replace("jhr write 2", "jhr write 1")
# what a pack copies before its commit, into a file that it makes
COPIES = "ndt len, folder sync, ndt write, ndt sync, "
RECOVERY_CALLS = "jhr len 1, jhr write 2, jdt len 1, jdt write 1, jdx len 1, jdx write 1, jhr sync 1, jdt sync 1, jdx sync 1, jlr sync 1, " \
                 "gate closed 1, jnl sync 1"
LIST, PACK = ("list", "areas", "general"), ("pack", "areas", "general")
POSTED = ("Test", "abc", "1", "p", "Hello", "more", "n", "a line")
ANSWERED = ("Hello", "test", "1", "1", "r", "a line")
EDITED = ("Test", "abc", "1", "e 1", "another", "a line")
PROMPT, ASKED, FAULT = b"[general] ", b"Text, . ends, ! cancels\r\n", b"Store fault"
MOST_TEXTS, MOST_TEXT = jam.CEILINGS[jam.JDT], jam.MOST_TEXT_BYTES
# the least that a pipe holds
PIPE_BYTES = 4096


class Calls(Runs):
    """Runs of the program over one base in one folder, also under strace."""

    def __init__(self, program, folder):
        super().__init__(program, folder)
        self.has_settings(settings())

    def has_base(self, base=None):
        """Only this base, or one with one message, and a journal with a head and a byte behind."""
        jam.write_only(self.areas, general=base or jam.one_message())
        self.has_files({"jnl": bytes(17)})

    def has_files(self, files):
        jam.write_files(self.areas, "general", files)

    def plain(self, words):
        """What a run prints and its status."""
        return self.done(*words, limit=LIMIT)[:2]

    def listed(self):
        """What a list prints and its status, and the texts then."""
        return *self.plain(LIST), [message.text for message in self.base().live().values()]

    def session(self, words, typed=(), inject=()):
        """What is printed, the status, and the calls; a session gets its lines, and the end of a text when all before was answered."""
        caller = Piped(self.starts(*words, under=("strace", "-f", "-y", "-o", f"{self.folder}/trace", *TRACED, *inject), stdin=subprocess.PIPE))
        for part, end in ((typed, ASKED), ((".",), PROMPT)) if typed else ():
            begin = len(caller.seen)
            if caller.types(lines(part)):
                # where the disk has failed what was asked for need not come
                caller.takes(lambda seen: seen.endswith(end) or FAULT in seen[begin:])
        return *caller.leaves(LIMIT), self.trace()

    def follows(self, what, calls, order, counts, synced=None):
        """Looks whether these calls come in this order and number, and each file that is changed, or each of these, is synced."""
        found = re.fullmatch(order, calls)
        if self.holds(f"{what}: the calls in order: {calls}", found is not None):
            changed, ended = (re.findall(r"(\w+) (?:len|write|sync), ", part) for part in found.groups())
            self.is_so(f"{what}: the files that are synced", sorted(ended), sorted(synced or set(changed)))
            wanted = {name: int(count) for name, count in (it.rsplit(" ", 1) for it in counts.split(", "))}
            self.is_so(f"{what}: how many calls", dict(collections.Counter(calls.split(", ")[:-1])), wanted)


def try_calls(trial):
    """An edit, a post, an answer, a list, a pack and a recovery make the calls that are told of them, and no others that write."""
    for what, typed, counts, told in (("an edit", EDITED, EDIT_CALLS, b"\nEdited 1.\r\n"), ("an answer", ANSWERED, ANSWER_CALLS, b"\nPosted as 2.\r\n"),
                                      ("a post", POSTED, POST_CALLS, b"\nPosted as 2.\r\n")):
        trial.has_base()
        before = trial.files()
        printed, status, trace = trial.session(LOCAL, typed)
        trial.holds(f"{what}: how it ends: {printed[-40:]}", printed.endswith(told + PROMPT))
        trial.is_so(f"{what}: the status", status, 0)
        trial.follows(what, words_of(trace).rsplit("printed, ", 2)[1], COMMIT, counts)
        trial.is_so(f"{what}: the calls of the opening", words_of(trace).split("printed, ")[0], OPENING + CONVERSION)
    printed, status, trace = trial.session(LIST)
    trial.is_so("a list", (printed.count(b"\n"), status, words_of(trace)), (2, 0, OPENING + "printed, "))
    done = trial.files()
    trial.has_files(before | {"jnl": b"\2" + done["jnl"][1:]})
    printed, status, trace = trial.session(LIST)
    trial.is_so("a recovery: how it ends", (printed.count(b"\n"), status), (2, 0))
    trial.follows("a recovery", words_of(trace).removeprefix(OPENING).removesuffix("printed, "), CHANGE, RECOVERY_CALLS, jam.FILES)
    trial.is_so("what a recovery leaves", trial.files(), done)
    printed, status, trace = trial.session(PACK)
    trial.is_so("a pack: how it ends", (printed, status), (b"Packed: base 1, live 2, dropped 0.\n", 0))
    calls = words_of(trace).removeprefix(OPENING).removesuffix("printed, ")
    trial.is_so("a pack: what it copies first", calls[:len(COPIES)], COPIES)
    trial.follows("a pack", calls[len(COPIES):], COMMIT, PACK_CALLS)


def try_all_stops(trial):
    try_stops(trial, "a post", LOCAL, POSTED, b"Posted as 2.")
    try_stops(trial, "an edit", LOCAL, EDITED, b"Edited 1.")
    if trial.option:
        try_stops(trial, "an answer", LOCAL, ANSWERED, b"Posted as 2.")
        try_stops(trial, "a pack", PACK, (), b"Packed: ")


def try_stops(trial, what, words, typed, printed_after):
    """A run is killed before each of its calls of the disk, or this call fails: what was acknowledged is there, and nothing by half."""
    trial.has_base()
    before, start = trial.listed(), trial.files()
    printed, _, trace = trial.session(words, typed)
    trial.holds(f"{what}: it is done", printed_after in printed)
    after, gates = trial.listed(), words_of(trace).count("gate opened, ")
    for call in DISK_CALLS:
        for at in range(1, 1 + sum(call + "(" in line for line in trace)):
            for how in ("signal=KILL", "error=EIO"):
                trial.has_files(start)
                printed, status, calls = trial.session(words, typed, inject(call, how, at))
                where = f"{what}, {call} {at} with {how}"
                trial.holds(f"{where}: the status {status}", status == (-signal.SIGKILL if how == "signal=KILL" else 4))
                trial.holds(f"{where}: nothing is acknowledged", printed_after not in printed)
                # a mark has a gate of its own, before that of the answer
                wanted = after if words_of(calls).count("gate opened, ") == gates else before
                trial.is_so(f"{where}: what is listed then", trial.listed(), wanted)
                trial.is_so(f"{where}: a check", trial.plain(("check", *LIST[1:])), (jam.checked(trial.base()), 0))


def many(count, base=None):
    """A base with so many messages."""
    base = base or jam.one_message()
    base.slots = [jam.Message(dict(base.slots[0].head), base.slots[0].fields, b"", 0) for _ in range(count)]
    return base


def try_slow_console(trial):
    """A console that takes a few bytes at a time, of a program that is stopped and goes on in the middle of its writes, gets all."""
    base = many(3000)
    trial.has_base(base)
    draw, (taken, given) = random.Random(3), os.pipe()
    fcntl.fcntl(given, fcntl.F_SETPIPE_SZ, PIPE_BYTES)
    with trial.starts(*LIST, stdout=given) as child:
        os.close(given)
        found = b""
        while more := os.read(taken, draw.randrange(1, 2000)):
            found += more
            if draw.randrange(4) == 0:
                child.send_signal(signal.SIGSTOP)
                child.send_signal(signal.SIGCONT)
        trial.is_so("a slow console: the status", child.wait(LIMIT), 0)
    os.close(taken)
    trial.is_so("a slow console: what it gets", found, jam.listing(base))


def has_texts(trial, base, texts, length):
    """The base with texts at these places and of these lengths, in a file of this length that is one hole."""
    trial.has_base(base)
    for message, (offset, size) in zip(base.slots, texts):
        message.head["offset"], message.head["length"] = offset, size
    with open(f"{trial.areas}/general.jhr", "r+b") as file:
        file.seek(1024)
        for message in base.slots:
            file.seek(60, os.SEEK_CUR)
            file.write(message.head["offset"].to_bytes(4, "little") + message.head["length"].to_bytes(4, "little"))
            file.seek(8 + len(message.fields), os.SEEK_CUR)
    os.truncate(f"{trial.areas}/general.jdt", length)


def try_long_texts(trial):
    """A pack of texts that are too long together is refused with their length, and the files stay; one byte less is packed."""
    whole = [(at * MOST_TEXT, MOST_TEXT) for at in range(MOST_TEXTS // MOST_TEXT)]
    for what, texts, length in (("one byte too many", whole + [(5, 1)], MOST_TEXTS), ("one text for many", [(0, MOST_TEXT)] * 5000, MOST_TEXT)):
        has_texts(trial, many(len(texts)), texts, length)
        before = trial.files()
        trial.is_so(f"a pack, {what}", trial.plain(PACK), (b"fault 3.18 TextFull %d\n" % sum(size for _, size in texts), 3))
        trial.holds(f"a pack, {what}: the files stay", trial.keeps(before) and trial.is_shut())
    if trial.option:
        has_texts(trial, many(len(whole)), whole, MOST_TEXTS)
        trial.is_so("a pack of all that texts may have", trial.plain(PACK), (b"Packed: base 1, live %d, dropped 0.\n" % len(whole), 0))
        trial.is_so("the texts then", os.path.getsize(f"{trial.areas}/general.jdt"), MOST_TEXTS)
        trial.is_so("a check of them", trial.plain(("check", *LIST[1:]))[1], 0)


if __name__ == "__main__":
    goes_through(Calls, "between the program and the system", (try_slow_console, try_long_texts), (try_calls, try_all_stops), option="--all", in_memory=False)
