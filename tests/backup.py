#!/usr/bin/env python3
"""Tries the backups of the built program: `board backup` of real and of small bases, and `board serve CONF --calls N --backup DIR2` while callers post;
what a backup holds, how it is refused, and what it is wherever it is broken off.

usage: backup.py PROGRAM

Where nobody changes the base its backup has to be the base to the byte. Beside callers it has to be the base as it was at one moment: it has each post
that was acknowledged before it was signed, and none that was begun behind that. The program is killed before each call that it makes upon the files of
the backup, and each such call fails; and of what was written and synced up to each of them sets of files are made, as a crash may leave them. All that
is left so has to be refused as no base, or to open as the whole backup. The files are read by jam.py. Calls of the system are looked at, held up and
made to fail by strace; where that is not installed, or may not be used, a line says so, and the rest is tried.
"""
import itertools
import os
import re
import shutil
import signal
import stat
import subprocess
import threading
import time
from random import Random

import jam
from bases import small_base, waiting_base, whole_base
from caller import GUARD, Otherwise
from harness import (AREAS, BY_ANOTHER, COUNT, LOCAL, NO_MEMORY, NO_WORDS, SHORT_HEADER, STORE_FAULT, SYSOP, free_port, goes_through, inject,
                     lines, settings, together, users, with_limit)
from jam import MOST_TEXT_BYTES, crc, fixed_header, head_of, named
from lock import IN_USE, SAYS_IN_USE, locked, may_lock
from log import waits
from real_base import PEER
from ringing import FASTER, MINUTES, SECONDS
from tools import DAMAGES, WAYS, Tools, four_slots, of_base, put, two_messages, whole

BAD_SIGNATURE = (b"fault 3.2 BadSignature\n", 3)
# how a target is refused that is no whole backup
BROKEN = (SHORT_HEADER, BAD_SIGNATURE)
BACKED_UP = ("backup", "areas", "general", "copies")
# the calls that are made upon the files of a backup, by which it may be broken off, and those that change what lies on the disk
CALLS, CHANGES = ("openat", "ftruncate", "pwrite64", "fsync"), ("ftruncate", "pwrite64", "fsync")
CHANGE = re.compile(r"\d+ +(\w+)\(\d+<([^>]*)>(?:, (.*))?\) += (-?\d+)")
# what a disk writes whole, how many sets of files are drawn behind each call, and how many of them are looked at together
SECTOR, DRAWN, TOGETHER = 512, 80, 16
# microseconds for which each write of a backup waits where one caller posts meanwhile, and where many do; how many they are; and the seconds for which
# each pauses between two posts, and posts at most
HELD, HELD_SHORTLY, POSTERS, PAUSE, MOST_SECONDS = 700_000, 60_000, 32, 0.01, 2 * GUARD
EMPTY_IT = b": empty the target\n"


def long_base(count, size):
    """The files of a base of so many messages with texts of so many bytes, no two alike."""
    slots = []
    for n in range(1, count + 1):
        fields = named(b"Test", b"Hello", b"text %d" % n)
        head = head_of(fields, number=n, written=10**9, attribute=0x00800001)
        slots.append(jam.Message(head, fields, Random(n).randbytes(size), crc(b"Hello")))
    return jam.files_of(jam.Base(fixed_header(counter=count, live=count), slots, b""))


def all_bases():
    """Bases that are backed up, each with a word on it."""
    return (("no message", {"jhr": fixed_header()}), ("one message", small_base()), ("mixed messages", two_messages(True)), ("four slots", four_slots()),
            ("ten messages", whole_base(Random(39))[0]), ("a real base", jam.read_files(PEER, "PLAIN")), ("texts of three parts", long_base(3, 700_001)),
            ("texts of two whole parts", long_base(2, MOST_TEXT_BYTES)), ("a change that waits", waiting_base(Random(39))),
            ("one with a number", waiting_base(Random(39), 9)))


def held_in(folder, name="general"):
    """What the six files of a base hold whose names are in upper case."""
    found = {}
    for extension in jam.ALL_FILES:
        path = f"{folder}/{name}.{extension.upper()}"
        found[extension] = open(path, "rb").read() if os.path.exists(path) else b""
    return found


def live_of(files):
    return len(jam.base_in(whole(files))[0].live())


class Backups(Tools):
    """Backups of bases in one folder, which are made in another."""

    def __init__(self, program, folder):
        super().__init__(program, folder)
        self.copies = f"{folder}/copies"

    def has_target(self, files=None):
        """Only these files of a backup, or none."""
        jam.write_only(self.copies)
        jam.write_files(self.copies, "general", files or {}, str.upper)

    def upon_target(self, calls):
        """The words of strace for these calls upon the files of the backup, and its folder, which is named by its whole path."""
        return self.upon(calls, self.copies, *(f"{self.copies}/general.{it.upper()}" for it in jam.ALL_FILES))

    def differs(self, files, name="general"):
        """Which files of the backup are others than those of this base."""
        found, wanted = held_in(self.copies, name), whole(of_base(files))
        return [it for it in jam.ALL_FILES if found[it] != wanted[it]]

    def is_backed_up(self, what, files, name="general"):
        """Looks whether the backup has the four files of this base, and what its tools print."""
        listed, figures, _, _ = jam.told(whole(of_base(files)))
        self.is_so(f"{what}: which files of the backup are others", self.differs(files, name), [])
        self.is_so(f"{what}: a list of the backup", self.ended("list", "copies", name), (listed, 0))
        self.is_so(f"{what}: a check of the backup", self.ended("check", "copies", name), (figures + jam.CLOSED, 0))

    def is_broken(self, what):
        """Looks whether the backup is refused as no base."""
        for word in ("list", "check"):
            found = self.ended(word, "copies", "general")
            self.holds(f"{what}: a {word} of what is broken: {found}", found in BROKEN)

    def is_broken_or_whole(self, what, files):
        """Looks whether the backup is refused as no base, or is whole."""
        found, listed = self.ended("list", "copies", "general"), jam.told(whole(of_base(files)))[0]
        if self.holds(f"{what}: what is listed then: {found}", found in (*BROKEN, (listed, 0))) and found not in BROKEN:
            self.is_backed_up(what, files)

    def serves(self, *words, areas=("general",), nodes=1, minutes=1, by=(), **run):
        """Begins to serve these areas with backups; where calls of the system are to be held up or to fail, under strace."""
        self.has_settings(settings(areas, users(), port=self.port, nodes=nodes, pack_minutes=minutes))
        # with that option strace 6.1 sends no signal
        quick = () if any("signal=" in it for it in by) else ("--seccomp-bpf",)
        self.begins(*words, "--backup", "copies", areas=areas, nodes=nodes, under=self.tracer(*quick, *by) if by else (), **run)

    def bells(self):
        """What is told of packs and of backups."""
        return [line.removeprefix(b"bell: area ") for line in self.told if line.startswith(b"bell: ")]

    def hears(self, text):
        """Waits until this is told of a pack or a backup."""
        if not waits(lambda: any(text in line for line in self.bells())):
            raise Otherwise(f"{text!r} is not told")


def told_of(area, live, dropped, *more):
    """The lines of a pack and of a backup of the area with this number; the backup is done, or ends otherwise."""
    said = (b"pack begins\n", b"packed, live %d dropped %d\n" % (live, dropped), b"backup begins\n", *(more or (b"backed up, 1 entries, %d live\n" % live,)))
    return [b"%d: " % area + line for line in said]


def try_tool(trial):
    """Each base is backed up to the byte, in four files, and stays; a change that waits in its journal is done first. Then it is not done again."""
    for what, files in all_bases():
        now = jam.told(whole(files))[3]
        trial.has(files)
        trial.has_target()
        trial.is_so(f"{what}: a backup", trial.ended(*BACKED_UP), (b"backed %d\n" % live_of(now), 0))
        trial.is_so(f"{what}: what is there then", sorted(os.listdir(trial.copies)), sorted(f"general.{it.upper()}" for it in jam.FILES))
        trial.is_backed_up(what, now)
        trial.is_so(f"{what}: which files of the base are others", [it for it in jam.FILES if trial.held()[it] != now.get(it, b"")], [])
        trial.is_so(f"{what}: the gate", trial.held()["jnl"][:1] in (b"", b"\0"), True)
        trial.is_so(f"{what}: the same again", trial.ended(*BACKED_UP), (b"fault 3.19 NotEmpty 0\n", 3))
        trial.holds(f"{what}: the same again changes nothing", not trial.differs(now))


def try_reading(trial):
    """A caller reads the backup of a real base as the base itself, and posts into it; who may read its files."""
    trial.has(jam.read_files(PEER, "PLAIN"))
    trial.has_target()
    trial.is_so("a real base", trial.ended(*BACKED_UP), (b"backed 60\n", 0))
    typed, sent = lines(["Sysop", "hello", "1", *map(str, range(1, 61)), "p", "All", "more", "n", "a line", ".", "q"]), []
    for folder in ("areas", "copies"):
        trial.has_settings(settings([("general", folder, "general")]))
        sent.append(trial.done(*LOCAL, typed=typed)[:2])
    trial.holds("each message is shown, and the post taken", sent[0][1] == 0 and all(b"Message %d\r\n" % n in sent[0][0] for n in (1, 60))
                and b"Posted as 61.\r\n" in sent[0][0])
    trial.is_so("what a caller is sent of the backup", sent[1], sent[0])
    trial.is_so("a base is made beside it", trial.ended("make", "copies", "made"), (b"", 0))
    modes = {name: stat.S_IMODE(os.stat(f"{trial.copies}/{name}").st_mode) for name in ("general.JHR", "general.JDT", "made.JHR")}
    trial.is_so("who may read a backup, as a base that is made", set(modes.values()), {modes["made.JHR"]})


def try_not_empty(trial):
    """A byte in a file of the target, or in all from one on: the lowest is told, and nothing changes. Files that are empty are no hindrance."""
    trial.has(small_base())
    for n, extension in enumerate(jam.ALL_FILES):
        for held in ((extension,), jam.ALL_FILES[n:]):
            there = {it: b"x" if it in held else b"" for it in jam.ALL_FILES}
            trial.has_target(there)
            trial.is_so(f"a byte in {held}", trial.ended(*BACKED_UP), (b"fault 3.19 NotEmpty %d\n" % n, 3))
            trial.is_so(f"a byte in {held}: what is there then", held_in(trial.copies), there)
    trial.has_target(whole({}))
    trial.is_so("empty files", trial.ended(*BACKED_UP), (b"backed 1\n", 0))
    trial.is_backed_up("empty files", small_base())


def is_untouched(trial, what, files):
    """Looks whether the base is as it was, and nothing of a backup is there."""
    trial.is_so(f"{what}: which files of the base are others", [it for it in jam.FILES if trial.held()[it] != files.get(it, b"")], [])
    trial.is_so(f"{what}: what is there of a backup", os.listdir(trial.copies), [])


def try_refusals(trial):
    """Words that ask for no backup; a base that is none or is damaged; a folder that is not there, is that of the base by another name, or may not be
    written; a file that may not grow."""
    files = small_base()
    trial.has(files)
    trial.has_target()
    trial.has_settings(settings())
    for words in ("backup", "backup areas", "backup areas general", "backup areas general areas", "backup areas general ", "backup areas  copies",
                  "backup  general copies", "backup areas general copies more", "backups areas general copies", "BACKUP areas general copies",
                  "serve board.toml --backup", "serve board.toml --backup ", "serve board.toml --calls 1 --backup", "serve board.toml --calls 1 --backup ",
                  "serve board.toml --calls 0 --backup copies", "serve board.toml --backup copies --calls 1", "serve board.toml --calls 1 --backups copies",
                  "serve board.toml --calls 1 --backup copies more", "serve  --calls 1 --backup copies", "local board.toml --backup copies"):
        trial.is_so(f"the words '{words}'", trial.ended(*words.split(" ")), NO_WORDS)
    is_untouched(trial, "words that ask for none", files)
    trial.is_so("a base that is not there", trial.ended("backup", "areas", "nothing", "copies"), SHORT_HEADER)
    trial.is_so("a folder that is not there", trial.ended(*BACKED_UP[:3], "nothing"), STORE_FAULT)
    trial.are_refused("the folder by another name", IN_USE, [((*BACKED_UP[:3], folder), (SAYS_IN_USE,), {}) for folder in ("./areas", trial.areas)])
    is_untouched(trial, "folders that are refused", files)
    for extension, place, data, line in DAMAGES:
        damaged = put(files, extension, place, data)
        trial.has(damaged)
        trial.is_so(f"a base that is refused, {line}", trial.ended(*BACKED_UP), (f"fault {line}\n".encode(), 3))
        is_untouched(trial, f"a base that is refused, {line}", damaged)
    for path in (trial.folder, trial.areas, trial.copies):
        os.chmod(path, 0o777)
    trial.has(files)
    for it in jam.ALL_FILES:
        if os.path.exists(trial.path(it)):
            os.chmod(trial.path(it), 0o666)
    os.chmod(trial.areas, 0o777)
    os.chmod(trial.copies, 0o555)
    trial.is_so("a folder that may not be written", trial.ended(*BACKED_UP, **BY_ANOTHER), STORE_FAULT)
    os.chmod(trial.copies, 0o755)
    is_untouched(trial, "a folder that may not be written", files)
    files = jam.read_files(PEER, "PLAIN")
    trial.has(files)
    trial.is_so("a file that may not grow", trial.ended(*BACKED_UP, preexec_fn=with_limit(len(files["jdt"]) - 1)), STORE_FAULT)
    trial.is_broken("a file that may not grow")


def try_together(trial):
    """Three backups into one empty folder at once, each by a program of its own; and three of one base, of which one is done."""
    trial.has_letters(*AREAS)
    trial.has_target()
    found = together(lambda name=name: trial.ended("backup", "areas", name, "copies") for name in AREAS)
    trial.is_so("three bases at once", found, [(b"backed 1\n", 0)] * 3)
    for name in AREAS:
        trial.is_backed_up(f"three bases at once, {name}", jam.files_of(jam.one_message()), name)
    trial.has_target()
    found = together(lambda: trial.ended(*BACKED_UP) for _ in range(3))
    trial.is_so("one base, three times at once", sorted(found), [(b"backed 1\n", 0)] + [(b"fault 3.19 NotEmpty 0\n", 3)] * 2)
    trial.is_backed_up("one base, three times at once", jam.files_of(jam.one_message()))


def try_memory(trial):
    """Each allocation of a backup is refused in turn: then nothing is there of it, and the base stays."""
    trial.has_allocator()
    trial.has(small_base())
    number, is_come = 0, True
    while is_come:
        number += 1
        trial.has_target()
        printed, status, is_come = trial.refused(number, *BACKED_UP)
        if not is_come or (printed, status) == (b"backed 1\n", 0):
            trial.is_so(f"allocation {number}: what is printed", (printed, status), (b"backed 1\n", 0))
            trial.holds(f"allocation {number}: the backup is whole", not trial.differs(small_base()))
        else:
            trial.is_so(f"no memory at allocation {number}", (printed, status), NO_MEMORY)
            is_untouched(trial, f"no memory at allocation {number}", small_base())
    trial.holds(f"{number - 1} allocations were refused", number > 5)


def try_serve(trial):
    """Over a number of calls each area is packed and then backed up, and the operator is told; one whose target is not empty is not, and the others are.
    Where the bell does not ring, nothing is."""
    trial.has_letters(*AREAS)
    trial.has_target()
    trial.serves("--calls", "1", areas=AREAS)
    trial.caller("who leaves").line.close()
    trial.ends("three areas", 0)
    trial.is_so("three areas: what is told", trial.bells(), [line for k in (1, 2, 3) for line in told_of(k, 1, 0)])
    for name in AREAS:
        trial.is_backed_up(f"three areas, {name}", trial.files(name), name)
    before = {name: held_in(trial.copies, name) for name in AREAS}
    trial.has_target(whole({"jlr": b"x", "ndt": b"y"}))
    trial.serves("--calls", "1", areas=AREAS)
    trial.caller("who leaves").line.close()
    trial.ends("a target that is not empty", 0)
    told = told_of(1, 1, 0, b"not backed up, file 3 of the target is not empty\n")
    trial.is_so("a target that is not empty: what is told", trial.bells(), told + told_of(2, 1, 0) + told_of(3, 1, 0))
    trial.is_so("a target that is not empty: it stays", held_in(trial.copies), whole({"jlr": b"x", "ndt": b"y"}))
    for name in AREAS[1:]:
        trial.is_backed_up(f"beside a target that is not empty, {name}", trial.files(name), name)
    trial.holds("three backups are there", all(live_of(files) == 1 for files in before.values()))
    for minutes, words, how in ((0, ("--calls", "1"), None), (MINUTES, (), signal.SIGTERM)):
        trial.has_target()
        trial.serves(*words, areas=AREAS, minutes=minutes)
        trial.caller("who leaves").line.close()
        trial.ends("no ring", -how if how else 0, how)
        trial.is_so("no ring: what is told, and what is there of backups", (trial.bells(), os.listdir(trial.copies)), ([], []))


def try_rings(trial):
    """Behind a first ring for each of two areas comes another for the first: each is backed up once."""
    library, areas = f"{trial.folder}/faster.so", AREAS[:2]
    with open(f"{trial.folder}/faster.c", "w") as file:
        file.write(FASTER)
    subprocess.run(["cc", "-O2", "-shared", "-fPIC", f"-DTIMES={int(60 / SECONDS)}", "-o", library, f"{trial.folder}/faster.c"], check=True)
    trial.has_letters(*areas)
    trial.has_target()
    trial.serves(areas=areas, minutes=MINUTES, env={"LD_PRELOAD": library})
    wanted = [*told_of(1, 1, 0), *told_of(2, 1, 0), *told_of(1, 1, 0)[:2]]
    waits(lambda: len(trial.bells()) >= len(wanted))
    trial.is_so("three rings: what is told", trial.bells()[:len(wanted)], wanted)
    trial.is_ended("three rings")
    for name in areas:
        # a pack that comes behind the backup counts a change
        files = trial.files(name)
        counted = jam.read_files(trial.copies, name)["jhr"][8:12]
        trial.is_backed_up(f"three rings, {name}", files | {"jhr": files["jhr"][:8] + counted + files["jhr"][12:]}, name)


def try_settings(trial):
    """Two areas whose bases have one name, and an area in the folder of the backups, are refused where there are to be backups; a target that another
    program has, too. Nothing is there of a backup then."""
    twice, within = (("one", "areas", "general"), ("two", "more", "general")), (("one", "areas", "letters"), ("two", "copies", "general"))
    trial.has_letters("general", "letters")
    shutil.copytree(trial.areas, f"{trial.folder}/more")
    for areas, words in itertools.product((twice, within), (("--calls", "1"), ())):
        trial.has_target(jam.files_of(jam.one_message()))
        before = held_in(trial.copies)
        trial.has_settings(settings(areas, users(), port=trial.port, nodes=1))
        printed, status, told = trial.done("serve", "board.toml", *words, "--backup", "copies")
        trial.is_so(f"{areas}, {words}: how it is refused", (printed, status), (b"fault 2.5 Repeated area.2.base\n", 2))
        trial.holds(f"{areas}: what the operator is told: {told}", re.fullmatch(
            rb"board: board\.toml: area\.2\.base is the same as one before it, or its folder is that of the backups\n", told))
        trial.is_so(f"{areas}: the folder of the backups", held_in(trial.copies), before)
        trial.has_settings(settings(areas, users(), port=trial.port, nodes=1).replace("read = 10", "read = 256", 1))
        trial.is_so(f"{areas} behind another fault", trial.ended("serve", "board.toml", *words, "--backup", "copies"),
                    (b"fault 2.4 OutOfRange area.1.read\n", 2))
    trial.has_settings(settings(twice, users(), port=trial.port, nodes=1, pack_minutes=0))
    trial.begins("--calls", "1", areas=twice, nodes=1)
    trial.caller("who leaves").line.close()
    trial.ends("bases of one name without backups", 0)
    trial.has_target({"jhr": b""})
    trial.has_settings(settings(("general",), users(), port=free_port(), nodes=1))
    with open(f"{trial.copies}/general.JHR", "r+b") as file:
        trial.holds("the target may be had", locked(file, "flock", 2))
        trial.are_refused("a target that another has", IN_USE, [
            (words, (SAYS_IN_USE,), {}) for words in (("serve", "board.toml", "--calls", "1", "--backup", "copies"), BACKED_UP)])
    trial.is_so("a target that another has: what it holds", held_in(trial.copies), whole({}))


class Poster:
    """One who posts while an area is backed up, and which of the posts the backup has to have, and which it may not have."""

    def __init__(self, trial, caller, draw):
        self.trial, self.caller, self.draw, self.within, self.without = trial, caller, draw, set(), set()

    def is_signed(self):
        """Whether the backup bears its signature."""
        try:
            with open(f"{self.trial.copies}/general.JHR", "rb") as file:
                return file.read(1) == b"J"
        except FileNotFoundError:
            return False

    def posts(self):
        """A post, of which it is known that it was begun behind the signature, or done before it; or neither. Says whether it is the first."""
        is_late = self.is_signed()
        text = [b"x" * self.draw.randrange(70) for _ in range(self.draw.randrange(1, 9))]
        number = self.caller.posts(b"All", b"post %d" % self.draw.randrange(10**9), text)
        if is_late:
            self.without.add(number)
        elif not self.is_signed():
            self.within.add(number)
        return is_late

    def goes_on(self):
        """Posts until one was begun behind the signature."""
        end = time.monotonic() + MOST_SECONDS
        while not self.posts() and time.monotonic() < end:
            time.sleep(PAUSE)

    def leaves(self):
        self.caller.quits()


def is_of_one_moment(trial, what, posters, held):
    """Looks whether the backup is the area at one moment that fits what was acknowledged, behind so many messages that it held before; no pack came
    behind it, so that the files have only grown since."""
    now, then = trial.held_base(), held_in(trial.copies)
    copy, base = jam.base_in(whole(then))[0], jam.base_in(whole(now))[0]
    numbers, late = set(copy.live()), len(base.live()) - len(copy.live())
    trial.is_so(f"{what}: the numbers in the backup", sorted(numbers), list(range(1, len(numbers) + 1)))
    for extension, front in (("jhr", 1024), ("jdt", 0), ("jdx", 0)):
        trial.holds(f"{what}: .{extension} of the backup is how that of the area was", now[extension][front:].startswith(then[extension][front:]))
    trial.is_so(f"{what}: what the backup counts of changes, of live messages", (jam.ulong(then["jhr"], 8), jam.ulong(then["jhr"], 12)),
                (jam.ulong(now["jhr"], 8) - late, len(numbers)))
    within, without = (set().union(*sets) for sets in zip(*((it.within, it.without) for it in posters)))
    trial.is_so(f"{what}: posts that were done before the signature and are not in the backup", sorted(within - numbers), [])
    trial.is_so(f"{what}: posts that were begun behind it and are in the backup", sorted(without & numbers), [])
    trial.holds(f"{what}: {len(within)} posts were done before the signature, {len(without)} begun behind it", within and without)
    told = b"1: backed up, %d entries, %d live\n" % (len(numbers) - held + 1, len(numbers))
    trial.is_so(f"{what}: what is told of it", trial.bells()[-1], told)
    trial.is_backed_up(what, then)


def try_between(trial):
    """A backup whose writes are held up, and one caller who posts meanwhile: what is posted between two turns is in the backup."""
    trial.has(long_base(2, MOST_TEXT_BYTES))
    trial.has_target()
    by = (*trial.upon_target("pwrite64"), *inject("pwrite64", f"delay_enter={HELD}", "2+"))
    trial.serves("--calls", "1", by=by)
    trial.hears(b"backup begins")
    poster = Poster(trial, trial.guest(0), Random(40))
    poster.goes_on()
    trial.hears(b"backed up")
    poster.leaves()
    trial.ends("posts between two turns", 0)
    is_of_one_moment(trial, "posts between two turns", [poster], 2)


def try_packed(trial):
    """The same where sysops kill most messages and pack meanwhile: the texts are copied anew, and the backup is the area behind the pack."""
    trial.has(long_base(12, MOST_TEXT_BYTES))
    trial.has_target()
    by = (*trial.upon_target("pwrite64"), *inject("pwrite64", f"delay_enter={HELD}", "2+"))
    trial.serves("--calls", "1", nodes=5, by=by)
    trial.hears(b"backup begins")
    sysops = together((lambda: trial.guest(SYSOP)) for _ in range(5))
    for first in (1, 6):
        together((lambda it=it, n=n: it.answers(b"k %d" % n, b"Killed %d.\r\n" % n, b"[general] ")) for n, it in enumerate(sysops, first))
    sysops[0].answers(b"x", b"Packed: base 11, live 2, dropped 10.\r\n", b"[general] ")
    trial.holds("a pack is done before the signature", not Poster(trial, sysops[0], Random(41)).is_signed())
    trial.hears(b"backed up")
    together(it.quits for it in sysops)
    trial.ends("a pack between two turns", 0)
    trial.is_so("a pack between two turns: what is told", trial.bells(), told_of(1, 12, 0, b"backed up, 12 entries, 2 live\n"))
    trial.is_backed_up("a pack between two turns", trial.held())


def try_beside(trial):
    """The same with many callers, each of whom posts without a pause."""
    trial.has(long_base(12, MOST_TEXT_BYTES))
    trial.has_target()
    by = (*trial.upon_target("pwrite64"), *inject("pwrite64", f"delay_enter={HELD_SHORTLY}", "2+"))
    trial.serves("--calls", "1", nodes=POSTERS, by=by)
    posters = together((lambda n=n: Poster(trial, trial.guest(n % COUNT), Random(n))) for n in range(POSTERS))
    threads = [threading.Thread(target=trial.tells_wrong, args=(f"poster {n}", it.goes_on)) for n, it in enumerate(posters)]
    for thread in threads:
        thread.start()
    for thread in threads:
        thread.join(3 * GUARD)
    together(it.leaves for it in posters)
    trial.ends("many who post", 0)
    is_of_one_moment(trial, "many who post", posters, 12)


def try_locked(trial):
    """While a backup is made, which is stopped at its second write, no other program has the base or the target."""
    trial.has(jam.read_files(PEER, "PLAIN"))
    jam.write(trial.areas, "other", jam.one_message())
    trial.has_target()
    files = trial.held()
    process = trial.starts(*BACKED_UP, under=trial.tracer(*trial.upon_target("pwrite64"), *inject("pwrite64", "signal=STOP", 2)))
    path = f"{trial.copies}/general.JHR"
    trial.holds("a backup is begun", waits(lambda: os.path.exists(path) and os.path.getsize(path) == 1))
    trial.is_so("who has locks of a target", may_lock(path), [False] * 4)
    runs = [((word, folder, "general"), (SAYS_IN_USE, b"general"), {}) for word in ("list", "check", "make", "pack", "relink")
            for folder in ("copies", "areas")]
    jam.write_only(f"{trial.folder}/more", general=jam.one_message())
    runs.append((("backup", "more", "general", "copies"), (SAYS_IN_USE,), {}))
    trial.are_refused("a backup that is made", IN_USE, runs)
    trial.is_so("another into the same folder", trial.ended("backup", "areas", "other", "copies"), (b"backed 1\n", 0))
    trial.is_so("a backup that is made: its headers", os.path.getsize(path), 1)
    process.send_signal(signal.SIGCONT)
    trial.is_so("it goes on", (process.communicate(timeout=GUARD)[0], process.returncode), (b"backed 60\n", 0))
    trial.is_backed_up("a backup that was stopped", files)
    trial.is_backed_up("one beside it", jam.files_of(jam.one_message()), "other")


def traced_backup(trial, by):
    return trial.traced(*BACKED_UP[:3], trial.copies, by=by)


def try_stops(trial):
    """The program is killed before each call upon the target, and each of them fails: the base stays, and what is left is refused as no base, or is whole.
    Once it is taken away the base is backed up."""
    files = whole_base(Random(42))[0]
    trial.has(files)
    trial.has_target()
    trace, count = traced_backup(trial, trial.upon_target(",".join(CALLS)))[2], 0
    trial.is_backed_up("without a fault", files)
    for call in CALLS:
        made = [line for line in trace if re.match(rf"\d+ +{call}\(", line)]
        for at, how in itertools.product(range(1, len(made) + 1), WAYS):
            what = f"{call} {at} with {how}"
            trial.has_target()
            printed, status, _ = traced_backup(trial, (*trial.upon_target(call), *inject(call, how, at)))
            wanted = [(b"", -signal.SIGKILL)] if how == WAYS[0] else [STORE_FAULT] + [(b"backed 8\n", 0)] * (call == "openat")
            trial.holds(f"{what}: how it ends: {(printed, status)}", (printed, status) in wanted)
            trial.is_broken_or_whole(what, files)
            if status == 0:
                trial.is_backed_up(what, files)
            trial.holds(f"{what}: the base stays", trial.held_base() == of_base(files))
            count += 1
    trial.holds(f"{count} times it was broken off", count > 2 * 20)
    trial.has_target()
    trial.is_so("once it is taken away", trial.ended(*BACKED_UP), (b"backed 8\n", 0))


def text_of(shown):
    """The bytes that strace shows each as a number, or as they are."""
    return bytes.fromhex(shown.replace("\\x", "")) if shown.startswith("\\x") else shown.encode()


def changes_of(trace):
    """The calls that changed or synced a file of the backup: its extension, and a length, a place with bytes, or nothing."""
    for line in trace:
        found = CHANGE.match(line)
        if not found or found[1] not in CHANGES:
            continue
        extension = os.path.splitext(text_of(found[2]).decode())[1][1:].lower()
        if extension in jam.ALL_FILES and found[1] == "ftruncate":
            yield extension, int(found[3])
        elif extension in jam.ALL_FILES and found[1] == "pwrite64":
            data, _, at = found[3].rsplit(", ", 2)
            yield extension, (int(at), text_of(data.strip('"'))[:int(found[4])])
        elif extension in jam.ALL_FILES:
            yield extension, None


class Disk:
    """A file of a backup, by what it held at each moment since it was synced last."""

    def __init__(self):
        self.states = [b""]

    def changes(self, change):
        last = self.states[-1]
        if change is None:
            self.states = [last]
        elif isinstance(change, int):
            self.states.append(last[:change].ljust(change, b"\0"))
        else:
            at, data = change
            self.states.append(last[:at].ljust(at, b"\0") + data + last[at + len(data):])

    def left(self, draw):
        """What a crash may leave: a length that it had since then, and each sector as it was at some of these moments."""
        size = len(draw.choice(self.states))
        return b"".join(draw.choice(self.states)[at:at + SECTOR].ljust(SECTOR, b"\0") for at in range(0, size, SECTOR))[:size]


def images(changes, draw):
    """What crashes may leave behind each of these calls, each once."""
    disks, found = {it: Disk() for it in jam.ALL_FILES}, {}
    for extension, change in changes:
        disks[extension].changes(change)
        for _ in range(DRAWN):
            files = {it: disk.left(draw) for it, disk in disks.items()}
            found[tuple(files.values())] = files
        files = {it: disk.states[-1] for it, disk in disks.items()}
        found[tuple(files.values())] = files
    return list(found.values())


def try_images(trial):
    """Sets of files as a crash may leave them behind each call upon the target: each is refused as no base, or is the whole backup. What is synced when the
    signature is written, and that nothing but it is written then."""
    files = whole_base(Random(43))[0]
    trial.has(files)
    trial.has_target()
    trace = traced_backup(trial, ("-xx", "-s", "1000000", *trial.upon_target(",".join(CHANGES))))[2]
    changes = list(changes_of(trace))
    trial.is_so("the first two changes, and the last two", [*changes[:2], *changes[-2:]], [("jhr", 1), ("jhr", (0, b"\0")), ("jhr", (0, b"J")), ("jhr", None)])
    for extension in jam.FILES:
        trial.is_so(f"the last call upon .{extension} before the signature", [it for it in changes[:-2] if it[0] == extension][-1], (extension, None))
    trial.is_so("files that are no part of a backup", [it for it, _ in changes if it not in jam.FILES], [])
    left, kinds = images(changes, Random(44)), []
    for at in range(0, len(left), TOGETHER):
        part = list(enumerate(left[at:at + TOGETHER]))
        jam.write_only(trial.copies)
        for n, image in part:
            jam.write_files(trial.copies, str(n), image, str.upper)
        found = together(lambda n=n: trial.ended("check", "copies", str(n)) for n, _ in part)
        for (n, image), (printed, status) in zip(part, found):
            wanted = jam.told(image)[1:3]
            trial.is_so(f"image {at + n}: a check", (printed, status), (wanted[0] + (jam.CLOSED if wanted[1] == 0 else b""), wanted[1]))
            is_whole = of_base(image) == of_base(files)
            trial.holds(f"image {at + n}: it is refused as no base, or whole: {printed}", (printed, status) in BROKEN or status == 0 and is_whole)
            kinds.append(printed if status else b"whole")
    counts = {kind: kinds.count(kind) for kind in set(kinds)}
    trial.holds(f"{counts} sets of files", len(counts) == 3 and len(kinds) > 60)


def try_source(trial):
    """Each read of the base fails: the tool tells so, and what is there of a backup is no base. The base stays."""
    files = whole_base(Random(45))[0]
    trial.has(files)
    trial.has_target()
    count = sum("pread64(" in line for line in traced_backup(trial, trial.upon("pread64"))[2])
    trial.holds(f"{count} reads", count >= 8)
    for at in range(1, count + 1):
        trial.has_target()
        printed, status, _ = traced_backup(trial, (*trial.upon("pread64"), *inject("pread64", WAYS[1], at)))
        trial.is_so(f"read {at}", (printed, status), STORE_FAULT)
        trial.is_broken(f"read {at}")
        trial.holds(f"read {at}: the base stays", trial.held_base() == of_base(files))


def is_not_backed_up(trial, what, status, told, by):
    """Looks whether the backup of a served area ends so, where calls fail by these words of strace; a caller who comes behind it is served."""
    trial.has(small_base())
    trial.has_target()
    trial.serves("--calls", "1", nodes=1, by=by)
    trial.hears(b"backed up")
    caller = trial.guest(0)
    if status == 0:
        trial.is_so(f"{what}: a post behind it", caller.posts(b"All", b"behind", [b"a line"]), 2)
    caller.quits()
    trial.ends(what, status)
    trial.is_so(f"{what}: what is told", trial.bells(), told)
    trial.holds(f"{what}: the call fails", any("INJECTED" in line for line in trial.trace()))
    trial.is_broken(what)
    trial.is_so(f"{what}: the area then", trial.ended("check", "areas", "general")[1], 0)


def try_faults(trial):
    """Calls that fail while a served area is backed up: of the target, of the base, and of the pack before, which leaves it in doubt. The run goes on, and
    its status is that which it would have."""
    trial.has(small_base())
    trial.has_target()
    reads = trial.upon("pread64", trial.path("jdt"))
    trial.serves("--calls", "1", by=reads)
    trial.caller("who leaves").line.close()
    trial.ends("without a fault", 0)
    # strace counts the calls of each thread apart, and the last is of that which backs up
    threads = [line.split()[0] for line in trial.trace() if "pread64(" in line]
    count = threads.count(threads[-1])
    for what, call, at in (("the first write", "pwrite64", 1), ("the second write", "pwrite64", 2), ("the second length", "ftruncate", 2),
                           ("the second sync", "fsync", 2)):
        is_not_backed_up(trial, f"{what} of the target", 0, told_of(1, 1, 0, b"not backed up, target fault" + EMPTY_IT),
                         (*trial.upon_target(call), *inject(call, WAYS[1], at)))
    is_not_backed_up(trial, "the last read of the texts", 0, told_of(1, 1, 0, b"not backed up, source fault" + EMPTY_IT),
                     (*reads, *inject("pread64", WAYS[1], count)))
    doubt = [b"1: pack begins\n", b"1: the device failed, in doubt\n", b"1: backup begins\n", b"1: not backed up, in doubt" + EMPTY_IT]
    is_not_backed_up(trial, "the pack before", 4, doubt, (*trial.upon("ftruncate", trial.path("ndt")), *inject("ftruncate", WAYS[1], 1)))


def try_killed(trial):
    """A board that is killed while it backs up an area: the area is whole, and the backup is none."""
    for at in (1, 2, 3, 4):
        trial.has(whole_base(Random(46))[0])
        trial.has_target()
        trial.serves("--calls", "1", by=(*trial.upon_target("pwrite64"), *inject("pwrite64", WAYS[0], at)))
        waits(lambda: trial.process.poll() is not None)
        trial.is_so(f"write {at} of the target: how the run ends", trial.process.poll(), -signal.SIGKILL)
        trial.is_broken(f"write {at} of the target")
        found = trial.ended("check", "areas", "general")
        trial.holds(f"write {at} of the target: a check of the area: {found}", found[1] == 0 and b"live 8\n" in found[0])


if __name__ == "__main__":
    tries = [try_tool, try_reading, try_not_empty, try_refusals, try_together, try_serve, try_settings]
    if shutil.which("cc") is not None:
        tries += [try_memory, try_rings]
    else:
        print("refused memory and rings of a faster clock were not tried: there is no C compiler for them")
    goes_through(Backups, "backups", tries, (try_between, try_packed, try_beside, try_locked, try_stops, try_images, try_source, try_faults, try_killed))
