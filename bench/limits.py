#!/usr/bin/env python3
"""Measures the built program over bases as large as they may be: what the refusal of a hostile one with 1,000,000 index records costs, and what the
pack of an area whose header file is full holds of memory.

usage: limits.py PROGRAM [DIR]

The hostile ones are the kinds of tests/reading.py, and more that are made to cost much. Of each run: the bytes that it reads, against those of the
files, the most that it holds of memory, and its processor time against `cat` of the files. Then a base with 1,000,000 messages, .JHR of nearly
536,870,912 bytes and .JDT of 1 GB, and one with as much in the longest headers, is opened by a session, packed by its sysop, and packed by the tool.
At last a board of 255 areas without a message, of as many slots as the settings give where they say none, is opened. Bounds are at the head of this
script: where one is passed a line says so, and the status is 1. The files lie in DIR, or where temporary files do, and take 4 GB.
"""
import hashlib
import itertools
import os
import random
import re
import shutil
import struct
import subprocess
import sys
import tempfile

import make_base
from session import SETTINGS, Caller

TOP = os.path.dirname(os.path.dirname(os.path.realpath(__file__)))
sys.path.insert(0, f"{TOP}/tests")
from jam import DELETED, MOST_SUBFIELD_BYTES, crc, fixed_header, header, named, subfields  # noqa: E402

SLOTS, HEADERS_CEILING = 1_000_000, 536_870_912
# a run reads its files at most so many times, and what is read of its own beside
MOST_TIMES, BESIDES = 4, 65_536
# headers within one another that share their subfields, so that there are as many in a full .JHR as slots
WITHIN = 490
# bytes of memory that a refusal holds for a slot, and how many times the bytes of the files beside
SLOT_BYTES, HELD_TIMES = 300, 1
# bytes of memory that a pack of a full .JHR holds
MOST_PACK_BYTES = 2 << 30
# areas of a board, and bytes of memory that each of them holds while it has no message
AREAS, EMPTY_BYTES = 255, 400_000
NAMES = named(b"Test", b"Hello", b"abc")
PROMPT = b"[general] "


def spent(words, folder):
    """The status of one run, how many bytes it read, the most bytes of memory that it had, and its processor time in seconds."""
    child = subprocess.Popen(words, cwd=folder, stdout=subprocess.DEVNULL, stderr=subprocess.DEVNULL)
    os.waitid(os.P_PID, child.pid, os.WEXITED | os.WNOWAIT)
    with open(f"/proc/{child.pid}/io", encoding="ascii") as file:
        read = int(file.readline().split()[1])
    _, status, usage = os.wait4(child.pid, 0)
    return os.waitstatus_to_exitcode(status), read, usage.ru_maxrss * 1024, usage.ru_utime + usage.ru_stime


class Bounds:
    """The bounds that were passed."""

    def __init__(self):
        self.passed = []

    def holds(self, what, found, most, form):
        """Looks whether this is at most that, and says how near it comes."""
        if found > most:
            self.passed.append(what)
        return f"{form(found)}, {'at most' if found <= most else 'ABOVE'} {form(most)}"


def megabytes(size):
    return f"{size / 1e6:,.0f} MB"


def has_base(folder, headers, places):
    """A base with these headers one behind another, and an index record for each place: one of them, counted from the first, or one and so many bytes
    behind. Gives its bytes."""
    starts = [1024]
    with open(f"{folder}/hostile.JHR", "wb") as file:
        file.write(fixed_header(1, 1, 1))
        for one, count in headers:
            for _ in range(count):
                file.write(one)
                starts.append(starts[-1] + len(one))
    with open(f"{folder}/hostile.JDX", "wb") as file:
        file.writelines(struct.pack("<II", 0, starts[at] if isinstance(at, int) else starts[at[0]] + at[1]) for at in places)
    return sum(os.path.getsize(f"{folder}/hostile.{ending}") for ending in ("JHR", "JDX"))


def group(count):
    """So many headers, each within the one before, and behind the last of them as many of the shortest subfields as the first may have."""
    tail = (MOST_SUBFIELD_BYTES - 84 * (count - 1)) // 8
    outer = (header(struct.pack("<HHI", 99, 0, 76), subfields=84 * n + 8 * tail) for n in range(count - 1, 0, -1))
    return b"".join(outer) + header(subfields((99, b"")) * tail)


def hostile(draw):
    """The kinds: what it is, its headers with how often each stands there, the slots, and which fault is wanted, or none."""
    small, killed = header(NAMES), header(NAMES, attribute=DELETED)
    long = header(NAMES + subfields((99, bytes(MOST_SUBFIELD_BYTES - len(NAMES) - 8))))
    within = header(subfields((99, b""))[:4] + struct.pack("<I", 76), subfields=84 * 3120)
    full = HEADERS_CEILING // len(long)
    wide = header(NAMES + subfields((99, bytes(HEADERS_CEILING // SLOTS - len(header(NAMES)) - 9))))
    yield "slots that name one long header", [(long, 1)], itertools.repeat(0, SLOTS), 3
    yield "the same, killed", [(killed, 1)], itertools.repeat(0, SLOTS), 3
    yield "the same, its last slot another header", [(long, 1), (small, 1)], itertools.chain(itertools.repeat(0, SLOTS - 1), [1]), 3
    yield "slots that name two long headers by turns", [(long, 2)], itertools.islice(itertools.cycle((0, 1)), SLOTS), 3
    yield "slots that name all long headers of a full .JHR, by turns", [(long, full)], (n % full for n in range(SLOTS)), 3
    yield "the same downwards", [(long, full)], (full - 1 - n % full for n in range(SLOTS)), 3
    yield "a full .JHR in order, whose last slot names the first header", [(wide, SLOTS - 1)], itertools.chain(range(SLOTS - 1), [0]), 3
    yield "small headers in their order", [(small, SLOTS)], range(SLOTS), 0
    places = list(range(SLOTS))
    draw.shuffle(places)
    yield "small headers in a drawn order", [(small, SLOTS)], places, 0
    del places
    yield "headers each within the one before", [(within, SLOTS + 3200)], range(SLOTS), 3
    many, most = group(WITHIN), HEADERS_CEILING // 262_300
    at = itertools.islice(((n, 84 * k) for n in range(most) for k in range(WITHIN)), SLOTS)
    yield "a full .JHR of headers within others that share their subfields", [(many, most)], at, 3


def measure_hostile(program, folder, bounds):
    for what, headers, places, wanted in hostile(random.Random(4)):
        size = has_base(folder, headers, places)
        _, _, _, cat = spent(["cat", "hostile.JHR", "hostile.JDX"], folder)
        status, read, held, took = spent([program, "list", ".", "hostile"], folder)
        if status != wanted:
            sys.exit(f"{what}: the status is {status}, and {wanted} is wanted")
        times = bounds.holds(f"{what}: bytes read", read, MOST_TIMES * size + BESIDES, megabytes)
        most = bounds.holds(f"{what}: memory", held, HELD_TIMES * size + SLOT_BYTES * SLOTS, megabytes)
        print(f"{what}, {megabytes(size)} of files: reads {times}; holds {most}; {took / cat:.0f} times cat, {took / SLOTS * 1e6:.2f} us a slot", flush=True)
    for ending in ("JHR", "JDX"):
        os.remove(f"{folder}/hostile.{ending}")


def held(caller):
    """The most bytes of memory that a session had."""
    with open(f"/proc/{caller.process.pid}/status", encoding="ascii") as file:
        return next(int(line.split()[1]) * 1024 for line in file if line.startswith("VmHWM:"))


def writes_longest(folder):
    """A base of a full .JHR in as few headers as there may be."""
    kludge = MOST_SUBFIELD_BYTES - len(NAMES) - 8
    long = header(NAMES + subfields((2000, bytes(kludge))))
    count = (HEADERS_CEILING - 1024) // len(long)
    with open(f"{folder}/areas/general.JHR", "wb") as file:
        file.write(fixed_header(1, count, count))
        for _ in range(count):
            file.write(long)
    with open(f"{folder}/areas/general.JDX", "wb") as file:
        file.writelines(struct.pack("<II", crc(b"Hello"), 1024 + n * len(long)) for n in range(count))
    for ending in ("JDT", "JLR"):
        open(f"{folder}/areas/general.{ending}", "wb").close()


def writes_many(folder):
    """A base of a full .JHR in as many headers as there may be, with texts of 1 GB; none is killed, so that a pack writes them all."""
    make_base.write(f"{folder}/areas", "general", SLOTS, False, 6, 349)


def measure_full(program, folder, bounds):
    with open(f"{folder}/board.toml", "w", encoding="ascii") as file:
        file.write(SETTINGS.format(hashlib.sha256(b"word").hexdigest()).replace("[[user]]", f"slots = {SLOTS}\n[[user]]"))
    for what, writes in (("1,000,000 messages", writes_many), ("the longest headers", writes_longest)):
        for way in ("a sysop", "the tool"):
            shutil.rmtree(f"{folder}/areas", ignore_errors=True)
            os.mkdir(f"{folder}/areas")
            writes(folder)
            size = os.path.getsize(f"{folder}/areas/general.JHR")
            if not HEADERS_CEILING * 0.99 < size <= HEADERS_CEILING:
                sys.exit(f"{what}: .JHR has {size} bytes")
            opened = ""
            if way == "the tool":
                status, _, most, _ = spent([program, "pack", "areas", "general"], folder)
            else:
                caller = Caller([program, "local", "board.toml"], folder)
                opened = f", {megabytes(held(caller))} once it is open"
                status = 0 if b"Packed: " in caller.asks(["X"], PROMPT) else 1
                most = held(caller)
                caller.leaves()
            if status:
                sys.exit(f"{what}: a pack by {way} is refused")
            line = bounds.holds(f"a pack of a full .JHR in {what} by {way}", most, MOST_PACK_BYTES, megabytes)
            print(f"a pack of a full .JHR, {megabytes(size)} in {what}, by {way}: {line}{opened}", flush=True)
            status, _, most, _ = spent([program, "check", "areas", "general"], folder)
            print(f"  a check of it then: status {status}, {megabytes(most)}", flush=True)


def measure_empty(program, folder, bounds):
    shutil.rmtree(f"{folder}/areas", ignore_errors=True)
    os.mkdir(f"{folder}/areas")
    head, area, user = re.split(r"(?=\[\[)", SETTINGS.format(hashlib.sha256(b"word").hexdigest()))
    names = ["general", *(f"area{n}" for n in range(1, AREAS))]
    for name in names:
        subprocess.run([program, "make", "areas", name], cwd=folder, check=True)
    with open(f"{folder}/board.toml", "w", encoding="ascii") as file:
        file.write(head + "".join(area.replace("general", name) for name in names) + user)
    caller = Caller([program, "local", "board.toml"], folder)
    line = bounds.holds(f"{AREAS} areas without a message", held(caller), AREAS * EMPTY_BYTES, megabytes)
    caller.leaves()
    print(f"{AREAS} areas without a message: {line}", flush=True)


def main(program, above=None):
    folder, program, bounds = tempfile.mkdtemp(dir=above), os.path.realpath(program), Bounds()
    try:
        measure_hostile(program, folder, bounds)
        measure_full(program, folder, bounds)
        measure_empty(program, folder, bounds)
    finally:
        shutil.rmtree(folder)
    if bounds.passed:
        sys.exit(f"bounds that are passed: {'; '.join(bounds.passed)}")


if __name__ == "__main__":
    if len(sys.argv) not in (2, 3):
        sys.exit(__doc__)
    main(*sys.argv[1:])
