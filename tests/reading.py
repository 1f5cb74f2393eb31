#!/usr/bin/env python3
"""Tries how many bytes the built program reads of bases that were made to cost much, no more than so many times their files; and how much memory it
takes for them, no more than so many bytes a slot and twice their files.

usage: reading.py PROGRAM

The bases have as many slots as they may have, and are whole, or have slots that name the same header. The counts are the system's (/proc/PID/io);
where it tells none, a line says so.
"""
import itertools
import os
import random
import struct
import sys

from harness import LIMIT, Runs, goes_through
from jam import MOST_SLOTS, MOST_SUBFIELD_BYTES, fixed_header, header, named, subfields, write_files

NAMES = named(b"Test", b"Hello", b"abc")
# what is read of a program's own: it and the C library
BESIDES = 65_536
# what a slot costs of memory at most, and the program, beside the headers, which are held as they stand and as they are read where they do not rise
SLOT_BYTES, FIXED_BYTES = 300, 16 * 1024 * 1024
# runs a program, and writes into a file how many bytes it read, and how many KB of memory it had at most: one of its own, since the system counts with a
# run what the memory was of the process that started it
COUNTER = """
import os, resource, subprocess, sys
with subprocess.Popen(sys.argv[2:]) as child:
    os.waitid(os.P_PID, child.pid, os.WEXITED | os.WNOWAIT)
    with open(f"/proc/{child.pid}/io", encoding="ascii") as file:
        read = file.readline().split()[1]
with open(sys.argv[1], "w", encoding="ascii") as file:
    print(read, resource.getrusage(resource.RUSAGE_CHILDREN).ru_maxrss, file=file)
sys.exit(child.returncode)
"""


class Readings(Runs):
    """Lists of bases in one folder, and the bytes that they read."""

    def has_base(self, headers, slots):
        """These headers one behind another, and slots that name them by their place among these; gives the bytes of all files."""
        starts = list(itertools.accumulate(map(len, headers), initial=1024))
        files = {"jhr": fixed_header(1, 1, 1) + b"".join(headers), "jdx": b"".join(struct.pack("<II", 0, starts[at]) for at in slots), "jdt": b"", "jlr": b""}
        write_files(self.folder, "read", files)
        return sum(map(len, files.values()))

    def lists(self):
        """What a list prints, its status, how many bytes it reads, and how many it takes of memory."""
        printed, status, _ = self.done("list", ".", "read", limit=LIMIT, under=(sys.executable, "-c", COUNTER, f"{self.folder}/counted"))
        with open(f"{self.folder}/counted", encoding="ascii") as file:
            read, taken = map(int, file.read().split())
        return printed, status, read, taken * 1024

    def reads(self, what, headers, slots, line, most):
        """Looks whether this base is listed or refused so, at most so many times its files are read, and it takes no more memory than it may."""
        size = self.has_base(headers, slots)
        printed, status, read, taken = self.lists()
        wanted = (line, 3) if line else (b"".join(b"%8d  Test > Hello  abc\n" % (1 + n) for n in range(len(slots))), 0)
        self.is_so(f"{what}: what is printed, and the status", (printed, status), wanted)
        print(f"{what}: {size} bytes of files, {read} read, {read / size:.1f} times; {taken >> 20} MB of memory", flush=True)
        memory = SLOT_BYTES * len(slots) + 2 * size + FIXED_BYTES
        self.holds(f"{what}: {taken} bytes of memory, where {memory} are the most", taken <= memory)
        self.holds(f"{what}: {read} bytes read, where {most} times {size} are the most", read <= most * size + BESIDES)


def try_readings(trial):
    draw, small = random.Random(4), header(NAMES)
    long = header(NAMES + subfields((99, bytes(MOST_SUBFIELD_BYTES - len(NAMES) - 8))))
    overlap = b"fault 3.13 HeadersOverlap 1 2\n"
    trial.reads("slots that name one long header", [long], [0] * MOST_SLOTS, overlap, 4)
    trial.reads("the same, the last slot another header", [long, small], [0] * (MOST_SLOTS - 1) + [1], overlap, 4)
    trial.reads("slots that name two long headers by turns", [long] * 2, [0, 1] * (MOST_SLOTS // 2), b"fault 3.13 HeadersOverlap 1 3\n", 4)
    within = header(subfields((99, b""))[:4] + struct.pack("<I", 76), subfields=84 * 3120)
    for count in (600, MOST_SLOTS):
        trial.reads(f"{count} slots that name headers each within the one before", [within] * (count + 3200), range(count), overlap, 4)
    trial.reads("200 long headers, each before the one of a lower number", [long] * 200, range(199, -1, -1), None, 4)
    places = list(range(MOST_SLOTS))
    trial.reads("small headers in their order", [small] * MOST_SLOTS, places, None, 2)
    draw.shuffle(places)
    trial.reads("small headers in a drawn order", [small] * MOST_SLOTS, places, None, 3)
    # the last of them is the first again, which is found once all others stand
    trial.reads("the same, and one header twice", [small] * MOST_SLOTS, places[:-1] + places[:1], b"fault 3.13 HeadersOverlap 1 %d\n" % MOST_SLOTS, 3)


if __name__ == "__main__":
    if os.access("/proc/self/io", os.R_OK):
        goes_through(Readings, "bytes that are read", [try_readings])
    print("the bytes that are read were not counted: the system does not tell them")
