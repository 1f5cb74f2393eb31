#!/usr/bin/env python3
"""Measures backups by the built program of an area of 60,000 messages with 61 MB of texts, of which every tenth is killed: by the tool, against a copy
of the four files, each synced, in turns, and how many bytes it writes; and beside 32 callers who post in the area, with how long their posts take
before, beside the pack that comes first, and beside the backup.

usage: backup.py PROGRAM [DIR]

The first ring of a served board comes after a minute, so that callers post before. Bytes are counted by strace, where that is there. The files lie in
DIR, or where temporary files do.
"""
import json
import mmap
import os
import re
import shutil
import statistics
import subprocess
import sys
import tempfile
import threading
import time

import make_base
from packing import COUNT, FILES, RUNS, TIMES, copies
from server import COUNTS, POST, SETTINGS, Server, beside, ended

PROMPT, CALLERS = b"[large] ", max(COUNTS)
# the one area is packed and backed up each minute: callers begin to post so many seconds before, and pause so long between two posts
MINUTE, BEFORE, PAUSE = 60, 5, 0.02
# the board with the large area alone, which takes more posts than the others of the bench
ONE_AREA = re.sub(r"(?s)\[\[area\]\]\nname = \"general\".*?(?=\[\[area\]\])", "", SETTINGS).replace("pack_minutes = 0", "pack_minutes = 1") \
    .replace("slots = 65000", "slots = 1000000")
# the seconds in which the lines of a backup have to be told
MOST_SECONDS = 180


def has_target(folder):
    shutil.rmtree(f"{folder}/backup", ignore_errors=True)
    os.mkdir(f"{folder}/backup")
    os.sync()


def backs_up(program, folder, before=()):
    """How long the tool takes."""
    has_target(folder)
    begun = time.perf_counter()
    subprocess.run([*before, program, "backup", folder, "base", f"{folder}/backup"], stdout=subprocess.DEVNULL, check=True)
    return time.perf_counter() - begun


def size(folder):
    return sum(os.path.getsize(f"{folder}/base.{ending}") for ending in FILES)


def bytes_written(program, folder):
    """How many bytes the tool writes into the files of the backup."""
    names = [word for ending in FILES for word in ("-P", f"{folder}/backup/base.{ending}")]
    backs_up(program, folder, ("strace", "-f", *names, "-e", "trace=pwrite64", "-s", "0", "-o", f"{folder}/trace"))
    with open(f"{folder}/trace") as file:
        return sum(int(found[1]) for found in re.finditer(r"pwrite64\(.* = (\d+)\n", file.read()))


def measure_tool(program, folder):
    make_base.write(folder, "base", COUNT, True, TIMES)
    copied, made = [], []
    for _ in range(RUNS):
        copied.append(copies(folder))
        made.append(backs_up(program, folder))
    line = f"the tool: {min(made) * 1e3:.0f} ms, {min(made) / min(copied):.2f} times a copy with its syncs, {min(copied) * 1e3:.0f} ms"
    if shutil.which("strace"):
        written = bytes_written(program, folder)
        line += f"; it writes {written} bytes, {written / size(folder):.6f} times those of the base"
    print(line, flush=True)


def posts_on(server, n, flag, path):
    """Posts until the flag is set, and writes down when each post was begun and how long it took."""
    caller = server.caller(n, b"")
    caller.enters(b"1", PROMPT)
    took = []
    while not flag[0]:
        begun = time.monotonic()
        caller.types(POST)
        if b"Posted as " not in caller.reads_to(PROMPT):
            sys.exit("a post was refused")
        took.append((begun, time.monotonic() - begun))
        time.sleep(PAUSE)
    with open(path, "w") as file:
        json.dump(took, file)


def listens(pipe, moments):
    """Notes when each line of a pack or a backup came."""
    for line in pipe:
        if line.startswith(b"bell: area 1: "):
            moments.append((line[14:-1], time.monotonic()))


def moment_of(moments, text):
    """When the first line with this came, which is waited for."""
    end = time.monotonic() + MOST_SECONDS
    while time.monotonic() < end:
        for line, moment in moments:
            if line.startswith(text):
                return moment
        time.sleep(0.01)
    sys.exit(f"no line tells {text}: {moments}")


def told(took):
    return f"{statistics.median(took) * 1e6:.0f} us, the longest {max(took) * 1e3:.1f} ms"


def measure_served(program, folder):
    has_target(folder)
    begun, flag, moments = time.monotonic(), mmap.mmap(-1, 1), []
    server = Server(program, folder, large=COUNT, times=TIMES, settings=ONE_AREA, words=("--backup", "backup"), stderr=subprocess.PIPE)
    threading.Thread(target=listens, args=(server.child.stderr, moments), daemon=True).start()
    time.sleep(max(0, begun + MINUTE - BEFORE - time.monotonic()))
    first = time.monotonic()
    children = [beside(lambda n=n: posts_on(server, n, flag, f"{folder}/posts{n}")) for n in range(1, CALLERS + 1)]
    pack, packed, begins, backed_up = (moment_of(moments, it) for it in (b"pack begins", b"packed", b"backup begins", b"backed up"))
    flag[0] = 1
    ended(children)
    server.ends()
    took = []
    for n in range(1, CALLERS + 1):
        with open(f"{folder}/posts{n}") as file:
            took += json.load(file)

    def within(start, end):
        return [long for at, long in took if at < end and at + long > start]
    # one second is left for the log-ins; those that wait behind the pack are none of the backup's
    alone, packing = within(first + 1, pack), within(pack, packed)
    backing = [long for at, long in took if begins <= at < backed_up]
    print(f"{CALLERS} callers who post, each pausing {PAUSE * 1e3:.0f} ms: {told(alone)} with no backup; beside a pack of {packed - pack:.2f} s "
          f"{told(packing)}; beside a backup of {backed_up - begins:.2f} s {told(backing)}, {max(backing) / max(alone):.1f} times that with none, "
          f"of {len(backing)} posts", flush=True)


def main(program, above=None):
    folder, program = tempfile.mkdtemp(dir=above), os.path.realpath(program)
    try:
        measure_tool(program, folder)
        measure_served(program, folder)
    finally:
        shutil.rmtree(folder)


if __name__ == "__main__":
    if len(sys.argv) not in (2, 3):
        sys.exit(__doc__)
    main(*sys.argv[1:])
