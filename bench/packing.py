#!/usr/bin/env python3
"""Measures a pack of an area of 60,000 messages with 61 MB of texts, of which every tenth is killed, by the built program: by the tool, against
`cp` of the base with a sync; and by a sysop of a served board, with how long the posts of another caller in the same area take meanwhile.

usage: packing.py PROGRAM [DIR]

The files lie in DIR, or where temporary files do.
"""
import os
import shutil
import statistics
import subprocess
import sys
import tempfile
import time

import make_base
import server
from server import POST, Server

COUNT, TIMES, RUNS, PACKS = 60_000, 6, 5, 5
FILES = ("JHR", "JDT", "JDX", "JLR")
PROMPT = b"[large] "


def copies(folder):
    """A fresh copy of the base in a folder of its own, and how long its copying and syncing took."""
    shutil.rmtree(f"{folder}/copy", ignore_errors=True)
    os.mkdir(f"{folder}/copy")
    os.sync()
    begun = time.perf_counter()
    for ending in FILES:
        with open(f"{folder}/base.{ending}", "rb") as source, open(f"{folder}/copy/base.{ending}", "wb") as target:
            shutil.copyfileobj(source, target, 1 << 20)
            target.flush()
            os.fsync(target.fileno())
    return time.perf_counter() - begun


def packs(program, folder):
    """How long the tool takes over a fresh copy."""
    begun = time.perf_counter()
    subprocess.run([program, "pack", f"{folder}/copy", "base"], stdout=subprocess.DEVNULL, check=True)
    return time.perf_counter() - begun


def measure_tool(program, folder):
    make_base.write(folder, "base", COUNT, True, TIMES)
    copied, packed = [], []
    for _ in range(RUNS):
        copied.append(copies(folder))
        packed.append(packs(program, folder))
    print(f"the tool: {min(packed) * 1e3:.0f} ms, {min(packed) / min(copied):.1f} times a copy with its syncs, {min(copied) * 1e3:.0f} ms", flush=True)


def posts(caller, is_going):
    """Posts again and again, and gives how long each post took."""
    took = []
    while is_going():
        begun = time.perf_counter()
        caller.types(POST)
        if b"Posted as " not in caller.reads_to(PROMPT):
            sys.exit("a post was refused")
        took.append(time.perf_counter() - begun)
        # an area has 65,000 slots at most
        time.sleep(0.002)
    return took


def packs_often(sysop):
    for _ in range(PACKS):
        sysop.types(b"x\n")
        if b"Packed: " not in sysop.reads_to(PROMPT):
            sys.exit("a pack was refused")
        time.sleep(0.2)


def told(took):
    return f"{statistics.median(took) * 1e6:.0f} us, the longest {max(took) * 1e3:.1f} ms"


def measure_served(program, folder):
    served = Server(program, folder, large=COUNT, times=TIMES)
    poster, sysop = served.caller(1, b"large"), served.caller(2, b"large")
    end = time.monotonic() + 1
    alone = posts(poster, lambda: time.monotonic() < end)
    child, begun = server.beside(lambda: packs_often(sysop)), time.perf_counter()
    meanwhile = posts(poster, lambda: os.waitpid(child, os.WNOHANG) == (0, 0))
    took = (time.perf_counter() - begun) / PACKS - 0.2
    served.ends()
    print(f"a sysop: {took * 1e3:.0f} ms beside the posts of another caller, of which {len(meanwhile)} were answered: {told(meanwhile)}; with no pack {told(alone)}", flush=True)


def main(program, above=None):
    folder, program = tempfile.mkdtemp(dir=above), os.path.realpath(program)
    try:
        measure_tool(program, folder)
        measure_served(program, folder)
    finally:
        shutil.rmtree(folder)


if __name__ == "__main__":
    if len(sys.argv) not in (2, 3):
        sys.exit(__doc__)
    main(*sys.argv[1:])
