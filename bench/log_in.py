#!/usr/bin/env python3
"""Measures refused log-ins at a port of the built program: how many one caller makes a second, and whether the time of a refusal tells if
there is a user of the name.

usage: log_in.py PROGRAM [TRIES]

Names of users, names of nobody that begin as all users' names do, and other names of nobody, of one length, are tried in a drawn order with a
password of the longest line, three in each call. The time is that from the password's line to its answer, here on one machine; a network adds
noise of its own. Told are the medians, and in how many blocks of 100 tries that of a user's name was the greater; for chance, the same of
two halves of nobody's names.
"""
import hashlib
import os
import random
import shutil
import signal
import statistics
import subprocess
import sys
import tempfile
import time

TOP = os.path.dirname(os.path.dirname(os.path.realpath(__file__)))
sys.path.insert(0, f"{TOP}/tests")
from caller import BARE, Caller, connected  # noqa: E402
from harness import free_port  # noqa: E402

START = """name = "Bench"
address = "2:5020/1042"
port = {port}
nodes = 1
pack_minutes = 0
[[area]]
name = "general"
dir = "."
base = "general"
"""
USER = """[[user]]
name = "User {n:04}"
id = {n}
level = 50
salt = "{n:016x}"
digest = "{digest}"
"""
BLOCK = 100
PASSWORD = b"x" * 78


def begins(program, folder, users):
    """A board with so many users and one area."""
    port, digest = free_port(), hashlib.sha256(b"").hexdigest()
    with open(f"{folder}/board.toml", "w") as file:
        file.write(START.format(port=port) + "".join(USER.format(n=n, digest=digest) for n in range(1, users + 1)))
    subprocess.run([program, "make", ".", "general"], cwd=folder, check=False)
    child = subprocess.Popen([program, "serve", "board.toml"], cwd=folder)
    connected(port, is_going=lambda: child.poll() is None).close()
    return port, child


def refusals(port, names):
    """Three log-ins of one call, and how long each refusal took."""
    caller, took = Caller(connected(port), BARE), []
    caller.reads(b"Bench\r\nName: ")
    for at, name in enumerate(names):
        caller.answers(name, b"", b"Password: ")
        caller.seen = b""
        begun = time.perf_counter_ns()
        caller.line.sendall(PASSWORD + b"\n")
        caller.take()
        took.append(time.perf_counter_ns() - begun)
        caller.reads(b"Login incorrect.\r\n" + (b"Name: " if at < 2 else b"Goodbye.\r\n"))
    caller.line.close()
    return took


def measure(program, folder, users, tries):
    os.mkdir(folder)
    port, child = begins(program, folder, users)
    draw, found = random.Random(1), {"a user's": [], "nobody's that begins so": [], "nobody's": []}
    name_of = dict(zip(found, (lambda n: b"User %04d" % n, lambda n: b"User %04d" % (5000 + n), lambda n: b"Zoe  %04d" % n)))
    begun = time.perf_counter()
    for _ in range(tries // 3):
        kinds = draw.choices(list(found), k=3)
        for kind, took in zip(kinds, refusals(port, [name_of[kind](draw.randrange(1, users + 1)) for kind in kinds])):
            found[kind].append(took)
    passed = time.perf_counter() - begun
    child.send_signal(signal.SIGTERM)
    child.wait()
    known, alike, other = found.values()
    medians = ", ".join(f"{statistics.median(took) / 1000:.2f} us for {kind}" for kind, took in found.items())
    print(f"{users} users, {tries} refusals, {tries / passed:.0f} a second: {medians} name; greater than nobody's that begins so in "
          f"{greater(known, alike)}, than nobody's in {greater(known, other)}, by chance in {greater(alike[::2], alike[1::2])}", flush=True)


def greater(first, second):
    blocks = [(first[at:at + BLOCK], second[at:at + BLOCK]) for at in range(0, min(len(first), len(second)) - BLOCK + 1, BLOCK)]
    return f"{sum(statistics.median(a) > statistics.median(b) for a, b in blocks)} of {len(blocks)} blocks"


def main(program, tries):
    folder, program = tempfile.mkdtemp(), os.path.realpath(program)
    try:
        for users in (1, 1024):
            measure(program, f"{folder}/{users}", users, tries)
    finally:
        shutil.rmtree(folder)


if __name__ == "__main__":
    if len(sys.argv) not in (2, 3) or not sys.argv[-1].isdigit() and len(sys.argv) == 3:
        sys.exit(__doc__)
    main(sys.argv[1], int(sys.argv[2]) if len(sys.argv) == 3 else 12_000)
