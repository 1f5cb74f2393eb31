#!/usr/bin/env python3
"""Measures a session of the built program, `board local`: the bytes that it sends against `cat` of the same bytes, and one post of a caller against
the same calls on bare files.

usage: session.py PROGRAM [DIR]

The base has 60 messages. In each of fifteen turns a caller asks for a list of twenty a thousand times, a caller asks for none, and `cat` gives
out what the first was sent; the figures are the least processor times. The same with readings of a message of 16,000 bytes. Then a caller posts two hundred times a text of 497 bytes in one session,
each time when the answer to the last post is there, and the same writes, changes of length and syncs that one post makes are made as often
to bare files in the same folder: the figures are the times of one, the least of five turns. Which calls they are is seen by strace, where that is
there. The files lie in DIR, or where temporary files do.
"""
import hashlib
import os
import re
import shutil
import subprocess
import sys
import tempfile
import time

import make_base

LOOKS, POSTS, TEXT_LINES = 1000, 200, 7
SETTINGS = """name = "Bench"
address = "2:5020/1042"
[[area]]
name = "general"
dir = "areas"
base = "general"
[[user]]
name = "Ada"
id = 1
level = 255
digest = "{}"
"""
ENTER = ["Ada", "word", "1"]
POST = ["P", "Grace", "A post of the bench", "N", *["x" * 70] * TEXT_LINES, "."]
SEEN = re.compile(r"(?:\[pid +)?(?:\d+\]? +)?(\w+)\((\d+)(?:.*?(\d+))?(?:, (\d+))?\) += (\d+)$")


def typed(words):
    return "".join(word + "\r\n" for word in words).encode()


def has_base(folder, times=1):
    """The settings, and a fresh base, whose texts are so many times as long, written through to the disk."""
    shutil.rmtree(f"{folder}/areas", ignore_errors=True)
    os.mkdir(f"{folder}/areas")
    make_base.write(f"{folder}/areas", "general", 60, False, times)
    with open(f"{folder}/board.toml", "w") as file:
        file.write(SETTINGS.format(hashlib.sha256(b"word").hexdigest()))
    os.sync()


def spent(words, folder, given, to):
    """The processor time of one run, in seconds."""
    with open(given, "rb") as source, open(to, "wb") as sink:
        child = subprocess.Popen(words, cwd=folder, stdin=source, stdout=sink)
    _, status, usage = os.wait4(child.pid, 0)
    if status:
        sys.exit(f"{words} ended with {status}")
    return usage.ru_utime + usage.ru_stime


def measure_looks(program, folder, name, word, times):
    has_base(folder, times)
    for file_name, count in (("looks", LOOKS), ("none", 0)):
        with open(f"{folder}/{file_name}", "wb") as file:
            file.write(typed(ENTER + [word] * count + ["Q"]))
    session, sent = [program, "local", "board.toml"], f"{folder}/sent"
    spent(session, folder, f"{folder}/looks", sent)
    runs = {"looks": (session, f"{folder}/looks"), "none": (session, f"{folder}/none"), "cat": (["cat", sent], os.devnull)}
    least = {run: [] for run in runs}
    for _ in range(15):
        for run, (words, given) in runs.items():
            least[run].append(spent(words, folder, given, os.devnull))
    looks, none, cat = (min(least[run]) for run in ("looks", "none", "cat"))
    length = os.path.getsize(sent)
    print(f"{LOOKS} {name}: {length} bytes sent in {looks * 1000:.1f} ms, {length / looks / 1e6:.1f} MB/s; "
          f"{none * 1000:.1f} ms of them without; {(looks - none) / length * 1e9:.1f} ns a byte; "
          f"cat {cat * 1000:.1f} ms, the session {looks / cat:.1f} times that", flush=True)


class Caller:
    """A session over pipes."""

    def __init__(self, words, folder):
        self.process = subprocess.Popen(words, cwd=folder, stdin=subprocess.PIPE, stdout=subprocess.PIPE, bufsize=0)
        self.waits_for(b"Name: ")
        self.asks(ENTER, b"[general] ")

    def waits_for(self, end):
        seen = b""
        while not seen.endswith(end):
            more = self.process.stdout.read(65536)
            if not more:
                sys.exit(f"the session ended behind {seen[-200:]}")
            seen += more
        return seen

    def asks(self, words, end):
        self.process.stdin.write(typed(words))
        return self.waits_for(end)

    def posts(self, number):
        if b"Posted as %d." % number not in self.asks(POST, b"[general] "):
            sys.exit(f"post {number} was refused")

    def leaves(self):
        self.process.stdin.close()
        self.process.stdout.read()
        self.process.stdout.close()
        if self.process.wait():
            sys.exit("the session failed")


def calls_of_a_post(program, folder):
    """The calls on files by the second of two posts: the name, the file's number, how many bytes, and where."""
    log = f"{folder}/calls"
    has_base(folder)
    caller = Caller(["strace", "-f", "-s", "0", "-o", log, program, "local", "board.toml"], folder)
    caller.posts(61)
    with open(log) as file:
        begun = len(file.read())
    caller.posts(62)
    with open(log) as file:
        found = [SEEN.match(line) for line in file.read()[begun:].splitlines()]
    caller.leaves()
    calls = [call.groups() for call in found if call and int(call[2]) > 2]
    strange = sorted({call[0] for call in calls} - {"ftruncate", "pwrite64", "fsync"})
    if strange or not calls:
        sys.exit(f"calls that are not known: {strange}")
    return [(name, int(file), int(size or 0), int(at or 0)) for name, file, size, at, _ in calls]


def measure_bare(folder, calls):
    """The time of these calls on bare files, each as long as it has to be; what grows, grows from one to the next."""
    files = {number: os.open(f"{folder}/bare{number}", os.O_RDWR | os.O_CREAT | os.O_TRUNC) for number in {call[1] for call in calls}}
    lengths = {number: size for name, number, size, _ in calls if name == "ftruncate"}
    ends = {number: size for name, number, size, at in calls if name == "pwrite64" and at + size == lengths.get(number)}
    grown = {number: ends.get(number, 0) for number in files}
    journal = calls[0][1]
    for number in files:
        os.ftruncate(files[number], lengths.get(number, 0))
        os.fsync(files[number])
    begun = time.perf_counter()
    for n in range(POSTS):
        for name, number, size, at in calls:
            more = 0 if number == journal else n * grown[number]
            if name == "ftruncate":
                os.ftruncate(files[number], size + more)
            elif name == "pwrite64":
                os.pwrite(files[number], bytes(size), at + more if at + size == lengths.get(number) else at)
            else:
                os.fsync(files[number])
    took = (time.perf_counter() - begun) / POSTS
    for number in files:
        os.close(files[number])
    return took


def measure_posts(program, folder):
    calls = calls_of_a_post(program, folder) if shutil.which("strace") else []
    posts, idle, bare = [], [], []
    for _ in range(5):
        has_base(folder)
        caller = Caller([program, "local", "board.toml"], folder)
        begun = time.perf_counter()
        for n in range(POSTS):
            caller.posts(61 + n)
        posts.append((time.perf_counter() - begun) / POSTS)
        begun = time.perf_counter()
        for n in range(POSTS):
            caller.asks(["?"], b"[general] ")
        idle.append((time.perf_counter() - begun) / POSTS)
        caller.leaves()
        if calls:
            bare.append(measure_bare(folder, calls))
    line = (f"a post of {71 * TEXT_LINES} bytes by a caller: {min(posts) * 1e6:.0f} us, "
            f"a command that asks nothing of the area {min(idle) * 1e6:.0f} us")
    if calls:
        counted = ", ".join(f"{sum(call[0] == name for call in calls)} {name}" for name in ("pwrite64", "ftruncate", "fsync"))
        line += (f"; {len(calls)} calls on files ({counted}); the same calls on bare files {min(bare) * 1e6:.0f} us, "
                 f"the post {min(posts) / min(bare):.2f} times that")
    print(line)


def main(program, above=None):
    folder = tempfile.mkdtemp(dir=above)
    try:
        measure_looks(os.path.realpath(program), folder, "lists of twenty", "L", 1)
        measure_looks(os.path.realpath(program), folder, "readings of 16,000 bytes", "40", 100)
        measure_posts(os.path.realpath(program), folder)
    finally:
        shutil.rmtree(folder)


if __name__ == "__main__":
    if len(sys.argv) not in (2, 3):
        sys.exit(__doc__)
    main(*sys.argv[1:])
