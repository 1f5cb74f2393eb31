#!/usr/bin/env python3
"""Measures the built program against CrashMail II (Debian's package `crashmail`), which tosses packets into JAM bases, where both do the same work:
posting so many messages, and linking them.

usage: crashmail.py PROGRAM [DIR]

Each message has a MSGID and a text of 497 bytes; of those that CrashMail tosses, all from one packet, every third answers another. The board's are
typed by one caller at the console, who waits for no answer. CrashMail links as it tosses, so its linking is what that takes longer; the board links what CrashMail
tossed without it. How many replies are linked then is told of both. CrashMail syncs nothing, and a run of it that is stopped leaves what it
leaves. The files lie in DIR, or where temporary files do.
"""
import hashlib
import os
import shutil
import struct
import subprocess
import sys
import tempfile
import time

COUNTS, RUNS = (500, 1_000, 2_000), 3
NODE = "2:200/207.6"
PREFS = """SYSOP "Sysop"
LOGFILE "{folder}/log"
LOGLEVEL 1
DUPEFILE "{folder}/dupes" 200
DUPEMODE IGNORE
INBOUND "{folder}/in"
OUTBOUND "{folder}/out"
TEMPDIR "{folder}/out"
CREATEPKTDIR "{folder}/out"
PACKETDIR "{folder}/out"
STATSFILE "{folder}/stats"
AKA {node}
{link}
AREA "GENERAL" {node} JAM "{folder}/areas/general"
"""
SETTINGS = """name = "Bench"
address = "2:5020/1042"
port = 2323
nodes = 1
pack_minutes = 0
[[area]]
name = "general"
dir = "areas"
base = "general"
slots = 65000
[[user]]
name = "Caller"
id = 1
level = 255
digest = "{digest}"
"""
TEXT = b"x" * 70


def answered(n):
    return n - 1 - n % 100 if n % 3 == 0 and n > 101 else 0


def packet(count):
    """A packet of type 2 with so many messages of the area."""
    parts = [struct.pack("<12H", 207, 207, 2026, 0, 1, 0, 0, 0, 0, 2, 200, 200) + bytes(34)]
    for n in range(1, count + 1):
        reply = b"\1REPLY: 2:200/207.6 %08x\r" % answered(n) if answered(n) else b""
        text = b"AREA:GENERAL\r\1MSGID: 2:200/207.6 %08x\r" % n + reply + (TEXT + b"\r") * 7 + b"SEEN-BY: 200/207\r\1PATH: 200/207\r"
        parts.append(struct.pack("<7H", 2, 207, 207, 200, 200, 0, 0) + b"01 Jan 26  12:00:00\0All\0Caller\0A post of the bench\0" + text + b"\0")
    return b"".join([*parts, b"\0\0"])


def timed(words, folder, **more):
    begun = time.perf_counter()
    subprocess.run(words, cwd=folder, stdout=subprocess.DEVNULL, stderr=subprocess.DEVNULL, check=True, **more)
    return time.perf_counter() - begun


def fresh(folder):
    shutil.rmtree(f"{folder}/areas", ignore_errors=True)
    os.mkdir(f"{folder}/areas")


def tosses(folder, count, is_linking):
    """How long CrashMail takes to toss so many messages."""
    fresh(folder)
    with open(f"{folder}/prefs", "w") as file:
        file.write(PREFS.format(folder=folder, node=NODE, link="JAM_LINK" if is_linking else ""))
    with open(f"{folder}/00000001.pkt", "wb") as file:
        file.write(packet(count))
    took = timed(["crashmail", "SETTINGS", f"{folder}/prefs", "TOSSFILE", f"{folder}/00000001.pkt", "NOSECURITY"], folder)
    if os.path.getsize(f"{folder}/areas/general.jdx") != 8 * count:
        sys.exit("crashmail tossed other messages than these")
    return took


def typed(count):
    """What a caller types who posts so many messages."""
    post = b"p\nAll\nA post of the bench\nn\n" + (TEXT + b"\n") * 7 + b".\n"
    return b"Caller\nword\n1\n" + post * count + b"q\nq\n"


def posts(program, folder, count):
    """How long the board takes to answer as many posts."""
    fresh(folder)
    subprocess.run([program, "make", "areas", "general"], cwd=folder, check=True)
    return timed([program, "local", "board.toml"], folder, input=typed(count))


def linked(folder):
    """How many messages of the base name one that they answer."""
    with open(f"{folder}/areas/general.jdx", "rb") as index, open(f"{folder}/areas/general.jhr", "rb") as headers:
        places, data = [at for _, at in struct.iter_unpack("<II", index.read())], headers.read()
    return sum(struct.unpack_from("<I", data, at + 24)[0] != 0 for at in places)


def on_copy(folder, words):
    """How long this takes on a fresh copy of the base that was tossed."""
    shutil.rmtree(f"{folder}/areas")
    shutil.copytree(f"{folder}/kept", f"{folder}/areas")
    os.sync()
    return timed(words, folder)


def measure(program, folder, count):
    posted = min(posts(program, folder, count) for _ in range(RUNS))
    plain = min(tosses(folder, count, False) for _ in range(RUNS))
    shutil.rmtree(f"{folder}/kept", ignore_errors=True)
    shutil.copytree(f"{folder}/areas", f"{folder}/kept")
    relinked = min(on_copy(folder, [program, "relink", "areas", "general"]) for _ in range(RUNS))
    ours = linked(folder)
    # this takes more than the square of the messages in CrashMail
    both = tosses(folder, count, True)
    print(f"{count} messages: posted in {posted * 1e3:.0f} ms, by CrashMail in {plain * 1e3:.0f} ms; linked in {relinked * 1e3:.0f} ms, {ours} replies, "
          f"by CrashMail in {(both - plain) * 1e3:.0f} ms, {linked(folder)}", flush=True)


def main(program, above=None):
    if not shutil.which("crashmail"):
        sys.exit("crashmail is not installed")
    folder, program = tempfile.mkdtemp(dir=above), os.path.realpath(program)
    try:
        for name in ("in", "out"):
            os.mkdir(f"{folder}/{name}")
        with open(f"{folder}/board.toml", "w") as file:
            file.write(SETTINGS.format(digest=hashlib.sha256(b"word").hexdigest()))
        for count in COUNTS:
            measure(program, folder, count)
    finally:
        shutil.rmtree(folder)


if __name__ == "__main__":
    if len(sys.argv) not in (2, 3):
        sys.exit(__doc__)
    main(*sys.argv[1:])
