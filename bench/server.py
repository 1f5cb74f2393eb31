#!/usr/bin/env python3
"""Measures `board serve` of the built program with callers at sockets of this machine: how much is served, how long the slowest answer
takes, and what processor time the server spends, against one caller; and the time from a key to its echo while another node packs.

usage: server.py PROGRAM [DIR]

Each caller is a process of its own. One, then eight, then 32 of them ask at once and again as soon as they are answered: for a list of twenty
of an area of 60 messages, for one of these messages, which is then counted as read, and for a post of 497 bytes. Then 32 are logged in and type
nothing; and where strace is there, posts go to a disk each of whose syncs takes 5 ms, so that nearly all callers wait for the turn of the
area. Then one posts again and again while none, one, eight and 31 others list, and one types keys as fast as they are sent. At last one types keys
while another packs an area of 60,000 messages again and again. The files lie in DIR, or where temporary files do.
"""
import atexit
import hashlib
import json
import os
import shutil
import signal
import socket
import statistics
import subprocess
import sys
import tempfile
import time

import make_base

TOP = os.path.dirname(os.path.dirname(os.path.realpath(__file__)))
sys.path.insert(0, f"{TOP}/tests")
from caller import BARE, PLAIN, Caller, connected  # noqa: E402

COUNTS, SECONDS = (1, 8, 32), 2.0
SETTINGS = """name = "Bench"
address = "2:5020/1042"
port = {port}
nodes = 32
pack_minutes = 0
[[area]]
name = "general"
dir = "areas"
base = "general"
slots = 65000
[[area]]
name = "large"
dir = "areas"
base = "large"
slots = 65000
"""
USER = """[[user]]
name = "Caller {n}"
id = {n}
level = 255
digest = "{digest}"
"""
POST = b"p\nAll\nA post of the bench\nn\n" + (b"x" * 70 + b"\n") * 7 + b".\n"
# a delay of each sync, in microseconds
DELAY = 5000
# seconds in which an area of 60,000 messages is opened
OPENING = 60


class Server:
    """A run of `serve` over fresh bases, with more words where they are given, and the processor time that it has spent."""

    def __init__(self, program, folder, before=(), large=0, times=1, settings=SETTINGS, words=(), stderr=subprocess.DEVNULL):
        shutil.rmtree(f"{folder}/areas", ignore_errors=True)
        os.mkdir(f"{folder}/areas")
        make_base.write(f"{folder}/areas", "general", 60, False)
        make_base.write(f"{folder}/areas", "large", large, True, times)
        with socket.socket() as held:
            held.bind(("127.0.0.1", 0))
            self.port = held.getsockname()[1]
        digest = hashlib.sha256(b"word").hexdigest()
        with open(f"{folder}/board.toml", "w") as file:
            file.write(settings.format(port=self.port) + "".join(USER.format(n=n, digest=digest) for n in range(1, max(COUNTS) + 1)))
        os.sync()
        self.child = subprocess.Popen([*before, program, "serve", "board.toml", *words], cwd=folder, stderr=stderr, start_new_session=True)
        atexit.register(self.ends)
        connected(self.port, is_going=lambda: self.child.poll() is None, limit=OPENING).close()
        self.pid = self.child.pid if not before else child_of(self.child.pid)

    def spent(self):
        """Seconds of processor time."""
        with open(f"/proc/{self.pid}/stat") as file:
            fields = file.read().rsplit(")", 1)[1].split()
        return (int(fields[11]) + int(fields[12])) / os.sysconf("SC_CLK_TCK")

    def caller(self, n, area=b"general", client=BARE):
        caller = Caller(connected(self.port), client, f"caller {n}")
        caller.logs_in(b"Caller %d" % n, b"word", b"Bench")
        if area:
            caller.enters(b"1" if area == b"general" else b"2", b"[%s] " % area)
        return caller

    def ends(self):
        if self.child.poll() is None:
            os.killpg(self.child.pid, signal.SIGKILL)
            self.child.wait()


def child_of(pid):
    with open(f"/proc/{pid}/task/{pid}/children") as file:
        return int(file.read().split()[0])


def lists(caller):
    caller.types(b"l\n")
    caller.reads_to(b"[general] ")


def reads(caller):
    caller.types(b"7\n")
    caller.reads_to(b"[general] ")


def posts(caller):
    caller.types(POST)
    if b"Posted as " not in caller.reads_to(b"[general] "):
        sys.exit("a post was refused")


def beside(does):
    """Does this in a process of its own."""
    child = os.fork()
    if child == 0:
        try:
            does()
            os._exit(0)
        except BaseException as fault:  # pylint: disable=broad-except
            print(f"a caller: {fault}", file=sys.stderr, flush=True)
            os._exit(1)
    return child


def ended(children):
    """Waits for these processes."""
    if any([os.waitpid(child, 0)[1] for child in children]):
        sys.exit("a caller failed")


def asks(server, n, act, seconds, go, told):
    """A caller who waits for the others, asks again and again, and tells how long each answer took."""
    caller = server.caller(n)
    os.write(told, b"+")
    os.read(go, 1)
    took, end = [], time.perf_counter() + seconds
    while (begun := time.perf_counter()) < end:
        act(caller)
        took.append(time.perf_counter() - begun)
    with os.fdopen(told, "w") as file:
        json.dump(took, file)


def measure(server, count, act, seconds=SECONDS):
    """How many answers a second so many callers had, the slowest, and the server's processor time an answer."""
    wait, go = os.pipe()
    tells, children = [], []
    for n in range(1, count + 1):
        heard, told = os.pipe()
        children.append(beside(lambda n=n, told=told: asks(server, n, act, seconds, wait, told)))
        os.close(told)
        tells.append(heard)
    for heard in tells:
        os.read(heard, 1)
    spent, begun = server.spent(), time.perf_counter()
    os.write(go, b"!" * count)
    took = []
    for heard in tells:
        with os.fdopen(heard) as file:
            took += json.loads(file.read() or "[]")
    passed = time.perf_counter() - begun
    spent = server.spent() - spent
    ended(children)
    os.close(wait)
    os.close(go)
    return len(took) / passed, max(took), spent / len(took)


def tell(what, figures):
    """A line of the figures for each count of callers, as ratios to one caller."""
    one = figures[COUNTS[0]]
    parts = []
    for count, (rate, slowest, spent) in figures.items():
        parts.append(f"{count}: {rate:.0f} a second ({rate / one[0]:.2f}), the slowest {slowest * 1e3:.1f} ms ({slowest / one[1]:.1f}), "
                     f"{spent * 1e6:.0f} us of processor time each ({spent / one[2]:.2f})")
    print(f"{what}: by {'; by '.join(parts)}", flush=True)


def measure_calls(program, folder, what, act, before=(), seconds=SECONDS):
    figures = {}
    for count in COUNTS:
        server = Server(program, folder, before)
        figures[count] = measure(server, count, act, seconds)
        server.ends()
    tell(what, figures)


def posts_on(caller, seconds):
    """Posts again and again for so long, and gives how long each post took. A session takes 16,777,216 bytes, so there is an end."""
    took, end = [], time.perf_counter() + seconds
    while (begun := time.perf_counter()) < end and len(took) < 30_000:
        posts(caller)
        took.append(time.perf_counter() - begun)
    return took


def measure_beside(program, folder):
    """Posts of one caller while others list the same area without a pause."""
    alone, parts = 0, []
    for count in (0, 1, 8, max(COUNTS) - 1):
        server = Server(program, folder)
        poster = server.caller(max(COUNTS))
        child = beside(lambda count=count, server=server: measure_to(f"{folder}/lists", server, count)) if count else 0
        took = posts_on(poster, SECONDS)
        middle = statistics.median(took)
        alone = alone or middle
        line = f"{count}: {middle * 1e6:.0f} us ({middle / alone:.2f}), the slowest {max(took) * 1e3:.1f} ms"
        if child:
            ended([child])
            with open(f"{folder}/lists") as file:
                rate, slowest, _ = json.load(file)
            line += f", lists {rate:.0f} a second, the slowest {slowest * 1e3:.1f} ms"
        parts.append(line)
        server.ends()
    print(f"a post while others list the same area: beside {'; beside '.join(parts)}", flush=True)


def measure_to(path, server, count):
    with open(path, "w") as file:
        json.dump(measure(server, count, lists), file)


def measure_keys(program, folder, pairs=2_000_000, at_once=1000):
    """One caller types a key and takes it back, as fast as the server takes them."""
    server = Server(program, folder)
    typist = server.caller(1, b"general", PLAIN)
    spent, begun = server.spent(), time.perf_counter()
    child = beside(lambda: typist.types(b"z\x08" * pairs))
    for _ in range(pairs // at_once):
        typist.reads(b"z\x08 \x08" * at_once)
    ended([child])
    took, spent = time.perf_counter() - begun, server.spent() - spent
    server.ends()
    print(f"{2 * pairs} keys of one caller, as fast as they are sent: {2 * pairs / took:.0f} a second, {spent / (2 * pairs) * 1e9:.0f} ns of processor time each", flush=True)


def measure_silence(program, folder):
    server = Server(program, folder)
    callers = [server.caller(n) for n in range(1, max(COUNTS) + 1)]
    spent = server.spent()
    time.sleep(5)
    print(f"{len(callers)} callers who type nothing for 5 seconds: {(server.spent() - spent) * 1e3:.0f} ms of processor time", flush=True)
    server.ends()


def echoes(caller, is_going):
    """Types a key and takes it back, again and again, and gives how long each echo took."""
    took = []
    while is_going():
        for key, echo in ((b"z", b"z"), (b"\x08", b"\x08 \x08")):
            begun = time.perf_counter()
            caller.types(key)
            caller.reads(echo)
            took.append(time.perf_counter() - begun)
        time.sleep(0.001)
    return took


def packs_often(sysop, packs):
    for turn in range(packs):
        sysop.answers(b"x", b"Packed: base 1, live 54000, dropped %d.\r\n" % (0 if turn else 6000), b"[large] ")


def measure_echoes(program, folder, packs=10):
    server = Server(program, folder, large=60_000)
    typist = server.caller(1, b"general", PLAIN)
    end = time.monotonic() + 2
    alone = echoes(typist, lambda: time.monotonic() < end)
    sysop = server.caller(2, b"large")
    child, begun = beside(lambda: packs_often(sysop, packs)), time.perf_counter()
    while_packing = echoes(typist, lambda: os.waitpid(child, os.WNOHANG) == (0, 0))
    took = (time.perf_counter() - begun) / packs
    server.ends()
    middle, slowest = (statistics.median(while_packing) / statistics.median(alone), max(while_packing) / max(alone))
    print(f"from a key to its echo: {statistics.median(alone) * 1e6:.0f} us, the slowest {max(alone) * 1e3:.2f} ms; while another node packs "
          f"60,000 messages {packs} times, {took * 1e3:.0f} ms each: {statistics.median(while_packing) * 1e6:.0f} us ({middle:.2f}), "
          f"the slowest {max(while_packing) * 1e3:.2f} ms ({slowest:.1f})", flush=True)


def main(program, above=None):
    folder, program = tempfile.mkdtemp(dir=above), os.path.realpath(program)
    try:
        measure_calls(program, folder, "lists of twenty", lists)
        measure_calls(program, folder, "reads", reads)
        measure_calls(program, folder, "posts of 497 bytes", posts)
        measure_silence(program, folder)
        measure_beside(program, folder)
        measure_keys(program, folder)
        if shutil.which("strace"):
            slow = ("strace", "-f", "--seccomp-bpf", "-e", "trace=fsync", "-e", f"inject=fsync:delay_exit={DELAY}", "-o", os.devnull)
            measure_calls(program, folder, f"posts where each sync takes {DELAY // 1000} ms more", posts, slow, 3 * SECONDS)
        measure_echoes(program, folder)
    finally:
        shutil.rmtree(folder)


if __name__ == "__main__":
    if len(sys.argv) not in (2, 3):
        sys.exit(__doc__)
    main(*sys.argv[1:])
