#!/usr/bin/env python3
"""Tries `board serve CONF` of the built program with callers who hold a node as long as they can: who type on when they are hung up, who take what they
are sent slowly or not at all, and who send Telnet's Synch.

usage: attack.py PROGRAM

No try waits for minutes: a library that stands between the program and the system makes its time pass faster. It is written in C; where there is no
compiler for it, a line says so, and what wants it is not tried. So it is with the clients of Telnet that are not installed.
"""
import mmap
import os
import pty
import re
import select
import shutil
import socket
import struct
import subprocess
import threading
import time

import jam
from caller import GUARD, Caller, connected
from harness import AREAS, GREETING, NAMES, Served, goes_through, password_of, settings, users
from log import at, waits

# between the program and the system: a clock that is read, a sleep, a wait for an event or for a socket goes so many times as fast as a file of eight
# bytes says, which may change meanwhile
HASTE = r"""
#define _GNU_SOURCE
#include <errno.h>
#include <fcntl.h>
#include <poll.h>
#include <pthread.h>
#include <stdlib.h>
#include <sys/mman.h>
#include <sys/socket.h>
#include <sys/syscall.h>
#include <sys/time.h>
#include <time.h>
#include <unistd.h>
static volatile long *file;
static pthread_mutex_t lock = PTHREAD_MUTEX_INITIALIZER;
static struct { long times, real, shown; } clocks[2];
static long times(void) {
    if (file == NULL) {
        int fd = open(getenv("HASTE"), O_RDONLY);
        file = mmap(NULL, 8, PROT_READ, MAP_SHARED, fd, 0);
        close(fd);
    }
    return *file;
}
static long nanoseconds(const struct timespec *it) { return it->tv_sec * 1000000000L + it->tv_nsec; }
static struct timespec timespec(long it) { return (struct timespec){it / 1000000000L, it % 1000000000L}; }
int clock_gettime(clockid_t id, struct timespec *into) {
    if (syscall(SYS_clock_gettime, id, into) != 0) return -1;
    if (id != CLOCK_REALTIME && id != CLOCK_MONOTONIC) return 0;
    pthread_mutex_lock(&lock);
    long now = nanoseconds(into), more = times();
    if (clocks[id].times == 0) clocks[id].real = clocks[id].shown = now, clocks[id].times = more;
    long shown = clocks[id].shown + (now - clocks[id].real) * clocks[id].times;
    if (clocks[id].times != more) clocks[id].real = now, clocks[id].shown = shown, clocks[id].times = more;
    pthread_mutex_unlock(&lock);
    *into = timespec(shown);
    return 0;
}
int nanosleep(const struct timespec *asked, struct timespec *left) {
    struct timespec less = timespec(nanoseconds(asked) / times());
    return syscall(SYS_nanosleep, &less, left);
}
int poll(struct pollfd *asked, nfds_t count, int milliseconds) {
    struct timespec less = timespec(milliseconds * 1000000L / times());
    return syscall(SYS_ppoll, asked, count, milliseconds < 0 ? NULL : &less, NULL, 0);
}
int setsockopt(int fd, int level, int name, const void *value, socklen_t size) {
    struct timeval less;
    if (level == SOL_SOCKET && (name == SO_RCVTIMEO || name == SO_SNDTIMEO)) {
        const struct timeval *asked = value;
        long microseconds = (asked->tv_sec * 1000000L + asked->tv_usec) / times();
        less = (struct timeval){microseconds / 1000000L, microseconds % 1000000L};
        value = &less;
    }
    return syscall(SYS_setsockopt, fd, level, name, value, size);
}
"""
# how many times as fast the time of a board passes
FAST, FASTEST = 60, 600
# seconds: in which a piece of what is sent is taken, and in which a connection is ended
STUCK, LAST = 600, 1
# a long letter, how often it is asked for, how many bytes of it a second are taken, and for how many seconds
LETTER_BYTES, LETTERS, SLOW_BYTES, SLOW = 960_000, 10, 240, 1500
# how much the system of a caller keeps that they have not read
KEPT_BYTES = 32_768
# what a Synch is made of
IAC, MARK = b"\xff", b"\xf2"
ESCAPE, CLIENTS = b"\x1d", ("inetutils-telnet", "telnet.netkit", "telnet-ssl", "telnet")


class Attacked(Served):
    """Runs of `serve` whose time passes faster."""

    def hasty(self, times=1):
        """How a run is run whose time passes so many times as fast at first; the library is made, where it is not there yet."""
        self.pace = f"{self.folder}/pace"
        with open(self.pace, "wb") as file:
            file.write(struct.pack("q", times))
        if not os.path.exists(f"{self.folder}/haste.so"):
            with open(f"{self.folder}/haste.c", "w") as file:
                file.write(HASTE)
            subprocess.run(["cc", "-O2", "-shared", "-fPIC", "-o", f"{self.folder}/haste.so", f"{self.folder}/haste.c"], check=True)
        return {"env": {"LD_PRELOAD": f"{self.folder}/haste.so", "HASTE": self.pace}}

    def hastens(self, times):
        """Lets the time of the run pass so many times as fast from now on."""
        with open(self.pace, "r+b") as file, mmap.mmap(file.fileno(), 8) as shown:
            shown[:] = struct.pack("q", times)

    def serves(self, nodes=1, run=None, **numbers):
        """A run over three empty bases."""
        self.has_bases()
        self.has_settings(settings(AREAS, users(), port=self.port, nodes=nodes, **numbers))
        self.begins(nodes=nodes, **(run or {}))


def dribbles(line, seconds, byte=b"x"):
    """Sends a byte now and then, in a thread of its own, as long as it is taken."""
    def send():
        try:
            while True:
                line.send(byte)
                time.sleep(seconds)
        except OSError:
            pass
    thread = threading.Thread(target=send, daemon=True)
    thread.start()
    return thread


def told_end(trial, side, wanted):
    """Looks whether the last that is told of this caller fits this."""
    waits(lambda: any(side + b"ended after " in line for line in trial.told))
    found = [line for line in trial.told if side + b"ended after " in line]
    return trial.holds(f"what is told of its end: {found}, where {wanted} is wanted", found and re.search(wanted, found[-1]))


def try_hanging_up(trial):
    """Who types on when they are hung up holds the node for a second."""
    for what, every in (("a byte now and then", 0.8), ("as much as is taken", 0)):
        trial.serves()
        caller = trial.user(0)
        caller.types(b"q\n")
        caller.reads(b"Goodbye.\r\n")
        begun = time.monotonic()
        dribbles(caller.line, every, b"x" if every else bytes(65536))
        trial.caller("who comes next").reads(GREETING)
        passed = time.monotonic() - begun
        trial.holds(f"one who types {what} behind the end: the next one waited {passed:.2f} s, where {LAST} is the most", passed < LAST + 2)
        caller.line.close()
        trial.is_ended("callers who type on")


def asks_letters(trial, what):
    """One who is logged in at a board with a long letter, and asks for it so often that the system does not keep all of it on the way. Their own system
    keeps little: one that keeps much says that there is room again only behind a good part of that."""
    base = jam.one_message()
    base.slots[0].text = b"x" * LETTER_BYTES
    jam.write_only(trial.areas, large=base)
    trial.has_settings(settings(("large",), users(), port=trial.port, nodes=1))
    trial.begins(areas=("large",), nodes=1, **trial.hasty(FAST))
    caller = trial.caller(what)
    caller.line.setsockopt(socket.SOL_SOCKET, socket.SO_RCVBUF, KEPT_BYTES)
    caller.logs_in(NAMES[0], password_of(NAMES[0]))
    caller.enters(b"1", b"[large] ")
    caller.types(b"1\n" * LETTERS)
    return caller


def try_slow(trial):
    """One who takes long letters at 240 bytes a second is sent all of them, and one who takes nothing is hung up, and not before ten minutes."""
    caller = asks_letters(trial, "one who reads slowly")
    begun, found, part = time.monotonic(), 0, b" "
    try:
        while found < LETTERS * LETTER_BYTES and part:
            passed = (time.monotonic() - begun) * FAST
            if passed < SLOW:
                time.sleep(0.01)
            part = caller.line.recv(max(1, int(passed * SLOW_BYTES) - found) if passed < SLOW else 65536)
            found += len(part)
    except (ConnectionError, TimeoutError) as fault:
        print(f"one who reads slowly: {fault}")
    trial.holds(f"one who reads slowly: {found} bytes came, where {LETTERS * LETTER_BYTES} are wanted", found >= LETTERS * LETTER_BYTES)
    trial.is_gone()
    caller.line.close()
    caller = asks_letters(trial, "one who reads nothing")
    side = at(caller)
    time.sleep(0.9 * STUCK / FAST)
    trial.holds("one who reads nothing is hung up too soon", not any(side + b"ended after " in line for line in trial.told))
    trial.hastens(FASTEST)
    told_end(trial, side, rb"ended after \d+ s: the line broke, %s\n" % NAMES[0])
    caller.line.close()
    trial.is_gone()


def try_synch(trial):
    """A Synch whose IAC is the urgent byte and whose mark comes behind it, as GNU's telnet sends it, takes nothing of a name."""
    trial.serves()
    name = NAMES[0]
    ways = {"at the beginning": ((IAC,), MARK + name), "at once": (name[:2], (IAC,), MARK + name[2:]), "byte by byte": (name[:1], 0.2, (IAC,), 0.2, MARK, 0.2, name[1:]),
            "at the end": (name, (IAC,), MARK), "twice": ((IAC,), MARK, 0.2, name[:1], (IAC,), MARK, name[1:]), "twice at once": ((IAC,), MARK, (IAC,), MARK, name),
            "behind an interrupt": (name[:1] + b"\xff\xf4", (IAC,), MARK, name[1:]), "with its mark as urgent": (name[:1] + IAC, (MARK,), name[1:])}
    for what, parts in ways.items():
        caller = trial.caller(f"a caller, {what}")
        caller.reads(GREETING)
        for part in parts:
            if isinstance(part, float):
                time.sleep(part)
            else:
                caller.line.send(part[0] if isinstance(part, tuple) else part, socket.MSG_OOB if isinstance(part, tuple) else 0)
        caller.line.send(b"\r\n")
        trial.is_so(f"a Synch {what}: what is asked then", caller.reads_to(b": "), b"Password")
        found = caller.enters(password_of(name), b"> ")
        trial.is_so(f"a Synch {what}: the log-in", found, b"Welcome, %s.\r\nTop" % name)
        caller.line.close()
    trial.is_ended("callers who synchronize")


def shows(side, wanted):
    """What a client on a terminal shows, up to this."""
    end, seen = time.monotonic() + GUARD, b""
    while wanted not in seen and select.select([side], [], [], max(0, end - time.monotonic()))[0]:
        try:
            seen += os.read(side, 4096)
        except OSError:
            break
    return seen


def try_clients(trial):
    """Each client of Telnet that is installed sends a Synch in the middle of a name, and logs in."""
    found = {os.path.realpath(path): name for name in CLIENTS if (path := shutil.which(name))}
    if not found:
        print("a Synch by a client was not tried: no client of Telnet is installed")
        return
    trial.serves()
    Caller(connected(trial.port)).reads(GREETING)
    name = NAMES[0]
    for path in found:
        side, other = pty.openpty()
        client = subprocess.Popen([path, "127.0.0.1", str(trial.port)], stdin=other, stdout=other, stderr=other, start_new_session=True)
        os.close(other)
        shows(side, b"Name: ")
        os.write(side, name[:2])
        shows(side, name[:2])
        os.write(side, ESCAPE)
        shows(side, b"telnet> ")
        os.write(side, b"send synch\r")
        time.sleep(0.3)
        os.write(side, name[2:] + b"\r")
        shows(side, b"Password: ")
        os.write(side, password_of(name) + b"\r")
        seen = shows(side, b"Top> ")
        trial.holds(f"a Synch by {os.path.basename(path)}: {seen}", b"Welcome, %s." % name in seen)
        client.kill()
        client.wait()
        os.close(side)
    print(f"a Synch was sent by {', '.join(map(os.path.basename, found))}")
    trial.is_ended("clients who synchronize")


if __name__ == "__main__":
    hasty = (try_slow,)
    if shutil.which("cc") is None:
        print(f"{len(hasty)} tries of callers who are slow were left out: there is no C compiler for a library that makes time pass faster")
        hasty = ()
    goes_through(Attacked, "callers who hold a node", (*hasty, try_hanging_up, try_synch, try_clients))
