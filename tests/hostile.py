#!/usr/bin/env python3
"""Tries `board serve CONF` of the built program with callers who mean harm, on a port of this machine: what one who behaves is sent meanwhile,
what the program takes of memory, and what the files then hold.

usage: hostile.py PROGRAM [--all]

All but one of the 32 nodes have callers who send drawn bytes, commands of Telnet or commands of the menus, who send as much as a session
takes, who are silent, close one half of the line or break off, or who ask on and never read. One posts and lists meanwhile in an area of
their own. Then one asks for the longest letter again and again, and one for more than there is memory for. The bytes are drawn from fixed
seeds, and with --all there are ten times as many.
"""
import errno
import os
import random
import resource
import socket
import threading
import time

import jam
from area import Area, Message
from caller import GUARD
from harness import AREAS, CALLERS, COUNT, GREETING, IDS, MOST_SESSION_BYTES, NAMES, Served, goes_through, password_of, resets, settings, together, users

NODES = 32
# the commands in what is heard at once, at most, and what is owed at most before another is done
PIECE_COMMANDS, OWED_BYTES = 2048, 65_536
# what a caller costs in memory besides, and what the program may have more or less of it by itself
CALLER_BYTES, SLACK_BYTES = 131_072, 4_194_304
OWN = AREAS[-1]
# the longest text that a base may hold
LETTER_BYTES = 1_048_576
# what the answer with it takes of memory while it is made and sent, in letters
ANSWER_LETTERS = 6


def drawn_bytes(draw, size):
    return draw.randbytes(size)


def drawn_telnet(draw, size):
    """Commands of Telnet with their options, subnegotiations that end or do not, and text between."""
    parts = [b"\xff" + bytes((draw.randrange(240, 256),)) + draw.randbytes(draw.randrange(3)) for _ in range(size // 8)]
    parts += [b"\xff\xfa" + draw.randbytes(draw.randrange(40)) + draw.choice((b"\xff\xf0", b"")) for _ in range(size // 60)]
    parts += [draw.choice((b"Ada\r\0", b"\xff\xff", b"\x08\x7f", b"q\n", b"\r\n")) for _ in range(size // 16)]
    draw.shuffle(parts)
    return b"".join(parts)


def drawn_commands(draw, size):
    """One of the users logs in, and types commands with numbers of all sizes, answers to what may be asked, and what is no command. None of the
    numbers is that of the area where nobody else posts."""
    n = draw.randrange(COUNT)
    numbers = (b"", b"0", b"1", b"2", b"7", b"20", b"4294967295", b"4294967296", b"9" * 77, b"-1", b" 5 ")
    typed = [NAMES[n], password_of(NAMES[n]), b"1"]
    while sum(map(len, typed)) < size:
        letter = draw.choice((b"a", b"b", b"g", b"k", b"l", b"m", b"n", b"p", b"r", b"s", b"t", b"x", b"y", b"z", b"", b"?", b"1", b"2", b".", b"!", b"All",
                              draw.randbytes(draw.randrange(90)).replace(b"\xff", b"")))
        typed.append(letter + draw.choice((b"", b" ")) + draw.choice(numbers))
        if letter in (b"p", b"r") and draw.randrange(2):
            typed += [b"p", draw.choice((b"All", b"Ada", b"x" * 78)), b"drawn", b"n", b"text", b"."]
    return b"".join(line + draw.choice((b"\r\n", b"\r\0", b"\n")) for line in typed if line not in (b"q", b"Q"))


class Hostile(Served):
    """Runs of `serve` with 32 nodes, and what they take of memory."""

    @property
    def times(self):
        """How often each kind of harm is done."""
        return 10 if self.option else 1

    def begins(self, *words, **run):
        """A run over empty bases, in which each node had a caller who left; what it has of memory then is what the rest is measured by."""
        self.has_bases()
        self.has_settings(settings(AREAS, users(), port=self.port, nodes=NODES))
        super().begins(*words, nodes=NODES, **run)
        for caller in together((lambda n=n: self.guest(n % COUNT)) for n in range(NODES)):
            caller.quits()
        self.before, self.own, self.since = self.of_memory(), Area(AREAS.index(OWN) + 1), int(time.time())

    def of_memory(self, name="VmHWM"):
        """The most bytes of memory that the run has had, or of addresses."""
        with open(f"/proc/{self.process.pid}/status", encoding="ascii") as file:
            return next(int(line.split()[1]) * 1024 for line in file if line.startswith(name + ":"))

    def takes_at_most(self, what, size):
        grown = self.of_memory() - self.before
        print(f"{what}: {grown // 1024} KB of memory more than 32 callers who behave, {(size + SLACK_BYTES) // 1024} KB at most")
        self.holds(f"{what}: {grown} bytes of memory more, where {size + SLACK_BYTES} are the most", grown <= size + SLACK_BYTES)

    def behaves(self, caller, is_going, least=10):
        """Posts and lists in an area where nobody else does, so often at least and while the others go on, and leaves."""
        turn = 0
        while turn < least or is_going():
            message, prompt = Message(NAMES[0], b"All", b"post %d" % turn, [b"a line"]), b"[%s] " % OWN.encode()
            number = caller.posts(message.receiver, message.subject, message.text, False, prompt)
            self.own.adds(number, message)
            caller.answers(b"l %d" % max(1, number - 2), self.own.listed(self.own.seen(CALLERS[0])[-3:]), prompt)
            turn += 1
        caller.quits()

    def ends_well(self, what):
        """Ends the run, and looks whether all bases hold together and what was posted is there."""
        for caller in together((lambda n=n: self.guest(n)) for n in range(COUNT)):
            caller.quits()
        self.is_ended(what)
        self.checks(what)
        self.own.compares(self, f"{what}, {OWN}", self.base(OWN), self.since, IDS)

    def with_others(self, what, does):
        """Does all of these at once, each in a thread, while one behaves; gives what each answers."""
        polite, done = self.guest(0, OWN), []
        threads = [threading.Thread(target=self.tells_wrong, args=(what, lambda it=it: done.append(it()))) for it in does]
        for thread in threads:
            thread.start()
        self.behaves(polite, lambda: any(thread.is_alive() for thread in threads))
        for thread in threads:
            thread.join()
        return done


def pours(line, data, draw):
    """Sends all of this in drawn pieces and reads what comes, until the board hangs up; then ends the line in a drawn way."""
    at = 0
    line.setblocking(False)
    try:
        while at < len(data):
            at += tried(lambda: line.send(data[at:at + draw.randrange(1, 3000)]), 0)
            if tried(lambda: line.recv(65536), None) == b"":
                return at
        line.settimeout(GUARD)
        end = draw.randrange(3)
        if end == 0:
            resets(line)
        elif end == 1:
            line.shutdown(socket.SHUT_WR)
            while line.recv(65536):
                pass
    except OSError as fault:
        # what the board has broken off meanwhile cannot be shut any more
        if not isinstance(fault, ConnectionError) and fault.errno != errno.ENOTCONN:
            raise
    finally:
        line.close()
    return at


def tried(does, otherwise):
    try:
        return does()
    except BlockingIOError:
        return otherwise


def try_noise(trial):
    """Drawn bytes, drawn commands of Telnet and drawn commands of the menus, by 31 at once, one after another at each node."""
    trial.begins()

    def one(seed):
        draw = random.Random(seed)
        made, size = ((drawn_bytes, 40_000), (drawn_telnet, 40_000), (drawn_commands, 3000))[seed % 3]
        for _ in range(trial.times):
            pours(trial.caller("one who sends noise").line, made(draw, size), draw)
    trial.with_others("noise", [lambda seed=seed: one(seed) for seed in range(NODES - 1)])
    trial.takes_at_most("noise", (NODES - 1) * (CALLER_BYTES + 2 * OWED_BYTES))
    trial.ends_well("noise")


def try_limit(trial):
    """As much as a session takes, of bytes that make no line, at several nodes."""
    trial.begins()
    kinds = (b"\xff\xfa" + bytes(65534), b"\0" * 65536, b"a" * 65536, b"a\x08" * 32768, b"\xff\xfd\x63" * 21845)

    def one(kind):
        line, sent = trial.caller("one who sends all that is taken").line, 0
        reader = threading.Thread(target=drains, args=(line,))
        reader.start()
        try:
            while sent <= 2 * MOST_SESSION_BYTES:
                sent += line.send(kind)
        except (ConnectionError, TimeoutError):
            pass
        reader.join(GUARD)
        line.close()
        return sent
    sent = trial.with_others("the limit", [lambda kind=kind: one(kind) for kind in kinds * min(trial.times, 5)])
    trial.holds(f"the limit: hung up when a session is spent: {sent}", all(MOST_SESSION_BYTES <= it < 2 * MOST_SESSION_BYTES for it in sent))
    trial.takes_at_most("the limit", len(sent) * CALLER_BYTES)
    trial.ends_well("the limit")


def drains(line):
    """Reads until the board hangs up, and says whether it did before nothing came for long."""
    try:
        while line.recv(65536):
            pass
    except TimeoutError:
        return False
    except OSError:
        pass
    return True


def try_half_open(trial):
    """Callers who are silent at all nodes but one, and others who wait, of whom some have closed one half, some all, some broke off."""
    trial.begins()
    silent = [trial.caller("one who says nothing") for _ in range(NODES - 1)]
    for caller in silent:
        caller.reads(GREETING)
    polite, waiting = trial.guest(0, OWN), []
    for n in range(100):
        caller = trial.caller("one who waits")
        caller.types((b"", b"Ada\n", b"\xff", b"\xff\xfa", b"Ada\nx\n" * 3)[n % 5])
        (caller.line.close, lambda it=caller: resets(it.line), lambda it=caller: it.line.shutdown(socket.SHUT_WR), lambda: None)[n % 4]()
        if n % 4 > 1:
            waiting.append(caller)
    trial.behaves(polite, lambda: False)
    for caller in silent[::2]:
        caller.line.shutdown(socket.SHUT_WR)
        trial.holds("half a line closed: hung up", drains(caller.line))
    for caller in silent + waiting:
        caller.line.close()
    trial.takes_at_most("half-open lines", NODES * CALLER_BYTES)
    trial.ends_well("half-open lines")


def try_deaf(trial):
    """Callers who ask for lists again and again and never read; a node is kept by each, and no other by them."""
    trial.begins()
    full = trial.guest(1, "general")
    for n in range(20):
        full.posts(b"All", b"s" * 72, [b"a line"])
    full.quits()
    page = 20 * (8 + 2 + 7 + 3 + 3 + 2 + 72 + 2) + 10

    def one(n):
        caller = trial.guest(1 + n % (COUNT - 1), "general")
        caller.line.setsockopt(socket.SOL_SOCKET, socket.SO_RCVBUF, 4096)
        caller.line.settimeout(1)
        try:
            while True:
                caller.line.sendall(b"l\n" * PIECE_COMMANDS)
        except OSError:
            return caller
    callers = trial.with_others("who never reads", [lambda n=n: one(n) for n in range(NODES - 1 if trial.option else 8)])
    trial.takes_at_most("who never reads", len(callers) * (CALLER_BYTES + 2 * (OWED_BYTES + page)))
    for caller in callers:
        caller.line.close()
    trial.ends_well("who never reads")


def of_large_letter(trial, **run):
    """A run over a base with one letter as long as a base may hold."""
    trial.is_gone()
    base = jam.one_message()
    base.slots[0].text = b"x" * LETTER_BYTES
    jam.write_only(trial.areas, large=base)
    trial.has_settings(settings(("large",), users(), port=trial.port, nodes=4))
    Served.begins(trial, areas=("large",), nodes=4, **run)


def try_hoarder(trial):
    """One who asks for the longest letter again and again, in one piece, costs no more than one who asks once: who reads gets all of them, and who
    does not is waited for."""
    of_large_letter(trial)
    trial.before = trial.of_memory()
    hoarder, deaf = trial.guest(0, "large", place=1), trial.guest(1, "large", place=1)
    deaf.line.setsockopt(socket.SOL_SOCKET, socket.SO_RCVBUF, 4096)
    deaf.types(b"1\n" * PIECE_COMMANDS)
    hoarder.types(b"1\n" * 100 * trial.times + b"q\n")
    size = 0
    while part := hoarder.line.recv(1 << 20):
        size += len(part)
    trial.holds(f"a hoarder is given all: {size} bytes", size > 100 * trial.times * LETTER_BYTES)
    trial.takes_at_most("a hoarder and one who does not read", 2 * ANSWER_LETTERS * LETTER_BYTES)
    deaf.line.close()
    trial.is_ended("a hoarder")


def try_no_memory(trial):
    """One who asks for more than there is memory for is hung up, and nobody else: the addresses of the program are limited to what it needs
    and some more."""
    # with one heap for all threads, else each has addresses of its own in store
    heap = {"env": {**os.environ, "MALLOC_ARENA_MAX": "1"}}
    of_large_letter(trial, **heap)
    for caller in [trial.guest(n, "large", place=1) for n in range(4)]:
        caller.quits()
    most = trial.of_memory("VmPeak") + LETTER_BYTES // 2
    of_large_letter(trial, preexec_fn=lambda: resource.setrlimit(resource.RLIMIT_AS, (most, most)), **heap)
    others = together((lambda n=n: trial.guest(n, "large", place=1)) for n in range(3))
    wanting = trial.guest(3, "large", place=1)
    wanting.types(b"1\n")
    trial.holds("who wants more than there is memory for is hung up", drains(wanting.line))
    found = [caller.posts(b"All", b"post", [b"a line"], False, b"[large] ") for caller in others]
    trial.is_so("beside them the others post", found, [2, 3, 4])
    for caller in others + [trial.guest(3, "large", place=1)]:
        caller.quits()
    trial.is_ended("want of memory")


if __name__ == "__main__":
    goes_through(Hostile, "callers who mean harm", (try_noise, try_limit, try_half_open, try_deaf, try_hoarder, try_no_memory), option="--all")
