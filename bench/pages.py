#!/usr/bin/env python3
"""Measures how long a page is on its way at `board serve` of the built program: from the end of its text to `Sent.`, and from `G` to the page, each
against a line of as many bytes that `cat` sends back through a socket, in turns.

usage: pages.py PROGRAM [DIR]

Two callers of a board of 32 nodes do so with nobody beside them, then beside 30 callers who post without a pause, each of them a process of its own,
and beside a sysop who packs an area of 60,000 messages with 61 MB of texts again and again. The files lie in DIR, or where temporary files do.
"""
import os
import re
import shutil
import socket
import statistics
import subprocess
import sys
import tempfile
import time

from packing import COUNT, TIMES, packs_often
from server import COUNTS, SECONDS, Server, beside, measure, posts

TEXT, TOP = b"a page of the bench, as long as some are", b"Top> "
# the callers who post, and the seconds in which they have logged in
POSTERS, LOGGING_IN = max(COUNTS) - 2, 1


class Echo:
    """A socket whose other end `cat` sends everything back through."""

    def __init__(self):
        with socket.create_server(("127.0.0.1", 0)) as door:
            self.line = socket.create_connection(door.getsockname())
            side, _ = door.accept()
        for it in (self.line, side):
            it.setsockopt(socket.IPPROTO_TCP, socket.TCP_NODELAY, 1)
        with side:
            self.child = subprocess.Popen(["cat"], stdin=side, stdout=side)

    def sends(self, line):
        self.line.sendall(line)
        left = len(line)
        while left:
            left -= len(self.line.recv(left))

    def ends(self):
        self.line.close()
        self.child.wait()


def node_of(caller):
    """The node of a caller, who sends a page to each: the one that comes back names it."""
    for node in range(1, max(COUNTS) + 1):
        caller.types(b"s %d\nwho is there?\n" % node)
    caller.types(b"g\nq?\n")
    found = re.search(rb"Page from node (\d+): ", caller.reads_to(b"Unknown command.\r\n" + TOP))
    return int(found[1])


def timed(does):
    begun = time.perf_counter()
    found = does()
    return time.perf_counter() - begun, found


def asks(caller, line):
    caller.types(line)
    return caller.reads_to(TOP)


def goes_on(one, two, node, echo, is_going):
    """Sends and reads a page again and again, and gives how long each took, and a line through `cat`."""
    sent, read, echoed = [], [], []
    while is_going():
        one.types(b"s %d\n" % node)
        one.reads_to(b"Page: ")
        for took, (long, found), wanted in ((sent, timed(lambda: asks(one, TEXT + b"\n")), b"Sent.\r\n"),
                                            (read, timed(lambda: asks(two, b"g\n")), TEXT + b"\r\n")):
            if not found.endswith(wanted):
                sys.exit(f"{found} came, where {wanted} is wanted")
            took.append(long)
        echoed.append(timed(lambda: echo.sends(TEXT + b"\n"))[0])
        time.sleep(0.001)
    return sent, read, echoed


def tell(what, sent, read, echoed):
    other, longest = statistics.median(echoed), max(echoed)
    parts = []
    for which, took in (("sent", sent), ("read", read)):
        middle, most = statistics.median(took), max(took)
        parts.append(f"{which} in {middle * 1e6:.0f} us ({middle / other:.2f}), the longest {most * 1e3:.2f} ms ({most / longest:.1f})")
    print(f"{len(sent)} pages {what}, against a line through `cat`, {other * 1e6:.0f} us, the longest {longest * 1e3:.2f} ms: {'; '.join(parts)}", flush=True)


def while_going(child):
    return lambda: os.waitpid(child, os.WNOHANG) == (0, 0)


def main(program, above=None):
    folder, program = tempfile.mkdtemp(dir=above), os.path.realpath(program)
    try:
        run, echo = Server(program, folder, large=COUNT, times=TIMES), Echo()
        one, two = run.caller(1, b""), run.caller(2, b"")
        node = node_of(two)
        end = time.monotonic() + SECONDS
        tell("with nobody beside them", *goes_on(one, two, node, echo, lambda: time.monotonic() < end))
        child = beside(lambda: measure(run, POSTERS, posts, 2 * SECONDS + LOGGING_IN))
        time.sleep(LOGGING_IN)
        tell(f"beside {POSTERS} callers who post", *goes_on(one, two, node, echo, while_going(child)))
        sysop = run.caller(3, b"large")
        child = beside(lambda: packs_often(sysop))
        tell("beside packs of 61 MB of texts", *goes_on(one, two, node, echo, while_going(child)))
        echo.ends()
        run.ends()
    finally:
        shutil.rmtree(folder)


if __name__ == "__main__":
    if len(sys.argv) not in (2, 3):
        sys.exit(__doc__)
    main(*sys.argv[1:])
