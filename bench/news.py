#!/usr/bin/env python3
"""Measures the news of `board serve` of the built program: how long the overviews of 60,000 articles take, against `cat` of the same bytes through a
socket; and the posts of 31 callers and the memory of the program while they are read, against the same without a reader, and beside that `cat`.

usage: news.py PROGRAM [DIR [JAMNNTPD ..]]

The callers post in an area of 60 messages, each of them a process of its own; the articles are those of another area, of which every third answers
one and every tenth is killed. Each figure is the median of so many runs, in turns. The files lie in DIR, or where temporary files do. Behind DIR
stand the words that start JamNNTPd, where its overviews of the same base are to be timed too; of Debian's builds that of i386 reads bases rightly. It
wants its table of charsets, `-xlat FILE`, where /etc has none.
"""
import os
import shutil
import socket
import statistics
import subprocess
import sys
import tempfile
import time

import server
from server import SECONDS, Server, beside, ended, measure, posts
from caller import connected
from harness import free_port
from newsreader import NewsReader

# of so many messages so many are not killed
ARTICLES, MESSAGES, CALLERS, RUNS, OFTEN = 60_000, 66_666, 31, 5, 10
END = b"\r\n.\r\n"


class NewsServer(Server):
    """A run with news over fresh bases, and what it holds of memory."""

    def __init__(self, program, folder):
        self.news_port = free_port()
        settings = server.SETTINGS.replace("nodes = 32", f"nodes = {CALLERS}\nnews_port = {self.news_port}\nnews_level = 254").replace("65000", "70000")
        super().__init__(program, folder, large=MESSAGES, settings=settings)

    def reader(self):
        return in_group(self.news_port, b"jam.2")

    def memory(self):
        """The most bytes of memory that it has had."""
        with open(f"/proc/{self.pid}/status", encoding="ascii") as file:
            return next(int(line.split()[1]) * 1024 for line in file if line.startswith("VmHWM:"))


def in_group(port, group):
    """The connection of a reader who has chosen a group."""
    reader = NewsReader(connected(port))
    reader.reads_line()
    if not reader.asks(b"GROUP " + group)[0].startswith(b"211 "):
        sys.exit("the group is not there")
    return reader.line


def taken(line, end):
    """What comes up to this end, or up to the end of the line where that is none."""
    parts = []
    while part := line.recv(1 << 18):
        parts.append(part)
        if end and b"".join(parts[-2:]).endswith(end):
            break
    return b"".join(parts)


def timed(does):
    begun = time.perf_counter()
    found = does()
    return time.perf_counter() - begun, found


def overviews(line, asked=b"OVER 1-\r\n"):
    line.sendall(asked)
    found = taken(line, END)
    if found.count(b"\r\n") != ARTICLES + 2:
        sys.exit(f"{found[:200]} is answered")
    return found


def of_cat(path):
    """What `cat` of this file sends through a socket."""
    with socket.create_server(("127.0.0.1", 0)) as door:
        line = socket.create_connection(door.getsockname())
        side, _ = door.accept()
        with side, subprocess.Popen(["cat", path], stdout=side):
            side.close()
            return taken(line, None)


def of_rival(words, folder):
    """How long JamNNTPd takes for overviews of the same base."""
    port, base = free_port(), f"{folder}/rival/large"
    os.makedirs(f"{folder}/rival", exist_ok=True)
    for ending in ("JHR", "JDT", "JDX", "JLR"):
        os.symlink(f"{folder}/areas/large.{ending}", f"{base}.{ending.lower()}")
    for name, text in (("groups", f"large A 2:5020/1042 {base}\n"), ("allow", "127.0.0.1 * -\n"), ("users", "")):
        with open(f"{folder}/rival/{name}", "w", encoding="ascii") as file:
            file.write(text)
    settings = [it for name in ("groups", "allow", "users") for it in (f"-{name}", f"{folder}/rival/{name}")]
    with subprocess.Popen([*words, "-port", str(port), *settings, "-logfile", f"{folder}/rival/log", "-noecholog"], stdout=subprocess.DEVNULL) as run:
        try:
            line = in_group(port, b"large")
            return statistics.median(timed(lambda: overviews(line, b"XOVER 1-%d\r\n" % MESSAGES))[0] for _ in range(RUNS))
        finally:
            run.kill()


def measure_reading(program, folder, rival):
    run = NewsServer(program, folder)
    line, path = run.reader(), f"{folder}/overviews"
    with open(path, "wb") as file:
        file.write(overviews(line))
    spent, took, by_cat = run.spent(), [], []
    for _ in range(RUNS * OFTEN):
        took.append(timed(lambda: overviews(line))[0])
        by_cat.append(timed(lambda: of_cat(path))[0])
    spent = (run.spent() - spent) / len(took)
    run.ends()
    if rival:
        print(f"JamNNTPd: {of_rival(rival, folder) * 1e3:.0f} ms for the same", flush=True)
    mine, other, size = statistics.median(took), statistics.median(by_cat), os.path.getsize(path)
    print(f"overviews of {ARTICLES} articles, {size / 1e6:.1f} MB: {mine * 1e3:.0f} ms, {size / mine / 1e6:.0f} MB/s, {mine / other:.1f} times `cat` "
          f"through a socket, {other * 1e3:.1f} ms; {spent * 1e3:.0f} ms of processor time", flush=True)


def again(does, pause):
    """Does it again and again, for as long as posts are measured."""
    end = time.perf_counter() + 2 * SECONDS
    while time.perf_counter() < end:
        does()
        time.sleep(pause)


def reads_on(run, pause):
    line = run.reader()
    again(lambda: overviews(line), pause)


def measure_beside(program, folder):
    """Posts with nobody beside them, and with one who takes all overviews: once a second, without a pause, and by `cat` without a pause; in turns."""
    ways = {"alone": None, "beside a reader of all overviews once a second": lambda run: reads_on(run, 1),
            "of all without a pause": lambda run: reads_on(run, 0), "of `cat` without a pause": lambda run: again(lambda: of_cat(f"{folder}/overviews"), 0)}
    rates, sizes = {it: [] for it in ways}, {it: [] for it in ways}
    for _ in range(RUNS):
        for way, does in ways.items():
            run = NewsServer(program, folder)
            child = beside(lambda run=run, does=does: does(run)) if does else 0
            rates[way].append(measure(run, CALLERS, posts)[0])
            if child:
                ended([child])
            sizes[way].append(run.memory())
            run.ends()
    alone = statistics.median(rates["alone"])
    told = [f"{way} {statistics.median(rate):.0f} ({statistics.median(rate) / alone:.2f})" for way, rate in rates.items()]
    memory = [f"{statistics.median(size) / 1e6:.0f}" for size in sizes.values()]
    print(f"posts of {CALLERS} callers a second: {', '.join(told)}; MB of memory: {', '.join(memory)}", flush=True)


def main(program, above=None, *rival):
    folder, program = tempfile.mkdtemp(dir=above), os.path.realpath(program)
    try:
        measure_reading(program, folder, rival)
        measure_beside(program, folder)
    finally:
        shutil.rmtree(folder)


if __name__ == "__main__":
    if len(sys.argv) < 2:
        sys.exit(__doc__)
    main(*sys.argv[1:])
