#!/usr/bin/env python3
"""Measures how the tools, an opening and each command of a caller grow with an area: of 65,000, 250,000 and 1,000,000 messages, of which every
third answers another, none is linked, and every tenth is killed.

usage: growth.py PROGRAM [DIR [count]]

For each size: the least processor time of five runs of `list`, `check`, `relink` and `pack`, and of a session that enters the area and leaves,
against `cat` of the three files that an opening reads, in turns; their calls of the system; the most that they hold of memory; and what the session
holds once the area is open. Then the calls of one command of a session there, of twenty alike, and at last what a post holds of memory that finds
524,288 messages, where the room for more is doubled. With `count` behind it the instructions are counted too, by callgrind. Bounds are at the
head of this script: where one is passed a line says so, and the status is 1. The files lie in DIR, or where temporary files do, and take 2 GB.
"""
import collections
import hashlib
import math
import os
import re
import shutil
import subprocess
import sys
import tempfile

import make_base
from session import ENTER, POST, SETTINGS, TEXT_LINES, Caller, typed

SIZES, SLOTS, RUNS, OFTEN = (65_000, 250_000, 1_000_000), 1_000_000, 5, 20
FILES, OPENED, WRITING = ("JHR", "JDT", "JDX", "JLR"), ("JHR", "JDX", "JLR"), ("relink", "pack")
# a session has an area that so many more can be posted in
ROOM = 1000
# bytes of memory that an open area holds of a message, both copies of its index among them
MOST_BYTES = 600
# one command costs at the largest size at most so many times what it costs at the smallest; but these walk the whole area, and a kill moves one of
# each 512 messages behind
MOST_TIMES = collections.defaultdict(lambda: 1.5, {"a list of who is written to": 24, "a thread": 24, "a kill": 6})
# messages where the room of an area is doubled
DOUBLED = 524_288
PROMPT, TOP = b"[general] ", b"Top> "


def live(n):
    """The number of a live message; each that ends in 0 is killed."""
    return n // 9 * 10 + n % 9 + 1


# what a caller types for one command, and how many prompts come then
TEXT = ["x" * 70] * TEXT_LINES + ["."]
COMMANDS = {"a list": (lambda n: ["L"], 1), "a list of who is written to": (lambda n: ["Y"], 1), "a thread": (lambda n: [f"T {live(n)}"], 1),
            "the next unread": (lambda n: ["N"], 1), "a reading": (lambda n: ["7"], 1), "a mark": (lambda n: [f"M {live(n)}"], 1),
            "a post": (lambda n: POST, 1), "a reply with a reading": (lambda n: ["7", "R", *TEXT], 2),
            "an edit": (lambda n: [f"E {live(n)}", "A subject of the bench", *TEXT], 1), "a kill": (lambda n: [f"K {live(n)}"], 1)}


class Session(Caller):
    """A session in the area, whose commands are done one by one."""

    def does(self, words, prompts=1, prompt=PROMPT):
        self.process.stdin.write(typed(words))
        seen = b""
        while seen.count(prompt) < prompts:
            more = self.process.stdout.read(65536)
            if not more:
                sys.exit(f"the session ended behind {seen[-200:]}")
            seen += more
        if b"enied" in seen or b"fault" in seen or b"full" in seen:
            sys.exit(f"{words} is refused: {seen[-200:]}")

    def each(self, size, cost):
        """What one command of each kind costs in an area of so many messages, where this gives what doing something costs. All but the last are read."""
        self.does([f"M {size - 2 * OFTEN}"])
        for name, (words, prompts) in COMMANDS.items():
            yield name, cost(lambda words=words, prompts=prompts: [self.does(words(n), prompts) for n in range(OFTEN)]) / OFTEN
        self.does([f"M {size - 2 * OFTEN}"])
        self.does(["B"], 1, TOP)
        yield "the areas", cost(lambda: [self.does(["A"], 1, TOP) for _ in range(OFTEN)]) / OFTEN


class Counting:
    """Runs under callgrind."""

    def __init__(self, folder):
        self.out = f"{folder}/counted"
        self.under = ["valgrind", "--tool=callgrind", f"--callgrind-out-file={self.out}"]

    def of_run(self, words, folder, given):
        with open(given, "rb") as source:
            run = subprocess.run([*self.under, *words], cwd=folder, stdin=source, stdout=subprocess.DEVNULL, stderr=subprocess.PIPE, text=True, check=True)
        return int(re.search(r"Collected : (\d+)", run.stderr)[1])

    def of_session(self, words, folder, size):
        session, dumps = Session([*self.under, "-q", *words], folder), 0

        def told(word):
            subprocess.run(["callgrind_control", word, str(session.process.pid)], stdout=subprocess.DEVNULL, stderr=subprocess.DEVNULL, check=True)

        def cost(does):
            nonlocal dumps
            told("--zero")
            does()
            told("--dump")
            dumps += 1
            with open(f"{self.out}.{dumps}") as file:
                return int(re.search(r"^(?:summary|totals): (\d+)", file.read(), re.M)[1])

        found = dict(session.each(size, cost))
        session.leaves()
        return found


class Calling:
    """Runs under strace."""

    def __init__(self, folder):
        self.log = f"{folder}/called"
        self.under = ["strace", "-f", "-s", "0", "-o", self.log]

    def of_run(self, words, folder, given):
        with open(given, "rb") as source:
            subprocess.run([*self.under, *words], cwd=folder, stdin=source, stdout=subprocess.DEVNULL, check=True)
        return self.names(0)

    def names(self, begin):
        with open(self.log) as file:
            file.seek(begin)
            return collections.Counter(found[1] for found in map(re.compile(r"(?:\d+ +)?(\w+)\(").match, file) if found)

    def of_session(self, words, folder, size):
        session = Session([*self.under, *words], folder)

        def cost(does):
            begin = os.path.getsize(self.log)
            does()
            return self.names(begin).total()

        found = dict(session.each(size, cost))
        session.leaves()
        return found


def spent(words, folder, given):
    """The processor time of one run, in seconds, and the most bytes of memory that it had."""
    with open(given, "rb") as source:
        child = subprocess.Popen(words, cwd=folder, stdin=source, stdout=subprocess.DEVNULL)
    _, status, usage = os.wait4(child.pid, 0)
    if status:
        sys.exit(f"{words} ended with {status}")
    return usage.ru_utime + usage.ru_stime, usage.ru_maxrss * 1024


def held(caller):
    """What a session holds of memory, and the most that it held until now, in bytes."""
    with open(f"/proc/{caller.process.pid}/status") as file:
        sizes = {name: int(size.split()[0]) * 1024 for name, _, size in (line.partition(":") for line in file) if name in ("VmRSS", "VmHWM")}
    return sizes["VmRSS"], sizes["VmHWM"]


def copies(folder, size, with_room=False):
    """A fresh copy of the base of this size, where the settings name it. Its last messages are not in the index, where there has to be room."""
    shutil.rmtree(f"{folder}/areas", ignore_errors=True)
    os.mkdir(f"{folder}/areas")
    for ending in FILES:
        shutil.copy(f"{folder}/base{size}.{ending}", f"{folder}/areas/general.{ending}")
    if with_room:
        os.truncate(f"{folder}/areas/general.JDX", 8 * min(size, SLOTS - ROOM))


class Bounds:
    """The bounds that were passed."""

    def __init__(self):
        self.passed = []

    def holds(self, what, found, most):
        """Looks whether this is at most that, and says how near it comes."""
        if found > most:
            self.passed.append(what)
        return f"{found:.2f}, {'at most' if found <= most else 'ABOVE'} {most:.2f}"


def told(numbers, form=",.0f"):
    return ", ".join(f"{one:{form}}" for one in numbers)


def of_wholes(name, bounds, costs, unit):
    """A line of what a run costs a message, against n log n."""
    first, last = SIZES[0], SIZES[-1]
    grown = costs[-1] / costs[0]
    line = bounds.holds(f"{name}: {unit}", grown, last * math.log(last) / (first * math.log(first)))
    print(f"{name}: {told([cost / size for cost, size in zip(costs, SIZES)], ',.3g')} {unit} a message; grown {line}, as n log n", flush=True)


def of_commands(bounds, each, unit):
    for name in each[0]:
        costs = [found[name] for found in each]
        line = bounds.holds(f"{name}: {unit}", costs[-1] / costs[0], MOST_TIMES[name])
        print(f"{name}: {told(costs, ',.1f')} {unit}; grown {line}", flush=True)


def measure(program, folder, is_counted):
    with open(f"{folder}/board.toml", "w") as file:
        file.write(SETTINGS.format(hashlib.sha256(b"word").hexdigest()).replace("[[user]]", f"slots = {SLOTS}\n[[user]]"))
    with open(f"{folder}/visit", "wb") as file:
        file.write(typed(ENTER + ["Q"]))
    for size in (*SIZES, DOUBLED):
        make_base.write(folder, f"base{size}", size, True)
    session, bounds = [program, "local", "board.toml"], Bounds()
    runs = {"opening": (session, f"{folder}/visit")} | {tool: ([program, tool, "areas", "general"], os.devnull) for tool in ("list", "check", *WRITING)}
    least, most, memory = {name: [] for name in [*runs, "cat"]}, {name: [] for name in runs}, []
    for size in SIZES:
        times, peaks, is_fresh = {name: [] for name in [*runs, "cat"]}, {}, False
        for _ in range(RUNS):
            for name, (words, given) in runs.items():
                if not is_fresh:
                    copies(folder, size)
                took, peaks[name] = spent(words, folder, given)
                times[name].append(took)
                is_fresh = name not in WRITING
            times["cat"].append(spent(["cat", *[f"base{size}.{ending}" for ending in OPENED]], folder, os.devnull)[0])
        for name, found in times.items():
            least[name].append(min(found))
        for name, found in peaks.items():
            most[name].append(found)
        copies(folder, size)
        caller = Session(session, folder)
        memory.append(held(caller))
        caller.leaves()
    for name in runs:
        ratios = [took / cat for took, cat in zip(least[name], least["cat"])]
        print(f"{name}: {told(ratios, '.1f')} times cat, which takes {told([cat * 1e3 for cat in least['cat']], '.1f')} ms; at most "
              f"{told([peak / 1e6 for peak in most[name]])} MB of memory", flush=True)
    for what, found in (("an open area", [now for now, _ in memory]), ("an opening, at most", [peak for _, peak in memory])):
        more = (found[-1] - found[0]) / (SIZES[-1] - SIZES[0])
        print(f"{what}: {told([one / 1e6 for one in found])} MB; {bounds.holds(what, more, MOST_BYTES)} bytes a message more", flush=True)
    ways = [(Calling(folder), "calls of the system")] + ([(Counting(folder), "instructions")] if is_counted else [])
    for way, unit in ways:
        for name, (words, given) in runs.items():
            costs = []
            for size in SIZES:
                copies(folder, size)
                found = way.of_run(words, folder, given)
                if unit != "instructions":
                    print(f"{name} of {size}: {', '.join(f'{count} {call}' for call, count in found.most_common(6))}")
                    found = found.total()
                costs.append(found)
            of_wholes(name, bounds, costs, unit)
        each = []
        for size in SIZES:
            copies(folder, size, True)
            each.append(way.of_session(session, folder, min(size, SLOTS - ROOM)))
        of_commands(bounds, each, unit)
    copies(folder, DOUBLED)
    caller = Session(session, folder)
    before = held(caller)
    caller.does(POST)
    now, peak = held(caller)
    print(f"the post that finds {DOUBLED} messages: {(peak - before[0]) / 1e6:.0f} MB more at most, {(now - before[0]) / 1e6:.0f} then; "
          f"{peak / DOUBLED:.0f} bytes a message in all")
    caller.leaves()
    return bounds.passed


def main(program, above=None, *more):
    folder = tempfile.mkdtemp(dir=above)
    try:
        passed = measure(os.path.realpath(program), folder, "count" in more)
    finally:
        shutil.rmtree(folder)
    if passed:
        sys.exit(f"bounds that are passed: {'; '.join(passed)}")


if __name__ == "__main__":
    if len(sys.argv) not in (2, 3, 4) or sys.argv[3:] not in ([], ["count"]):
        sys.exit(__doc__)
    main(*sys.argv[1:])
