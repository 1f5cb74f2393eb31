#!/usr/bin/env python3
"""What the gate costs, crate by crate: runs it from nothing on a copy of the repository, and prints for each crate the processor
seconds of its proof, of the proofs of its tests and of its must-fail edits, and the longest chain of crates.

    bench/gate_cost.py [-p PROCESSORS] [NAME..]

With -p the run gets that many processors; with names, these crates and those below them alone. It takes as long as the gate. The
seconds are read from /proc twice a second, so of each process up to half a second is missing; what is attributed to no crate is
shown beside what the system counted.

How fast the processors were is shown too: beside the run a fixed loop is timed on them every twenty seconds. Where others use the
cores, as on most virtual machines, its mean is well above its quickest, and two runs compare only by what it took."""
import argparse
import os
import re
import resource
import shutil
import subprocess
import sys
import tempfile
import threading
import time
from collections import defaultdict

TOP = os.path.dirname(os.path.dirname(os.path.realpath(__file__)))
TICKS = os.sysconf("SC_CLK_TCK")
KINDS = ("proof", "tests", "edits")


def read(path):
    try:
        with open(path, "rb") as file:
            return file.read()
    except OSError:
        return b""


def place_of(pid):
    """The crate and the kind of work of a process of the prover."""
    words = read(f"/proc/{pid}/cmdline").split(b"\0")
    if b"--crate-name" not in words:
        return None
    name = words[words.index(b"--crate-name") + 1].decode()
    try:
        folder = os.readlink(f"/proc/{pid}/cwd")
    except OSError:
        folder = ""
    # an edit is tried on a copy of its crate
    if "/rt-edit-" in folder:
        return name, "edits"
    return name, "tests" if b"--test" in words else "proof"


class Watch:
    """The processor time of every process of the prover that a run started, by its number and the moment of its start."""

    def __init__(self, run):
        self.run, self.seconds, self.places = str(run), {}, {}

    def look(self):
        stats = {}
        for pid in filter(str.isdigit, os.listdir("/proc")):
            stat = read(f"/proc/{pid}/stat").rpartition(b")")[2].split()
            if len(stat) >= 20:
                stats[pid] = stat
        for pid, stat in stats.items():
            key = pid, stat[19]
            if key not in self.places:
                self.places[key] = place_of(pid) if self.is_below(pid, stats) else None
            if self.places[key]:
                self.seconds[key] = (int(stat[11]) + int(stat[12])) / TICKS

    def is_below(self, pid, stats):
        """Whether the run started this process, or one that started it: another run beside it is not counted."""
        while pid in stats and pid != self.run:
            pid = stats[pid][1].decode()
        return pid == self.run

    def table(self):
        found = defaultdict(lambda: dict.fromkeys(KINDS, 0.0))
        for key, seconds in self.seconds.items():
            name, kind = self.places[key]
            found[name][kind] += seconds
        return found


class Speed:
    """What a fixed loop takes beside a run, in processor seconds."""

    EVERY = 20

    def __init__(self):
        self.took, self.ended = [], threading.Event()
        self.thread = threading.Thread(target=self.run, daemon=True)
        self.thread.start()

    def run(self):
        while not self.ended.is_set():
            began, x = time.thread_time(), 0
            for i in range(1_000_000):
                x += i * i % 7
            self.took.append(time.thread_time() - began)
            self.ended.wait(self.EVERY)

    def end(self):
        self.ended.set()
        self.thread.join()
        took = sorted(self.took)
        return took[0], took[len(took) // 2], sum(took) / len(took)


def uses_of(path):
    with open(path) as file:
        lines = [line.split("#")[0] for line in file]
    found = {line.split(":")[0].split()[0]: line.split(":")[1].split() for line in lines if ":" in line}
    return {name: [it for it in words if it in found] for name, words in found.items()}


def longest_chain(uses, weight):
    best = {}

    def chain(name):
        if name not in best:
            low = max((chain(it) for it in uses[name]), key=lambda it: it[0], default=(0, []))
            best[name] = low[0] + weight(name), [*low[1], name]
        return best[name]

    return max((chain(name) for name in uses), key=lambda it: it[0])


def main():
    words = argparse.ArgumentParser(description=__doc__, formatter_class=argparse.RawDescriptionHelpFormatter)
    words.add_argument("-p", type=int, default=len(os.sched_getaffinity(0)), metavar="PROCESSORS")
    words.add_argument("names", nargs="*", metavar="NAME")
    given = words.parse_args()
    if not 0 < given.p <= len(os.sched_getaffinity(0)):
        words.error("there are not so many processors")
    os.sched_setaffinity(0, sorted(os.sched_getaffinity(0))[: given.p])
    with tempfile.TemporaryDirectory(prefix="gate-cost-") as room:
        copy = f"{room}/copy"
        shutil.copytree(TOP, copy, ignore=shutil.ignore_patterns("out"), symlinks=True)
        uses, began = uses_of(f"{copy}/crates.txt"), time.monotonic()
        with open(f"{room}/log", "w+") as log:
            gate = subprocess.Popen(["rt", "ci", "--anew", *given.names], cwd=copy, stdin=subprocess.DEVNULL, stdout=log, stderr=log)
            watch, speed = Watch(gate.pid), Speed()
            while gate.poll() is None:
                watch.look()
                time.sleep(0.5)
            took = time.monotonic() - began
            quickest, middle, mean = speed.end()
            log.seek(0)
            said = log.read()
    verdict = said.rstrip().rpartition("\n")[2]
    counted = resource.getrusage(resource.RUSAGE_CHILDREN)
    table = watch.table()
    print(f"{'crate':<16}" + "".join(f"{kind:>8}" for kind in KINDS) + f"{'all':>8}   (processor seconds)")
    rows = sorted(table.items(), key=lambda it: -sum(it[1].values()))
    for name, row in rows:
        print(f"{name:<16}" + "".join(f"{row[kind]:>8.0f}" for kind in KINDS) + f"{sum(row.values()):>8.0f}")
    sums = {kind: sum(row[kind] for _, row in rows) for kind in KINDS}
    print(f"{'all crates':<16}" + "".join(f"{sums[kind]:>8.0f}" for kind in KINDS) + f"{sum(sums.values()):>8.0f}")
    print(f"counted by the system: {counted.ru_utime + counted.ru_stime:.0f} processor seconds in {took:.0f} s on {given.p} processors")
    print(f"a loop beside it: quickest {quickest:.3f} s, middle {middle:.3f} s, mean {mean:.3f} s: {mean / quickest:.2f} times its quickest")
    most, chain = longest_chain(uses, lambda name: 1)
    print(f"longest chain: {most} crates, {' '.join(chain)}")
    most, chain = longest_chain(uses, lambda name: table[name]["proof"] if name in table else 0)
    print(f"dearest chain: {most:.0f} processor seconds of proofs, {' '.join(chain)}")
    print(f"the gate ended with: {verdict}")
    if gate.returncode:
        sys.stderr.write(re.sub(r"(?m)^(?:checked|so far|fn|statements).*\n", "", said)[-4000:])
    sys.exit(gate.returncode)


main()
