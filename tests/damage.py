#!/usr/bin/env python3
"""Tries `board list` and `board check` of the built program on damaged bases: each must print exactly what a plain reader finds.

usage: damage.py PROGRAM [--all]

A base of one message is cut anywhere in its message, its index or its text, or has another number in one place; what is to be told of each
of these stands here. A second base is made, with ten messages of all kinds and empty slots, its headers in no order with dead bytes between.
It is damaged in one place: a byte becomes 00, FF, or another in one drawn bit; or a file is cut at a length. Also in some places at once,
where the first test that fails is named; and so that slots name the places of others. All that is done once more while a change waits in the
journal, which is then done first. What must be printed, the status, and what the files must then be is found out by jam.py, which was
written from docs/FORMATS.md and has nothing of the program. Without --all a drawn part of the second base's damages is tried, always the
same.
"""
import os
import random
import subprocess

import jam
from bases import small_base, waiting_base, whole_base
from harness import LIMIT, Runs, goes_through

BATCH = 250
# the number of the change that waits, of which no byte is another's
CHANGE = 0x0102030405060708
LOOKS = ("list", "check")
# each program with the base that is named by its number, in a shell of its own: what is printed goes into a file, the statuses come back
RUNS = """program=$1 first=$2 second=$3 at=$4 end=$5
while [ "$at" -lt "$end" ]; do
    "$program" "$first" . "$at" >"$at.$first" 2>/dev/null
    status=$?
    "$program" "$second" . "$at" >"$at.$second" 2>/dev/null
    echo "$status $?"
    at=$((at + 1))
done
"""


def small_damages():
    """Each damage of that base with a word on it, and what is told of it; nothing is told where it opens without a message."""
    cuts = [("jhr", (0, 1, 1023), b"fault 3.1 ShortHeader\n"), ("jhr", range(1024, 1164), b"fault 3.8 HeaderPlace 1\n"),
            ("jdx", range(1, 8), b"fault 3.4 IndexLength\n"), ("jdx", range(1), b""), ("jdt", range(5), b"fault 3.12 TextPlace 1\n")]
    for extension, lengths, line in cuts:
        for length in lengths:
            yield f".{extension} cut to {length} bytes", [(extension, length, None)], line
    yield "a signature that begins with 00", [("jhr", 1024, 0)], b"fault 3.9 HeaderSignature 1\n"
    yield "Revision 2", [("jhr", 1028, 2)], b"fault 3.10 HeaderRevision 1\n"
    yield "SubfieldLen 65", [("jhr", 1032, 65)], b"fault 3.8 HeaderPlace 1\n"
    yield "SubfieldLen 63", [("jhr", 1032, 63)], b"fault 3.11 Subfields 1 53\n"
    yield "HdrOffset 1,023", [("jdx", 4, 0xFF), ("jdx", 5, 3)], b"fault 3.8 HeaderPlace 1\n"


def damages(files, draw):
    """Each damage of one place, with a word on it: a file, the place, and the byte that comes there, or none where it is cut."""
    for extension, data in files.items():
        for at, byte in enumerate(data):
            for value in sorted({0, 255, byte ^ 1 << draw.randrange(8)} - {byte}):
                yield f"byte {at} of .{extension} as {value:02X}", [(extension, at, value)]
        for length in range(len(data)):
            yield f".{extension} cut to {length} bytes", [(extension, length, None)]


def several(cases, count, draw):
    """So many damages of two to five places at once."""
    for _ in range(count):
        texts, changes = zip(*draw.sample(cases, draw.randrange(2, 6)))
        yield ", ".join(texts), sum(changes, [])


def misplaced(files, count, draw):
    """So many bases in which one to three slots name the place of another's header, or one near it."""
    size = len(files["jdx"]) // 8
    for _ in range(count):
        texts, changes = [], []
        for slot in draw.sample(range(size), draw.randrange(1, 4)):
            place = jam.ulong(files["jdx"], 8 * draw.randrange(size) + 4) + draw.choice((0, 0, 0, 1, -1, 75, -76, 200, -200))
            texts.append(f"slot {slot} names {place}")
            changes += [("jdx", 8 * slot + 4 + n, byte) for n, byte in enumerate((place % 2**32).to_bytes(4, "little"))]
        yield ", ".join(texts), changes


def damaged(files, changes):
    files = dict(files)
    for extension, at, value in changes:
        data = files[extension]
        files[extension] = data[:at] if value is None else data[:at] + bytes([value]) + data[at + 1:]
    return files


class Damages(Runs):
    """Damaged copies of a base in one folder, each named by a number, and what the program makes of them."""

    def tries(self, what, files, cases):
        """Looks at all of these cases, many at once."""
        for at in range(0, len(cases), BATCH):
            self.tries_some(what, files, list(enumerate(cases[at:at + BATCH], at)))

    def tries_some(self, what, files, cases):
        order = LOOKS if cases[0][0] // BATCH % 2 == 0 else LOOKS[::-1]
        is_first = order[0] == "check"
        for n, (_, changes) in cases:
            jam.write_files(self.folder, n, damaged(files, changes))
        statuses = self.runs(order, cases[0][0], cases[-1][0] + 1)
        for (n, (text, changes)), status in zip(cases, statuses):
            now = damaged(files, changes)
            listing, figures, wanted, then = jam.told(now)
            if wanted == 0:
                # what waits is done by the first of both, so that the second finds nothing
                figures += jam.recovered(now.get("jnl", b"")) if is_first else jam.CLOSED
            found = [self.reads(n, word) for word in LOOKS]
            self.is_so(f"{what}, {text}: the statuses and what is printed", (status, found), ((wanted, wanted), [listing, figures]))
            left = [other for other in files if self.reads(n, other) != then[other]]
            self.holds(f"{what}, {text}: the files {left} are then others", not left)
            for other in (*files, *LOOKS):
                os.remove(f"{self.folder}/{n}.{other}")
        self.is_so(f"{what}: what is there besides", os.listdir(self.folder), [])

    def reads(self, n, extension):
        with open(f"{self.folder}/{n}.{extension}", "rb") as file:
            return file.read()

    def runs(self, order, start, end):
        """Both tools on each base, and their statuses in this order of the tools; 128 and more stand for a signal."""
        done = subprocess.run(["sh", "-c", RUNS, "sh", self.program, *order, str(start), str(end)], cwd=self.folder, stdin=subprocess.DEVNULL,
                              stdout=subprocess.PIPE, timeout=LIMIT, check=True)
        return [tuple(map(int, line.split())) for line in done.stdout.splitlines()]


def chosen(files, is_all, draw):
    """All damages of one place, or a part of each file's bytes and of its cuts, most of those that are looked at; some at once; and slots that
    name other places."""
    cases, kinds = list(damages(files, draw)), {}
    for case in cases:
        extension, at, value = case[1][0]
        is_dull = extension in ("jdt", "ndt", "jlr") or extension == "jhr" and 24 <= at < 1024
        kinds.setdefault((extension, value is None, is_dull), []).append(case)
    telling = [case for (_, is_cut, is_dull), found in sorted(kinds.items()) if not is_cut and not is_dull for case in found]
    part = [case for (_, is_cut, is_dull), found in sorted(kinds.items())
            for case in draw.sample(found, min(len(found), 12 if is_dull else 60 if is_cut else 350))]
    more = 20 if is_all else 1
    return (cases if is_all else part) + list(several(telling, 200 * more, draw)) + list(misplaced(files, 150 * more, draw))


def try_small(trial):
    """The damages of a base of one message, with what is written here of each, which the plain reader has to find too."""
    files, cases = small_base(), []
    for what, changes, line in small_damages():
        trial.is_so(f"one message, {what}: what the plain reader finds", jam.told(damaged(files, changes))[0], line)
        cases.append((what, changes))
    trial.tries("one message", files, cases)


def try_ten(trial):
    """The damages of a base of ten messages, at rest and while a change waits, in a journal of each version."""
    draw = random.Random(25)
    scenes = {"at rest": whole_base(draw)[0], "while a change waits": waiting_base(draw, CHANGE),
              "while a change of the first version waits": waiting_base(draw)}
    for what, files in scenes.items():
        listing, figures, status, _ = jam.told(files)
        trial.holds(f"{what}: the base is whole", status == 0 and figures.startswith(b"base 7\n") and listing.count(b"\n") == 8)
        trial.tries(what, files, chosen(files, trial.option, draw))


if __name__ == "__main__":
    goes_through(Damages, "damaged bases", (try_small, try_ten), option="--all")
