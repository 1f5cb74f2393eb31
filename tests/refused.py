#!/usr/bin/env python3
"""Tries want of memory: runs of a program in which one allocation is refused, another one in each run. It is no part of `.ci/run`.

usage: refused.py NAME FIRST LAST [COUNT]
       refused.py NAME built [FIRST LAST [COUNT]]

NAME is one of the programs named below, built before (`rt run` in crates/NAME). In the first form `rt try NAME --fail-alloc N` runs it, which
compiles it anew each time; in the second it is crates/NAME/out/NAME, with an allocator that refuses the Nth call, for which there has to be a C
compiler. N goes from FIRST to LAST, or is drawn COUNT times between them, always the same; in the second form, without numbers, it goes from 1
until nothing was refused.

A program of trials reads its rows. Up to one of them all has to be answered as without a refusal. That one is answered by want of memory; or, where
files lie in memory, as by a failing disk, which such a disk is that finds none. The rows behind it are answered as if it had not been asked, or as
if it had, and its answer been lost. A row that loses what the rows before it made answers for the others up to one that begins anew. Of `board` whole
runs are tried over real files: a tool prints what it has to or that there is no memory, and then leaves the base as it was; what a session sent is a
beginning of what is to be sent, and what it has done goes as far.
"""
import os
import random
import re
import subprocess
import sys
import tempfile

from harness import LIMIT, LOCAL, NO_MEMORY, TOP, Runs, memory_folder, one_by_one, settings
from visits import ANSWERED, EDITED, PAGED, edit_goes_as_far, goes_as_far, pages_go_as_far

# that the digits of a word are no bytes is said too where there was no memory for them
WANTING = re.compile(r"(Base\()?OutOfMemory\b|NoMemory\b|out of memory|no answer to '.*': (out of memory|word \d+ is no bytes)")
LOST = re.compile(r"no answer to '.*': word 0 is not known|no area is shared|not open|NotAsked|none")


class Rows:
    """A program of trials: rows that are not asked, since they compare or count runs of their own; rows that begin anew, behind which nothing is left
    of those before; rows that ask several things, some of which may be done; what may be answered where a disk in memory finds none; and rows
    that are not asked, with all behind them up to one that begins anew, since they change what it stands on."""

    def __init__(self, skipped=(), anew=(), several=(), faults=None, ending=()):
        self.skipped, self.anew, self.several, self.faults, self.ending = skipped, anew, several, faults and re.compile(faults), ending


PROGRAMS = {
    "trial": Rows(("crowd", "packers", "lookers", "parts", "torn"), ("base", "files"), (),
                  "StoreFault|failed|false|fault|no answer to '(share|thread) .*': word [01] is not known"),
}


class Refusals(Runs):
    """Runs of a program in which an allocation is refused, in a folder."""

    def __init__(self, name, folder, is_built):
        super().__init__(f"{TOP}/crates/{name}/out/{name}", folder)
        self.name, self.is_built, self.numbers, self.changed = name, is_built, 0, 0
        if not os.access(self.program, os.X_OK):
            sys.exit(f"{self.program} is not there: `rt run` in crates/{name} builds it")
        if is_built:
            self.has_allocator()

    def looks_at(self, number, *words, given=b""):
        """What a run prints and its status, and whether the allocation came, where that is known."""
        return self.refused(number, *words, typed=given, limit=LIMIT) if self.is_built else (*self.by_the_kit(number, given), True)

    def by_the_kit(self, number, given):
        """The same by the kit, which says last how the program ended. Its own interpreter is not waited for."""
        done = subprocess.run(["rt", "try", "--steps", "1", "--fail-alloc", str(number)], cwd=f"{TOP}/crates/{self.name}", input=given,
                              stdout=subprocess.PIPE, stderr=subprocess.PIPE, timeout=LIMIT, check=False)
        told = done.stderr.decode(errors="replace").strip().split("\n")[-1]
        ended = re.search(r"run=ended status=(\d+)", told)
        return done.stdout, int(ended[1]) if ended else told

    def goes_through(self, numbers, look):
        """Looks at the runs with these numbers, or at all until nothing was refused."""
        for number in numbers:
            is_come = look(number)
            if not is_come:
                break
            self.numbers += 1

    def is_changed(self, is_other):
        self.changed += bool(is_other)


def asked_of(name):
    """The rows that are asked, and their answers."""
    with open(f"{TOP}/crates/{name}/stdin") as rows, open(f"{TOP}/crates/{name}/stdout") as answers:
        pairs = list(zip(rows.read().split("\n"), answers.read().split("\n")))
    of, kept, is_asked = PROGRAMS[name], [], True
    for row, answer in pairs:
        word = row.split()[0] if row else "#"
        is_asked = word in of.anew or is_asked and word not in of.ending
        if is_asked and not word.startswith("#") and word not in of.skipped:
            kept.append((row, answer))
    return [row for row, _ in kept], [answer for _, answer in kept]


class Table:
    """The rows of a program of trials with their answers, and those where one row is not asked."""

    def __init__(self, trial, name):
        self.trial, self.kind, self.without = trial, PROGRAMS[name], {}
        self.rows, self.answers = asked_of(name)
        if self.told(self.rows) != self.answers:
            sys.exit(f"{trial.program} answers otherwise than its table, without a refusal")

    def told(self, rows):
        return self.trial.done(typed="".join(row + "\n" for row in rows).encode(), limit=LIMIT)[0].decode().split("\n")[:-1]

    def left_out(self, at):
        """The answers where this row is not asked; its own is none."""
        if at not in self.without:
            found = self.told(self.rows[:at] + self.rows[at + 1:])
            self.without[at] = found[:at] + [None] + found[at:]
        return self.without[at]

    def looks(self, number):
        """Looks at a run, and tells whether the allocation came."""
        given = "".join(row + "\n" for row in self.rows).encode()
        text, status, is_come = self.trial.looks_at(number, given=given)
        found, what = text.decode(errors="replace").split("\n")[:-1], f"allocation {number}"
        at = next((n for n, pair in enumerate(zip(found, self.answers)) if pair[0] != pair[1]), len(found))
        self.trial.is_changed(found != self.answers)
        if at == len(found):
            # all is answered, or the rows could not be read on
            is_whole = len(found) == len(self.rows)
            self.trial.holds(f"{what}: {at} rows are answered, and the status is {status}", (status == 0) == is_whole and status in (0, 1))
        elif (found, at) == (["out of memory"], 0):
            self.trial.is_so(f"{what}: the status of a program that did not begin", status, 0)
        else:
            self.judges(what, at, found, status)
        return is_come

    def judges(self, what, at, found, status):
        """Looks at a run in which the row at this place is answered otherwise."""
        row, answer = self.rows[at], self.answers[at]
        self.trial.is_so(f"{what}: the status, and how many rows are answered", (status, len(found)), (0, len(self.rows)))
        kind = self.kinds(found[at], answer)
        if self.trial.holds(f"{what}: {row[:80]!r} is answered {found[at][:80]!r}, where {answer[:80]!r} or want of memory is wanted", kind is not None):
            other = self.other_behind(at, found, kind)
            self.trial.holds(f"{what}: behind {row[:80]!r}: {other}", other is None)

    def kinds(self, found, answer):
        """Whether an answer says that memory was wanting, or that a disk failed: as a whole, or in the first of its parts that is another."""
        parts = zip(found.split("; "), answer.split("; "))
        part = next((one for one, other in parts if one != other), "")
        if any(map(WANTING.match, (part, found))):
            return "wanting"
        return "fault" if self.kind.faults and any(map(self.kind.faults.match, (part, found))) else None

    def other_behind(self, at, found, kind):
        """The first answer behind this row that is none of those that may be: all as if the row had not been asked, or all as if it had. Behind a
        fault they are as the one and then as the other, behind what is lost and behind several things they are not known; but only up to
        a row that begins anew."""
        without = self.left_out(at)
        if found[at + 1:] in (without[at + 1:], self.answers[at + 1:]):
            return None
        is_known = kind == "wanting" and self.rows[at].split()[0] not in self.kind.several
        behind = range(at + 1, len(self.rows))
        end = next((n for n in behind if self.rows[n].split()[0] in self.kind.anew), len(self.rows))
        for n in behind:
            line, ways = found[n], (without[n], self.answers[n])
            if n < end and (not is_known or LOST.match(line)):
                is_known &= LOST.match(line) is None
            elif line not in (ways if n < end else ways[1:]):
                return f"{self.rows[n][:80]!r} is answered {line[:80]!r}, where {ways[0][:80]!r} or {ways[1][:80]!r} is wanted"
        return None


def looks_at_board(trial, words, typed, goes):
    """All numbers of one command of the board, each over a base with one message anew."""
    def look(number):
        trial.has_letters("general")
        before = [trial.files(name) for name in ("general", "other")]
        found, status, is_come = trial.looks_at(number, *words, given=typed)
        what = f"{' '.join(words)}, allocation {number}"
        trial.is_changed((found, status) != whole)
        if words == LOCAL:
            goes(trial, what, found, status)
        elif (found, status) != whole:
            trial.is_so(what, (found, status), NO_MEMORY)
            trial.holds(f"{what}: the base is as it was", all(map(trial.keeps, before, ("general", "other"))))
        return is_come

    trial.has_letters("general")
    whole = trial.done(*words, typed=typed, limit=LIMIT)[:2]
    trial.is_so(f"{' '.join(words)}: its status", whole[1], 0)
    return look


COMMANDS = (("help",), ("list", "areas", "general"), ("check", "areas", "general"), ("make", "areas", "other"), ("pack", "areas", "general"),
            ("relink", "areas", "general"), ("load", "7", "40"))
# what is typed in a session, and how far it goes
SESSIONS = ((ANSWERED, goes_as_far), (EDITED, edit_goes_as_far), (PAGED, pages_go_as_far))


def numbers_of(words):
    """From 1 on; or from the first to the last, or some drawn between them."""
    if not words:
        return range(1, 2**31)
    first, last = int(words[0]), int(words[1])
    every = range(first, last + 1)
    return sorted(random.Random(first).sample(every, min(len(every), int(words[2])))) if words[2:] else every


def main(name, is_built, words):
    with tempfile.TemporaryDirectory(dir=memory_folder()) as folder:
        trial = Refusals(name, folder, is_built)
        if name == "board":
            trial.has_settings(settings())
            for command in COMMANDS:
                trial.goes_through(numbers_of(words), looks_at_board(trial, command, b"", None))
            for typed, goes in SESSIONS:
                trial.goes_through(numbers_of(words), looks_at_board(trial, LOCAL, one_by_one(typed), goes))
        else:
            trial.goes_through(numbers_of(words), Table(trial, name).looks)
    print(f"{name}: {trial.numbers} refused allocations were tried, of which {trial.changed} changed what is printed")
    return trial.tells("want of memory")


def is_form(words):
    if not words or words[0] not in (*PROGRAMS, "board"):
        return False
    numbers = words[2:] if words[1:2] == ["built"] else words[1:]
    return all(map(str.isdecimal, numbers)) and (len(numbers) in (2, 3) or words[1:] == ["built"]) and (words[0] != "board" or words[1] == "built")


if __name__ == "__main__":
    if not is_form(sys.argv[1:]):
        sys.exit(__doc__)
    sys.exit(main(sys.argv[1], sys.argv[2] == "built", sys.argv[3:] if sys.argv[2] == "built" else sys.argv[2:]))
