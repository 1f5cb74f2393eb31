#!/usr/bin/env python3
"""Tries whether the built program opens what an earlier one left: sets of the six files of a base as they lay when a program whose journal was of
the first version was stopped anywhere in a change, or as they were torn then.

usage: journals.py PROGRAM

The files stand in tests/journals/first.tar.xz, and tests/journals/first.txt says of each set what it must open to: what `list` and `check` print, their
status, and what all six files hold then. Both were made once (tests/journals/make.py) and stay as they are: a later program leaves no such sets. The
program of that time did not tell of what it had recovered; the last line of `check` is here put behind its others. Then whether it refuses the record of a
journal of either version at the byte that tests/journals/records.txt says, where one rule is broken or it is cut, and does what it refuses nowhere.
"""
import hashlib
import os
import re
import tarfile

from damage import LOOKS, Damages
from harness import goes_through
from jam import ALL_FILES, CLOSED, FILES, write_files

FOLDER = os.path.join(os.path.dirname(os.path.abspath(__file__)), "journals")
ARCHIVE, TABLE, RECORDS = f"{FOLDER}/first.tar.xz", f"{FOLDER}/first.txt", f"{FOLDER}/records.txt"
# stands for a file that is not there
NONE = "-"


def name_of(data):
    """The name of a file with these bytes."""
    return hashlib.sha256(data).hexdigest()[:12]


# of a file without bytes, which need not be there behind a look
EMPTY = name_of(b"")


def held_files():
    """The bytes of each file of the archive by its name."""
    with tarfile.open(ARCHIVE) as archive:
        return {member.name: archive.extractfile(member).read() for member in archive}


def held_table():
    """The states by their names, each with the status, what each tool prints and the names of its files; and the sets, each as the words of its line."""
    states, sets = {}, []
    with open(TABLE, encoding="utf-8") as file:
        for line in file:
            word, _, rest = line.partition(" ")
            if word == "state":
                name, status, *files = rest.split()
                last = states[name] = int(status), dict.fromkeys(LOOKS, b""), files
            elif word == "set":
                sets.append(rest.rstrip("\n").split(" ", 9))
            elif line.partition("|")[0] in LOOKS:
                look, _, text = line.partition("|")
                last[1][look] += text.encode()
    return states, sets


class Journals(Damages):
    """Sets of files in one folder, each named by a number, and what the program makes of them."""

    def has_set(self, n, files):
        """Writes the files of a set, but those that are not there."""
        write_files(self.folder, n, {extension: data for extension, data in zip(ALL_FILES, files) if data is not None})

    def opens_to(self, what, n, status, wanted, printed, files):
        """Looks at what the tools print of a set, at their status, and at its six files then, by their names."""
        found = {look: self.reads(n, look) for look in LOOKS}
        self.is_so(f"{what}: the statuses and what is printed", (status, found), ((wanted, wanted), printed))
        paths = {extension: f"{self.folder}/{n}.{extension}" for extension in ALL_FILES}
        left = [name_of(self.reads(n, extension)) if os.path.exists(path) else EMPTY for extension, path in paths.items()]
        self.is_so(f"{what}: the files then", left, [EMPTY if name == NONE else name for name in files])


def try_sets(trial):
    """Each set opens to what the table says; every second one is first opened by the one tool, the others by the other."""
    contents, (states, sets) = held_files(), held_table()
    trial.is_so("the files that are not those of their names", [name for name, data in contents.items() if name_of(data) != name], [])
    used = {name for _, *names, _, _, _ in sets for name in names} - {NONE}
    trial.is_so("the files that no set has, and those that are not there", contents.keys() ^ used, set())
    sets, half = sets[::2] + sets[1::2], (len(sets) + 1) // 2
    for n, (_, *names, _, _, _) in enumerate(sets):
        trial.has_set(n, map(contents.get, names))
    statuses = trial.runs(LOOKS, 0, half) + trial.runs(LOOKS[::-1], half, len(sets))
    for n, ((number, *names, opens, journal, what), status) in enumerate(zip(sets, statuses)):
        bad = re.fullmatch(r"BadJournal@(\d+)", opens)
        wanted, printed, files = (3, dict.fromkeys(LOOKS, b"fault 3.14 BadJournal %s\n" % bad[1].encode()), names[:len(FILES)]) if bad else states[opens]
        if wanted == 0:
            # what waits is done by the first of both, which closes the gate; the change of such a journal has no number
            is_done = n >= half and journal not in (names[len(FILES)], NONE)
            printed = printed | {"check": printed["check"] + (b"recovered 1 0\n" if is_done else CLOSED)}
        trial.opens_to(f"set {number}, {what}", n, status, wanted, printed, (*files, journal, names[-1]))


def records():
    """Each row of records.txt: its number, the files, the journal, what opening comes to, and the files then or none."""
    files, journal = [], b""
    with open(RECORDS, encoding="utf-8") as file:
        for n, line in enumerate(file, 1):
            word, *words = line.split() or ["#"]
            if word == "files":
                files = [b"" if it == "-" else it.encode() for it in words]
            elif word == "journal":
                journal = bytes.fromhex(words[0].replace("-", ""))
            elif word == "cut":
                for length in range(int(words[0]), int(words[1])):
                    yield n, files, journal[:length], words[2], None
            elif word == "whole":
                yield n, files, journal, words[0], words[1] if words[1:] else None
            elif word[0] != "#":
                place, data = int(word), bytes.fromhex(words[0])
                yield n, files, journal[:place].ljust(place, b"\0") + data + journal[place + len(data):], words[1], None


def try_records(trial):
    """Each journal of records.txt comes to what it says: a record is refused at the field that breaks a rule, or is done, and the gate is closed then."""
    rows = list(records())
    trial.holds(f"{len(rows)} journals", len(rows) > 300)
    for n, files, journal, wanted, left in rows:
        trial.has_set(0, [*files[:4], journal, files[4]])
        printed, status, _ = trial.done("list", ".", "0")
        gate = trial.reads(0, "jnl")[:1]
        what = f"records.txt, line {n}, {len(journal)} bytes"
        if wanted.isdigit():
            trial.is_so(what, (printed, status), (b"fault 3.14 BadJournal %s\n" % wanted.encode(), 3))
        else:
            trial.holds(f"{what}: {printed}, {status}, {wanted}", re.fullmatch(rb"fault 3\.[12] \w+\n", printed) and status == 3)
        trial.is_so(f"{what}: the gate", gate, b"\0" if wanted == "done" else journal[:1])
        if left is not None:
            trial.is_so(f"{what}: the files", b"/".join(trial.reads(0, it) or b"-" for it in FILES).decode(), left)


if __name__ == "__main__":
    goes_through(Journals, "journals of both versions", (try_sets, try_records))
