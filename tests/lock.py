#!/usr/bin/env python3
"""Tries that an area belongs to one program at a time, and that a change is not acknowledged where its files are no longer those that were opened.

usage: lock.py PROGRAM

A board that is served keeps out a second board, each tool, and any other program that locks the header file or its first byte, as the JAM proposal
wants it; such a program keeps the board out, and is waited for some seconds. The same base is known under two names of its folder or its files.
Bases that may only be read are read. Files are replaced under a board that is served. At last, how `make` spells the names of its files. The
files are read by jam.py.
"""
import fcntl
import os
import shutil
import signal
import threading
import time

import jam
from harness import ALREADY_THERE, AREAS, BY_ANOTHER, SYSOP, TOOLS, Served, free_port, goes_through, settings, together, users
from visits import LISTED

# the status, and what the operator is told, where another program has a base
IN_USE, SAYS_IN_USE = 5, b"in use"
# the status where both spellings of a header file are there
BOTH_SPELLINGS = 5
STORE_FAULT = b"Store fault"
# the seconds for which another program is waited for at most, with some for a busy machine; for which it holds a base where it is waited for; and in
# which a program ends that waits for none
MOST_SECONDS, HELD_SECONDS, AT_ONCE = 10, 2, 2


def locked(file, call, kind):
    """Locks this file, or its first byte, for as long as it is open, if that may be had at once."""
    try:
        (fcntl.flock if call == "flock" else lambda it, how: fcntl.lockf(it, how, 1, 0))(file, kind | fcntl.LOCK_NB)
        return True
    except (BlockingIOError, PermissionError):
        return False


def may_lock(path):
    """Which locks of this file another program gets."""
    found = []
    for call in ("lockf", "flock"):
        for kind in (fcntl.LOCK_SH, fcntl.LOCK_EX):
            with open(path, "r+b") as file:
                found.append(locked(file, call, kind))
    return found


class Locks(Served):
    """Runs in one folder, of which several want the same base."""

    def path(self, name="general", extension="jhr"):
        return jam.path_of(self.areas, name, extension)

    def links(self, name, other):
        """Has this base under another name too; its journal, which is to have one name, is left out."""
        for extension in jam.FILES:
            path = self.path(name, extension)
            os.link(path, f"{self.areas}/{other}{os.path.splitext(path)[1]}")

    def bytes_of(self):
        return {name: open(f"{self.areas}/{name}", "rb").read() for name in sorted(os.listdir(self.areas))}

    def timed(self, what, does, most=MOST_SECONDS):
        """Does this, and looks whether it takes no more than so many seconds."""
        begin = time.monotonic()
        found = does()
        took = time.monotonic() - begin
        self.holds(f"{what}: {took:.1f} s, where {most} are the most", took <= most)
        return found

    def has_for_a_while(self, name, call):
        """Has this base by a lock for some seconds from now on; gives the file, which is closed then."""
        file = open(self.path(name), "r+b")
        self.holds(f"{name} may be had by {call}", locked(file, call, fcntl.LOCK_EX))
        threading.Timer(HELD_SECONDS, file.close).start()
        return file


def try_served(trial):
    """While an area is served no other program has it, by whatever way it comes to the files, and none changes them; then the next has it at once."""
    trial.has_bases()
    os.symlink("areas", f"{trial.folder}/linked")
    trial.links("general", "other")
    trial.has_settings(settings(AREAS, users(), port=free_port()), "second.toml")
    trial.begins()
    caller = trial.guest(SYSOP)
    trial.is_so("the first post", caller.posts(b"All", b"first", [b"a line"]), 1)
    # which another user may read, too
    for name in os.listdir(trial.areas):
        os.chmod(f"{trial.areas}/{name}", 0o664)
    before, said = trial.bytes_of(), (SAYS_IN_USE, b"general")
    runs = [((word, "areas", "general"), said, {}) for word in TOOLS] + [((word, "second.toml"), said, {}) for word in ("serve", "local")]
    runs += [(("list", folder, "general"), said, {}) for folder in ("./areas", "linked", trial.areas)]
    runs += [(("list", "areas", "other"), (SAYS_IN_USE, b"other"), {}), (("list", "areas", "general"), said, BY_ANOTHER)]
    trial.timed("what is refused is refused in time", lambda: trial.are_refused("an area that is served", IN_USE, runs))
    trial.holds("what is refused changes nothing", trial.bytes_of() == before)
    trial.is_so("who has locks beside a board", may_lock(trial.path()), [False] * 4)
    trial.is_so("the second post", caller.posts(b"All", b"second", [b"a line"]), 2)
    caller.answers(b"x", b"Packed: base 1, live 2, dropped 0.\r\n", b"[general] ")
    trial.is_so("who has locks when the board has packed", may_lock(trial.path()), [False] * 4)
    trial.is_ended("a board that is killed", signal.SIGKILL)
    listed = b"".join(b"%8d  Sysop > All  %s\n" % it for it in ((1, b"first"), (2, b"second")))
    found = trial.timed("behind a board that was killed", lambda: trial.ended("list", "areas", "general"), most=AT_ONCE)
    trial.is_so("a list behind a board that was killed", found, (listed, 0))
    trial.is_so("who has locks when no board is there", may_lock(trial.path()), [True] * 4)


def try_outsiders(trial):
    """Another program that has the file, or its first byte, keeps each program out; the base is as it was."""
    trial.has_bases()
    before, runs, files = trial.bytes_of(), [], []
    for name, call in (("general", "lockf"), ("letters", "flock")):
        files.append(open(trial.path(name), "r+b"))
        trial.holds(f"{name} may be had by {call}", locked(files[-1], call, fcntl.LOCK_EX))
        trial.has_settings(settings((name,), users(), port=free_port()), f"{name}.toml")
        words = [(word, "areas", name) for word in TOOLS] + [(word, f"{name}.toml") for word in ("serve", "local")]
        runs += [(it, (SAYS_IN_USE, name.encode()), {}) for it in words]
    trial.timed("what is refused is refused in time", lambda: trial.are_refused("a base that another program has", IN_USE, runs))
    for file in files:
        file.close()
    trial.holds("what is refused changes nothing", trial.bytes_of() == before)


def try_one_base(trial):
    """Two areas of one settings file that are one base, by two names of its folder, of a link to it, or of its files. Each run has a base of its own."""
    trial.has_bases()
    runs = []
    for n, word in enumerate(("serve", "local") * 4):
        name = f"base{n}"
        trial.is_so("a base is made", trial.ended("make", "areas", name), (b"", 0))
        folder, base = (("./areas", name), ("linked", name), (trial.areas, name), ("areas", f"other{n}"))[n // 2]
        trial.links(name, f"other{n}")
        trial.has_settings(settings((name, ("again", folder, base)), port=free_port()), f"{name}.toml")
        runs.append(((word, f"{name}.toml"), (SAYS_IN_USE, base.encode()), {}))
    trial.timed("what is refused is refused in time", lambda: trial.are_refused("two areas that are one base", IN_USE, runs))


def try_together(trial):
    """Programs that want a base at the same time, or while another has it for a short while, all get it, one after another."""
    trial.has_letters(*AREAS)
    trial.has_settings(settings(AREAS, users(), port=trial.port))
    words = ("list",) * 4 + ("check", "relink", "pack")
    wanted = {"list": LISTED, "check": jam.checked(jam.one_message()), "relink": b"Relinked: 0 changed.\n",
              "pack": b"Packed: base 1, live 1, dropped 0.\n"}
    had = {name: trial.has_for_a_while(name, call) for name, call in (("general", "lockf"), ("letters", "flock"))}

    def use(word, name):
        return (word, *trial.ended(word, "areas", name), had[name].closed)
    found = trial.timed("tools that wait", lambda: together(
        lambda word=word, name=name: use(word, name) for name in had for word in words))
    trial.is_so("tools that are started together", found, [(word, wanted[word], 0, True) for word in words] * 2)
    # the files are read here as it begins, which ends a lock of their first byte that is had here
    had = trial.has_for_a_while("general", "flock")
    trial.begins(nodes=1)
    trial.timed("a board that waits", lambda: trial.guest(0).quits())
    trial.holds("a board waits for who has a base", had.closed)
    trial.is_ended("a board that waited")
    for n in range(3):
        made = together(lambda: trial.ended("make", "areas", f"made{n}") for _ in range(4))
        trial.is_so("four who make a base at once", sorted(made), [(b"", 0)] + [ALREADY_THERE] * 3)
    trial.is_so("a base that four made at once", trial.ended("check", "areas", "made0"), (jam.checked(trial.base("made0")), 0))
    trial.checks("who waited")


def try_read_only(trial):
    """A base that may only be read is listed and checked, by several at once too, and nothing comes to be beside it."""
    trial.has_letters("general", "bare")
    with open(trial.path("bare", "jnl"), "wb") as file:
        file.write(bytes(17))
    before = trial.bytes_of()
    for name in before:
        os.chmod(f"{trial.areas}/{name}", 0o444)
    os.chmod(trial.areas, 0o555)
    wanted = [(LISTED, 0), (jam.checked(jam.one_message()), 0)]
    for name in ("general", "bare"):
        found = together(lambda word=word: trial.ended(word, "areas", name, **BY_ANOTHER) for word in ("list", "check") * 3)
        trial.is_so(f"a base that may only be read, {name}", found, wanted * 3)
    os.chmod(trial.areas, 0o755)
    trial.holds("what may only be read is as it was", trial.bytes_of() == before)


def replaces(trial, folder, extension, how):
    """Files are renamed over those of a base, or taken away; those that were there are kept under another name."""
    kept, copied = f"{folder}.kept", f"{folder}.copied"
    shutil.copytree(folder, copied)
    if extension is None:
        os.rename(folder, kept)
        if how == "another":
            os.rename(copied, folder)
        return
    os.mkdir(kept)
    for name in os.listdir(folder):
        os.link(f"{folder}/{name}", f"{kept}/{name}")
    if how == "another":
        os.rename(f"{copied}/base.{extension}", f"{folder}/base.{extension}")
    else:
        os.remove(f"{folder}/base.{extension}")


def try_replaced(trial):
    """Files that are replaced or taken away under a board that is served: no post is acknowledged from then on, and those that were are where they
    were acknowledged, and in the copies."""
    cases = [(extension, how) for extension in ("JHR", "JDT", "JDX", "JLR", "JNL", None) for how in ("another", "none")]
    names = [f"{extension or 'folder'}-{how}".lower() for extension, how in cases]
    areas = [(name, f"areas/{name}", "base") for name in ["beside"] + names]
    trial.has_bases()
    for _, folder, _ in areas:
        os.mkdir(f"{trial.folder}/{folder}")
        trial.is_so("a base is made", trial.ended("make", folder, "base"), (b"", 0))
    trial.has_settings(settings(areas, users(), port=trial.port, nodes=1))
    trial.begins(areas=areas, nodes=1)
    caller = trial.user(0)

    def within(k, does):
        prompt = b"[%s] " % areas[k][0].encode()
        caller.enters(b"%d" % (k + 1), prompt)
        found = does(prompt)
        caller.enters(b"b", b"Top> ")
        return found

    def post(k, subject):
        return within(k, lambda prompt: caller.writes(b"All", subject, [b"a line"], False, prompt))

    def mark(k, number):
        return within(k, lambda prompt: caller.enters(b"m %d" % number, prompt))
    for k, (name, _, _) in enumerate(areas):
        trial.is_so(f"{name}: the first post", (post(k, b"first"), mark(k, 1)), (b"Posted as 1.\r\n", b"Mark is 1, high 1.\r\n"))
    for (extension, how), (_, folder, _) in zip(cases, areas[1:]):
        replaces(trial, f"{trial.folder}/{folder}", extension, how)
    for k, ((extension, _), (name, _, _)) in enumerate(zip(cases, areas[1:]), 1):
        # marks alone go into .JLR
        found = [mark(k, 0) if extension == "JLR" else post(k, b"second"), post(k, b"third")]
        for turn, found in zip(("what comes next", "one more post"), found):
            trial.holds(f"{name}: {turn} is not acknowledged: {found}", found.startswith(STORE_FAULT))
    trial.is_so("an area beside them: the next post", post(0, b"second"), b"Posted as 2.\r\n")
    trial.is_ended("a board whose files were replaced")
    for (extension, how), (_, folder, _) in zip(cases, areas[1:]):
        places = [f"{folder}.kept"] + [folder] * (how == "another") + [f"{folder}.copied"] * (extension is None and how == "none")
        # two of them may have a journal in common, which the first list closes
        for place in places:
            shutil.copytree(f"{trial.folder}/{place}", f"{trial.folder}/{place}.seen")
        for place in places:
            printed, status = trial.ended("list", f"{place}.seen", "base")
            trial.holds(f"the first post is in {place}: {status} {printed}", status == 0 and printed.startswith(b"       1  Ada > All  first\n"))


def try_spelling(trial):
    """The names of a new base are spelled as those of its folder; a base of which both spellings are there is refused and stays."""
    cases = (("an empty folder", "", False), ("one in lower case", "ab", True), ("one in upper case", "A", False), ("one in both", "aB", False))
    for what, names, is_lower in cases:
        trial.has_letters()
        for name in names:
            jam.write_files(trial.areas, name, jam.files_of(jam.one_message()), str.upper if name.isupper() else str.lower)
        before = set(os.listdir(trial.areas))
        trial.is_so(f"{what}: a base is made", trial.ended("make", "areas", "new"), (b"", 0))
        found = {name.split(".")[1] for name in set(os.listdir(trial.areas)) - before}
        trial.holds(f"{what}: the names that are made: {found}", found and all(it.islower() == is_lower for it in found))
        trial.is_so(f"{what}: a list", trial.ended("list", "areas", "new"), (b"", 0))
    trial.has_bases()
    jam.write(trial.areas, "general", jam.one_message())
    trial.has_settings(settings(port=free_port()))
    before, said = trial.bytes_of(), (b"general",)
    runs = [((word, "areas", "general"), said, {}) for word in TOOLS] + [((word, "board.toml"), said, {}) for word in ("serve", "local")]
    for run in runs:
        trial.are_refused("a base in both spellings", BOTH_SPELLINGS, [run])
    trial.holds("a base in both spellings is as it was", trial.bytes_of() == before)


if __name__ == "__main__":
    goes_through(Locks, "who has an area", (try_served, try_outsiders, try_one_base, try_together, try_read_only, try_replaced, try_spelling))
