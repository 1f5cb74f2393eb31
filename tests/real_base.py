#!/usr/bin/env python3
"""Tries the tools of the built program on a real base, and on copies of it in another order and state.

usage: real_base.py PROGRAM

The messages in tests/peer were written by JamNNTPd 1.3 (Debian 12, i386) as they were posted to it, into an empty base. The
copies have their headers and texts in a drawn order with dead bytes between, killed messages, holes in the index, marks, and
another base number. Each tool is used on each of them; what it prints and what the files then hold is compared with the reading
of jam.py, which knows the tables of the JAM proposal and nothing of the program. Then the tools are used where a change waits in
the journal, where nothing may be written, and on damaged files.
"""
import itertools
import os
import random
import shutil
import struct
import time

from harness import ALREADY_THERE, BY_ANOTHER, SHORT_HEADER, STORE_FAULT, TOOLS, Runs, goes_through
from jam import (DELETED, EMPTY, FIELDS, FILES, LINKS, MOST_SLOTS, checked, crc, figures, fixed_header, held_links, journal_of, links_of, listing, path_of,
                 read, read_files, recovered, ulong, write, write_files)

PEER = os.path.join(os.path.dirname(os.path.abspath(__file__)), "peer")


class Tools(Runs):
    """Uses of the program's tools in one folder, each with what it must print and its status."""

    def uses(self, word, name, text, status=0, **run):
        self.is_so(f"{word} {name}", self.ended(word, self.folder, name, **run), (text, status))

    def all_files(self):
        return [(name, open(f"{self.folder}/{name}", "rb").read()) for name in sorted(os.listdir(self.folder))]


def same_but_links(old, new, kept_numbers):
    """Whether the messages that were live are there as they were, but for their links, their places, and the numbers in their headers
    where these are not kept."""
    free = set(LINKS) | {"offset"} | (set() if kept_numbers else {"number"})
    was, now = old.live(), new.live()
    return was.keys() == now.keys() and all(
        (was[n].fields, was[n].text, was[n].owner) == (now[n].fields, now[n].text, now[n].owner)
        and all(was[n].head[field] == now[n].head[field] for field in FIELDS if field not in free) for n in was)


def count_grew(old, new, grows):
    """Whether the counter of changes grew by one, or stayed, and the number of live messages stands where it grew."""
    was, now = struct.unpack_from("<II", old.fixed, 8), struct.unpack_from("<II", new.fixed, 8)
    rest = old.fixed[:8] + old.fixed[16:20] + old.fixed[24:] == new.fixed[:8] + new.fixed[16:20] + new.fixed[24:]
    return rest and (now == ((was[0] + 1) % 2**32, len(new.live())) if grows else now == was)


def try_tools(trial, name):
    """Uses each tool that there is on a base that is whole."""
    base, _, _ = read(trial.folder, name)
    before = read_files(trial.folder, name)
    trial.uses("list", name, listing(base))
    trial.uses("check", name, checked(base))
    trial.holds(f"{name}: list and check write nothing", read_files(trial.folder, name) == before)

    changed = sum(held_links(base)[n] != links for n, links in links_of(base).items())
    trial.uses("relink", name, b"Relinked: %d changed.\n" % changed)
    linked, _, _ = read(trial.folder, name)
    after = read_files(trial.folder, name)
    trial.holds(f"{name}: relink keeps all but the links", same_but_links(base, linked, True)
                and all(before[e] == after[e] for e in ("jdt", "jdx", "jlr")) and len(before["jhr"]) == len(after["jhr"]))
    trial.holds(f"{name}: relink links", held_links(linked) == links_of(base) == links_of(linked))
    trial.holds(f"{name}: relink counts a change", count_grew(base, linked, changed > 0))
    trial.uses("relink", name, b"Relinked: 0 changed.\n")
    trial.uses("list", name, listing(base))

    live = base.live()
    killed = sum(m is not None for m in base.slots) - len(live)
    next_number = base.number + len(base.slots)
    first = min(live, default=next_number)
    trial.uses("pack", name, b"Packed: base %d, live %d, dropped %d.\n" % (first, len(live), killed))
    packed, header_gaps, text_gaps = read(trial.folder, name)
    after = read_files(trial.folder, name)
    trial.holds(f"{name}: pack keeps each message", same_but_links(base, packed, False))
    trial.holds(f"{name}: pack writes the numbers", all(m.head["number"] == n for n, m in packed.live().items()))
    trial.holds(f"{name}: pack leaves no gap", (header_gaps, text_gaps) == (0, 0))
    places = [at for _, at in struct.iter_unpack("<II", after["jdx"]) if at != EMPTY]
    offsets = [m.head["offset"] for _, m in sorted(packed.live().items())]
    trial.holds(f"{name}: pack keeps the order", places == sorted(places) and offsets == sorted(offsets))
    trial.holds(f"{name}: pack leaves no killed message", all(m is None or m.is_live() for m in packed.slots))
    trial.holds(f"{name}: pack keeps base, next number and marks", packed.number == first
                and packed.number + len(packed.slots) == next_number and after["jlr"] == before["jlr"])
    trial.holds(f"{name}: pack links", held_links(packed) == links_of(base))
    trial.holds(f"{name}: pack counts a change", count_grew(linked, packed, True))
    trial.uses("list", name, listing(base))
    trial.uses("check", name, checked(packed))


def copy(trial, name):
    for extension in FILES:
        shutil.copyfile(f"{PEER}/PLAIN.{extension}", f"{trial.folder}/{name}.{extension}")


def drawn_base(seed, draw):
    """The real base with killed messages, holes, marks and another base number."""
    base, _, _ = read(PEER, "PLAIN")
    shift = draw.choice((0, 0, 1, 40_000))
    for n, message in enumerate(base.slots):
        message.head["number"] += shift
        for link in LINKS:
            message.head[link] = draw.choice((0, message.head[link], draw.randrange(0, 2**32), shift + draw.randrange(1, 61)))
        if draw.random() < (0.9 if seed % 4 == 0 else 0.3):
            message.head["attribute"] |= DELETED
        message.head["read"] = draw.randrange(0, 9)
        if draw.random() < 0.1:
            base.slots[n] = None
    base.slots += [None] * draw.randrange(0, 3)
    base.marks = draw.randbytes(16 * draw.randrange(0, 4))
    base.fixed = base.fixed[:8] + struct.pack("<II", draw.choice((0, EMPTY)), draw.randrange(0, 2**32)) + base.fixed[16:20] \
        + struct.pack("<I", 1 + shift) + base.fixed[24:]
    return base


def crcs_of(message):
    """The UserCRC, MSGIDcrc and REPLYcrc that a message has by its receiver, MSGID and REPLYID."""
    return tuple(EMPTY if text is None else crc(text) for text in map(message.first, (3, 4, 5)))


def try_whole(trial):
    """The base as it is, and the copies."""
    base, _, _ = read(PEER, "PLAIN")
    trial.holds("each CRC is that of its text", all((m.owner, m.head["msgid_crc"], m.head["reply_crc"]) == crcs_of(m) for m in base.slots))
    trial.holds("the listing is the stored one", listing(base) == open(f"{PEER}/PLAIN.list", "rb").read())
    copy(trial, "plain")
    try_tools(trial, "plain")
    for seed in range(24):
        draw = random.Random(seed)
        write(trial.folder, f"drawn{seed}", drawn_base(seed, draw), draw)
        try_tools(trial, f"drawn{seed}")


def try_journal(trial):
    """A change that waits in the journal, of either version, is done first, and a journal that holds none is refused."""
    base, _, _ = read(PEER, "PLAIN")
    at = struct.unpack_from("<II", read_files(PEER, "PLAIN")["jdx"], 8 * 9)[1]
    killed = struct.pack("<I", base.slots[9].head["attribute"] | DELETED)
    for word, (change, place) in itertools.product(TOOLS, ((None, 28), (7, 36))):
        journal = journal_of([(0, at + 52, killed)], change=change)
        name = f"waiting_{word}_{change}"
        copy(trial, name)
        write_files(trial.folder, name, {"jnl": journal})
        base, _, _ = read(PEER, "PLAIN")
        base.slots[9].head["attribute"] |= DELETED
        changed = sum(held_links(base)[n] != links for n, links in links_of(base).items())
        trial.uses(word, name, {"list": listing(base), "check": figures(base) + recovered(journal), "relink": b"Relinked: %d changed.\n" % changed,
                                "pack": b"Packed: base 1, live 59, dropped 1.\n", "make": ALREADY_THERE[0]}[word],
                   3 if word == "make" else 0)
        trial.holds(f"{name}: the gate is closed", read_files(trial.folder, name)["jnl"][0] == 0)
        trial.uses("list", name, listing(base))
        name = f"refused_{word}_{change}"
        copy(trial, name)
        write_files(trial.folder, name, {"jnl": journal[:-5]})
        before = read_files(trial.folder, name)
        trial.uses(word, name, b"fault 3.14 BadJournal %d\n" % place, 3)
        trial.holds(f"{name}: the files are as they were", read_files(trial.folder, name) == before)


def try_kept(trial):
    """Where nothing may be written or read, what is asked is refused by its name, and all is left as it is."""
    copy(trial, "kept")
    copy(trial, "shut")
    base, _, _ = read(PEER, "PLAIN")
    before = trial.all_files()
    os.chmod(f"{trial.folder}/shut.jhr", 0)
    os.chmod(trial.folder, 0o555)
    trial.uses("list", "kept", listing(base), **BY_ANOTHER)
    trial.uses("check", "kept", checked(base), **BY_ANOTHER)
    trial.uses("make", "kept", *ALREADY_THERE, **BY_ANOTHER)
    for word in ("relink", "pack"):
        trial.uses(word, "kept", *STORE_FAULT, **BY_ANOTHER)
    for word in TOOLS[:-1]:
        trial.uses(word, "nothing", *SHORT_HEADER, **BY_ANOTHER)
    trial.uses("make", "nothing", *STORE_FAULT, **BY_ANOTHER)
    for word in TOOLS:
        trial.uses(word, "shut", *STORE_FAULT, **BY_ANOTHER)
    os.chmod(trial.folder, 0o755)
    os.chmod(f"{trial.folder}/shut.jhr", 0o644)
    trial.holds("what may not be written is as it was", trial.all_files() == before)


def try_made(trial):
    """A base that is made is empty and whole, and is not made over another."""
    since = int(time.time())
    trial.uses("make", "made", b"")
    found = read_files(trial.folder, "made")
    created = ulong(found["jhr"], 4)
    trial.holds("make writes a fixed header", found["jhr"] == fixed_header(created=created) and since <= created <= time.time())
    trial.holds("make leaves three empty files", all(os.path.exists(path_of(trial.folder, "made", it)) and not found[it] for it in FILES[1:]))
    trial.uses("list", "made", b"")
    trial.uses("check", "made", b"base 1\nnext 1\nlive 0\nkilled 0\nempty 0\nmsgids 0\nlinked yes\nrecovered closed\n")
    trial.uses("make", "made", *ALREADY_THERE)
    for extension in ("JHR", "JDT", "JDX", "JLR"):
        name = f"only_{extension}"
        write_files(trial.folder, name, {extension: b"J"}, str.upper)
        trial.uses("make", name, *ALREADY_THERE)
        trial.holds(f"make keeps a .{extension}", open(f"{trial.folder}/{name}.{extension}", "rb").read() == b"J")


def try_damaged(trial):
    """What is wrong is named, with its place, and the files are left as they are."""
    index = read_files(PEER, "PLAIN")["jdx"]
    places = [at for _, at in struct.iter_unpack("<II", index)]
    damages = {
        "3.1 ShortHeader": ("jhr", lambda data: data[:1023]),
        "3.2 BadSignature": ("jhr", lambda data: b"jAM\0" + data[4:]),
        "3.3 BaseZero": ("jhr", lambda data: data[:20] + bytes(4) + data[24:]),
        "3.4 IndexLength": ("jdx", lambda data: data + bytes(4)),
        "3.5 LastreadLength": ("jlr", lambda data: data + bytes(15)),
        "3.6 TooManySlots": ("jdx", lambda data: data + b"\xff" * (8 * MOST_SLOTS)),
        "3.7 NumberRange": ("jhr", lambda data: data[:20] + b"\xff" * 4 + data[24:]),
        "3.8 HeaderPlace 7": ("jdx", lambda data: data[:52] + struct.pack("<I", 1023) + data[56:]),
        "3.9 HeaderSignature 8": ("jhr", lambda data: data[:places[7]] + b"X" + data[places[7] + 1:]),
        "3.10 HeaderRevision 9": ("jhr", lambda data: data[:places[8] + 4] + b"\2" + data[places[8] + 5:]),
        "3.12 TextPlace 60": ("jdt", lambda data: data[:-1]),
        "3.13 HeadersOverlap 3 5": ("jdx", lambda data: data[:36] + data[20:24] + data[40:]),
    }
    for text, (extension, damage) in damages.items():
        for word in TOOLS:
            name = "damaged"
            copy(trial, name)
            write_files(trial.folder, name, {extension: damage(read_files(trial.folder, name)[extension])})
            before = read_files(trial.folder, name)
            trial.uses(word, name, ALREADY_THERE[0] if word == "make" else f"fault {text}\n".encode(), 3)
            trial.holds(f"{word} of {text} leaves the files", read_files(trial.folder, name) == before)


if __name__ == "__main__":
    goes_through(Tools, "tools on a real base", (try_whole, try_journal, try_made, try_kept, try_damaged), in_memory=False)
