#!/usr/bin/env python3
"""Tries what a board asks of the system: ports, urgent data, files that it may not write, that are none or were cut, files that it makes, a disk that
fails while it packs, posts beside a pack, the time for which it waits, and how many files it has open.

usage: edge.py PROGRAM

What it asks is seen by strace, which also answers otherwise than the system would; where that is not installed, or may not be used, a line
says so, and the rest is tried. The files are read by jam.py.
"""
import itertools
import os
import re
import shutil
import signal
import socket
import stat
import struct
import subprocess
import time

import jam
from caller import GUARD, Caller, Otherwise, connected
from harness import (AREAS, BY_ANOTHER, GREETING, IN_DOUBT, LOCAL, NAMES, SHORT_HEADER, STORE_FAULT, SYSOP, TOOLS, Served, free_port, goes_through,
                     has_version_6, inject, lines, low_port, password_of, settings, together, users, with_files)
from visits import LISTED

PROMPT = b"[general] "
# what the operator is told of a port that is taken, of one that wants a right, of a settings file that is not there, and of an area
SAYS_TAKEN, SAYS_NO_RIGHT, SAYS_NO_FILE, SAYS_AREA = rb"in use", rb"not allowed|permi|right", rb"not there|no such|not found", rb"area 1\b"
FILES = tuple(map(str.upper, jam.ALL_FILES))
# those in which callers' text is written over whatever they held
SOLE, SAYS_LINK = ("JNL", "NDT"), rb"link\b.*second name"
# what may have a file's name and is none, and how it is made at a path
NO_FILES = (("folder", os.mkdir), ("pipe", os.mkfifo), ("link", lambda path: os.symlink(os.path.basename(path), path)))
# a session that posts a text of seven bytes and marks it as read, and how long each file is that it and then a pack make: at first, and at last
POSTS = ("Test", "abc", "1", "P", "Hello", "more", "N", "a line", ".", "M 1", "Q")
MADE = (("jnl", 16, None), ("jdt", 7, 7), ("jdx", 8, 8), ("jlr", 16, 16), ("ndt", 7, 7))
# how many areas there may be, and the seconds in which all of them are packed
MOST_AREAS, MOST_PACKING = 255, 60
# the files that docs/OPERATING.md says a board has open: of each area, of each node, and besides
AREA_FILES, NODE_FILES, OTHER_FILES = 7, 2, 16
# seconds for which a caller may be silent, and for which one write waits, and the minutes between two packs here
SILENT, STUCK, PACK_MINUTES = 1800, 1, 7
# the mark of a Synch, which is sent as urgent data, and the seconds after which the board has read one
MARK, PAUSE = b"\xf2", 0.5
# a call of a trace that makes a file, and one that syncs, writes or sets a length, each with the end of the name
MAKES, CHANGES = re.compile(r'"[^"]*?(\w+)", \S*O_CREAT\S* \d+\) = \d'), re.compile(r"(ftruncate|pwrite64|fsync)\(\d+<[^>]*?(\w+)>(?:, (\d+))?")
# how many texts are copied by a pack here, and how long each copy is held up, in microseconds
COPIES, COPYING = 4, 700_000
# for how long a make is kept from its lock here, in microseconds
LATE = 1_500_000
# a call of a trace as it begins, with its first word apart, and the number of a connection that is there when it ends
CALLED, ACCEPTED = re.compile(r"\d+ +(\w+)\((?:\[\{fd=)?(\w*)(.*)"), re.compile(r".*\baccept4?(?:\(| resumed>).* = (\d+)$")
# how long a call of `poll` waits, in milliseconds
WAITS = re.compile(r"\], 1, (\d+)")


class Edge(Served):
    """Runs of `serve` in one folder, also under strace."""

    def standing(self):
        """What stands in the folder of the areas: each name, what it is, and how long."""
        found = [(name, os.lstat(f"{self.areas}/{name}")) for name in sorted(os.listdir(self.areas))]
        return [(name, it.st_mode, it.st_size) for name, it in found]


def try_read_only(trial):
    """Files that may not be written are told before anybody is served, with their area."""
    runs = []
    trial.has_letters()
    for n, which in enumerate((*((it,) for it in FILES), FILES, ())):
        for word in ("serve", "local"):
            name = f"{word}{n}"
            os.mkdir(f"{trial.areas}/{name}")
            trial.is_so("a base is made", trial.ended("make", f"areas/{name}", "base"), (b"", 0))
            for extension in FILES:
                path = f"{trial.areas}/{name}/base.{extension}"
                open(path, "ab").close()
                os.chmod(path, 0o444 if extension in which else 0o666)
            # where all files may be written, one of them has to be made, and may not be
            if not which:
                os.remove(f"{trial.areas}/{name}/base.JNL")
            os.chmod(f"{trial.areas}/{name}", 0o777 if which else 0o555)
            trial.has_settings(settings([(name, f"areas/{name}", "base")], users(), port=free_port()), f"{name}.toml")
            runs.append(((word, f"{name}.toml"), (SAYS_AREA,), BY_ANOTHER))
    trial.are_refused("what may not be written", 4, runs)


def try_no_files(trial):
    """What has a file's name and is none, as a folder, is a fault of the store for each tool: it is not waited for, and nothing changes. A journal that
    is a link is refused. A folder that is a file, or is not there, has no base."""
    trial.has_letters()
    names = []
    for what, makes in NO_FILES:
        for extension in FILES:
            names.append(f"{what}{extension}")
            trial.is_so("a base is made", trial.ended("make", "areas", names[-1]), (b"", 0))
            path = f"{trial.areas}/{names[-1]}.{extension}"
            if os.path.exists(path):
                os.remove(path)
            makes(path)
    before = trial.standing()
    linked = {f"link{extension}" for extension in SOLE}
    for word in TOOLS:
        for status, some in ((4, [name for name in names if name not in linked]), (5, linked)):
            trial.are_refused("what is no file", status, [((word, "areas", name), (rb"areas/%s\b" % name.lower().encode(),), {}) for name in some])
    trial.is_so("what stands there then", trial.standing(), before)
    for folder in ("../board", "areas/nothing"):
        for word in TOOLS:
            wanted = STORE_FAULT if word == "make" else SHORT_HEADER
            trial.is_so(f"{word} in {folder}", trial.ended(word, folder, "general"), wanted)


def try_linked(trial):
    """A journal, or a file of copies, that is a symbolic link or has a second name is refused by each tool, and what it leads to stays as it is."""
    trial.has_letters()
    other, runs = f"{trial.folder}/other", []
    for n, (extension, links) in enumerate((extension, links) for extension in SOLE for links in (os.symlink, os.link)):
        name = f"led{n}"
        trial.is_so("a base is made", trial.ended("make", "areas", name), (b"", 0))
        path = f"{trial.areas}/{name}.{extension}"
        if os.path.exists(path):
            os.remove(path)
        with open(f"{other}{n}", "wb") as file:
            file.write(b"what is not of the base")
        links(f"{other}{n}", path)
        runs += [((word, "areas", name), (rb"areas/%s\b" % name.encode(), SAYS_LINK), {}) for word in TOOLS]
    trial.are_refused("a file that leads elsewhere", 5, runs)
    found = {open(f"{other}{n}", "rb").read() for n in range(2 * len(SOLE))}
    trial.is_so("what they lead to", found, {b"what is not of the base"})


def try_no_stat(trial):
    """Where the system does not tell which spelling a header file has, it is a fault of the store, and no base is made."""
    for spelled, there in ((str.lower, str.upper), (str.upper, str.lower)):
        for is_there in (True, False):
            trial.has_letters()
            if is_there:
                jam.write_files(trial.areas, "base", {"jhr": jam.fixed_header()}, there)
            before = trial.standing()
            path = f"areas/base.{spelled('jhr')}"
            for word, when in itertools.product(("list", "make"), ("", ":when=1")):
                fails = ("strace", "-f", "-o", os.devnull, "-P", path, "-e", f"inject=statx,newfstatat,stat:error=EIO{when}")
                printed, status, told = trial.done(word, "areas", "base", under=fails)
                trial.is_so(f"{word}, {path} not told of{when}: {told}", (printed, status), STORE_FAULT)
            trial.is_so(f"what stands there then, {path}", trial.standing(), before)


def try_cut(trial):
    """Files that another program has cut under a board, without a lock: what lies past the end is neither read nor written, and a change that was begun
    is done once the bytes are back."""
    for extension, length, asked, listed in (("jdt", 2, b"1", True), ("jhr", 1030, b"k 1", False)):
        trial.has_letters(*AREAS)
        trial.has_settings(settings(AREAS, users(), port=trial.port, nodes=1))
        what, path = f"a .{extension} that was cut", f"{trial.areas}/general.{extension}"
        trial.begins(nodes=1)
        caller = trial.guest(SYSOP)
        with open(path, "r+b") as file:
            data = file.read()
            file.truncate(length)
            trial.is_so(f"{what}: what is told", caller.enters(asked, PROMPT), IN_DOUBT)
            trial.is_so(f"{what}: how long it is then", os.path.getsize(path), length)
            trial.is_ended(what)
            file.seek(0)
            file.write(data)
        trial.is_so(f"{what}: a list once it is whole", trial.ended("list", "areas", "general"), (LISTED if listed else b"", 0))


def try_made(trial):
    """A base that is its header file: a list makes no other; a post, a mark and a pack make them in its spelling, each with its name for good before it
    is written to."""
    trial.has_settings(settings())
    for spelled in (str.lower, str.upper):
        trial.has_letters()
        jam.write_files(trial.areas, "general", {"jhr": jam.fixed_header(counter=1, live=1)}, spelled)
        before = trial.standing()
        trial.is_so("a list of a header file", (trial.ended("list", "areas", "general"), trial.standing()), ((b"", 0), before))
        calls = ("-e", "trace=openat,ftruncate,pwrite64,fsync")
        posted, status, trace = trial.traced(*LOCAL, by=calls, typed=lines(POSTS))
        trial.holds(f"what is posted: {status} {posted}", status == 0 and b"\r\nPosted as 1.\r\n" in posted)
        packed, status, more = trial.traced("pack", "areas", "general", by=calls)
        trial.is_so("a pack of it", (packed, status), (b"Packed: base 1, live 1, dropped 0.\n", 0))
        steps = [f"{made[1]} made" if made else " ".join(filter(None, done.groups())) for made, done in
                 ((MAKES.search(line), CHANGES.search(line)) for line in trace + more) if made or done]
        found = [steps[n:n + 3] for n, step in enumerate(steps) if step.endswith(" made")]
        trial.is_so("the files that are made", found, [[f"{spelled(it)} made", f"ftruncate {spelled(it)} {length}", "fsync areas"] for it, length, _ in MADE])
        sizes = {name.split(".")[1]: size for name, _, size in trial.standing()}
        wanted = {spelled(it): length for it, _, length in MADE} | {spelled("jhr"): 1024 + 141}
        trial.is_so("how long they are then", sizes | {spelled("jnl"): None}, wanted)


def try_permissions(trial):
    """The files of a base are for their owner and the group, less what the umask keeps from these, and never for others."""
    trial.has_settings(settings())
    for kept in (0, 0o002, 0o022, 0o027, 0o077):
        jam.write_only(trial.areas)
        trial.is_so("a base is made", trial.ended("make", "areas", "general", umask=kept), (b"", 0))
        posted, status = trial.ended(*LOCAL, typed=lines(POSTS), umask=kept)
        trial.holds(f"what is posted: {status} {posted}", status == 0 and b"\r\nPosted as 1.\r\n" in posted)
        trial.is_so("a pack of it", trial.ended("pack", "areas", "general", umask=kept), (b"Packed: base 1, live 1, dropped 0.\n", 0))
        modes = {name.split(".")[1].lower(): stat.S_IMODE(mode) for name, mode, _ in trial.standing()}
        trial.is_so(f"who may do what with the files, with the umask {kept:o}", modes, dict.fromkeys(jam.ALL_FILES, 0o660 & ~kept))


def try_making(trial):
    """While a base is made no other program has it, neither before its header file is there nor when it is."""
    trial.has_letters()
    makers, runs = [], []
    for extension in ("JNL", "JHR"):
        folder, trace = f"areas/{extension}", f"{trial.folder}/{extension}.trace"
        os.mkdir(f"{trial.folder}/{folder}")
        stops = ("-P", f"{trial.folder}/{folder}/new.{extension}", "-e", "trace=ftruncate", *inject("ftruncate", "signal=STOP", 1))
        makers.append(trial.starts("make", folder, "new", under=("strace", "-D", "-o", trace, *stops)))
        end = time.monotonic() + GUARD
        while not (os.path.exists(trace) and b"stopped by SIGSTOP" in open(trace, "rb").read()) and time.monotonic() < end:
            time.sleep(0.05)
        runs += [((word, folder, "new"), (SAYS_TAKEN, rb"\bnew\b"), {}) for word in TOOLS]
    trial.is_so("whose header file is there", [os.path.exists(f"{trial.areas}/{it}/new.JHR") for it in ("JNL", "JHR")], [False, True])
    trial.are_refused("a base that another program makes", 5, runs)
    for maker in makers:
        maker.send_signal(signal.SIGCONT)
        trial.is_so("what it prints that goes on, and its status", (maker.communicate(timeout=GUARD)[0], maker.returncode), (b"", 0))
    for extension in ("JNL", "JHR"):
        trial.is_so("a list of what was made", trial.ended("list", f"areas/{extension}", "new"), (b"", 0))


def try_ports(trial):
    """A port that is taken for either version, or wants a right, is refused by its number and the cause; one that the system picks is told."""
    trial.has_letters("general")
    number = b"%d" % trial.port
    trial.has_settings(settings(port=trial.port))
    for family, host in [(socket.AF_INET, "0.0.0.0")] + [(socket.AF_INET6, "::")] * has_version_6():
        with socket.socket(family) as held:
            if family == socket.AF_INET6:
                held.setsockopt(socket.IPPROTO_IPV6, socket.IPV6_V6ONLY, 1)
            held.bind((host, trial.port))
            held.listen()
            trial.are_refused(f"a port that another has at {host} alone", 5, [(("serve", "board.toml"), (number, SAYS_TAKEN), {})])
    low = low_port()
    if low is not None:
        trial.has_settings(settings(port=low))
        trial.opens_to_all()
        trial.are_refused("a port that wants a right", 5, [(("serve", "board.toml"), (b"%d" % low, SAYS_NO_RIGHT), BY_ANOTHER)])
    trial.are_refused("settings that are not there", 5, [((word, "nothing.toml"), (rb"nothing\.toml", SAYS_NO_FILE), {}) for word in ("serve", "local")])
    trial.has_settings(settings(port=0))
    with trial.starts("serve", "board.toml") as child:
        told = child.stderr.readline()
        found = re.fullmatch(rb"listening port ([1-9]\d*) nodes 1\n", told)
        if trial.holds(f"a port that the system picks: {told}", found):
            Caller(connected(int(found[1]), limit=5)).reads(GREETING)
        child.kill()


def try_one_version(trial):
    """Where the system has no IPv6 callers come by IPv4."""
    trial.has_letters("general")
    trial.has_settings(settings(users=users(), port=trial.port, nodes=1))
    trial.begins(areas=("general",), nodes=1, under=trial.tracer("-e", "trace=socket", *inject("socket", "error=EAFNOSUPPORT", 1)))
    trial.guest(0).quits()
    try:
        connected(trial.port, "::1", limit=0)
        trial.holds("a port for IPv4 alone", False)
    except (Otherwise, OSError):
        pass
    trial.is_ended("no IPv6")


def try_packs(trial):
    """A pack whose copies cannot be written, or not be kept for good, is a fault of the store, and nothing else: posts go on, and the next pack is done."""
    for call, error in (("fsync", "EIO"), ("fsync", "ENOSPC"), ("pwrite64", "ENOSPC"), ("ftruncate", "ENOSPC")):
        trial.has_bases()
        what, path = f"a pack, {call} with {error}", f"{trial.areas}/general.NDT"
        trial.begins(under=trial.tracer("-P", path, "-e", f"trace={call}", *inject(call, f"error={error}", 1)))
        caller = trial.guest(SYSOP)
        for n in (1, 2):
            trial.is_so(f"{what}: post {n}", caller.posts(b"All", b"post", [b"a line"]), n)
        caller.answers(b"k 1", b"Killed 1.\r\n", PROMPT)
        trial.is_so(f"{what}: what is told of it", caller.enters(b"x", PROMPT), IN_DOUBT)
        trial.holds(f"{what}: it is this file", any(call in line and "INJECTED" in line for line in trial.trace()))
        for n in (3, 4):
            trial.is_so(f"{what}: the next post", caller.writes(b"All", b"post", [b"a line"]), b"Posted as %d.\r\n" % n)
        trial.is_so(f"{what}: the next pack", caller.enters(b"x", PROMPT), b"Packed: base 2, live 3, dropped 1.\r\n")
        trial.is_ended(what)
        trial.checks(what)


def try_posts_between(trial):
    """A pack whose copies are held up, each for a while, and another caller who posts meanwhile: no post waits for more than one copy, and those that
    were done before the pack are in the packed area."""
    trial.has_bases()
    fields = [jam.named(b"Test", b"Hello", b"text %d" % n) for n in range(1, COPIES + 1)]
    slots = [jam.Message(jam.head_of(it, number=n, written=10**9, attribute=0x00800001), it, bytes([96 + n]) * jam.MOST_TEXT_BYTES, jam.crc(b"Hello"))
             for n, it in enumerate(fields, 1)]
    base = jam.Base(jam.fixed_header(counter=COPIES, live=COPIES), slots, b"")
    jam.write_files(trial.areas, "general", jam.files_of(base), str.upper)
    trial.begins(under=trial.tracer("-P", f"{trial.areas}/general.NDT", "-e", "trace=pwrite64", *inject("pwrite64", f"delay_enter={COPYING}", "1+")))
    sysop, poster, packed, posted = trial.guest(SYSOP), trial.guest(0), [], [time.monotonic()]

    def packs():
        packed.append(sysop.enters(b"x", PROMPT))

    def posts():
        while not packed:
            poster.posts(b"All", b"post", [b"a line"])
            posted.append(time.monotonic())

    together((packs, posts))
    live = int(re.search(rb"live (\d+)", packed[0])[1])
    trial.holds(f"{packed[0]}, and {len(posted) - 1} posts", COPIES + 3 <= live <= COPIES + len(posted) - 1)
    pauses = [after - before for before, after in zip(posted, posted[1:])]
    trial.holds(f"the longest pause between two posts is {max(pauses):.1f} s", max(pauses) < 2.5 * COPYING / 1_000_000)
    trial.is_ended("posts between copies")
    found = trial.base().live()
    trial.holds("the long texts are as they were", all(found[n].text == it.text for n, it in enumerate(slots, 1)))
    trial.checks("posts between copies")


def seconds(text):
    """The seconds of a time as the system takes it, by its bytes in hexadecimal."""
    return struct.unpack("<qq", bytes.fromhex(re.search(r'"([^"]*)"', text)[1].replace("\\x", "")))


def try_waiting(trial):
    """How long the board waits for a caller and between two packs, and how it ends a connection."""
    trial.has_bases()
    trial.has_settings(settings(AREAS, users(), port=trial.port, nodes=2, pack_minutes=PACK_MINUTES))
    calls = "accept,accept4,setsockopt,poll,sendto,sendmsg,write,shutdown,close,nanosleep,clock_nanosleep"
    trial.begins(nodes=2, under=trial.tracer("-xx", "-s", "65536", "-e", f"trace={calls}"))
    # both are there at once, so that each connection has a number of its own
    callers = [trial.guest(n) for n in range(2)]
    callers[0].quits()
    callers[1].types(b"q\n" + b"x\n" * 3000)
    callers[1].reads(b"Goodbye.\r\n")
    while not callers[1].is_over:
        callers[1].take()
    trial.is_ended("a board that is traced")
    looks_at(trial, trial.trace())


def looks_at(trial, trace):
    """Looks at what a trace tells of the pauses and of each connection."""
    pauses = [re.search(r"tv_sec=(\d+)", line) for line in trace if "nanosleep(" in line]
    trial.is_so("how long the board waits between two packs", [found and int(found[1]) for found in pauses], [60 * PACK_MINUTES])
    connections = {}
    for line in trace:
        accepted, called = ACCEPTED.match(line), CALLED.match(line)
        if accepted:
            connections[accepted[1]] = []
        elif called and called[2] in connections:
            connections[called[2]].append((called[1], called[3]))
    trial.is_so("how many connections there were", len(connections), 2)
    for calls in connections.values():
        names = [call for call, _ in calls]
        sent = [n for n, call in enumerate(names) if call in ("sendto", "sendmsg", "write")]
        limits = [(limit, seconds(rest)) for call, rest in calls[:sent[0]] for limit in ("SO_RCVTIMEO", "SO_SNDTIMEO")
                  if call == "setsockopt" and limit in rest]
        trial.is_so("how long one write waits", limits, [("SO_SNDTIMEO", (STUCK, 0))])
        waits = [int(WAITS.search(rest)[1]) / 1000 for call, rest in calls if call == "poll"]
        trial.holds(f"how long a caller may be silent: {waits}", SILENT - 1 < waits[0] <= SILENT + 0.001)
        last = re.search(r'"([^"]*)"', calls[sent[-1]][1])[1]
        trial.holds("the last that is sent is the farewell", last.endswith("".join(f"\\x{byte:02x}" for byte in b"Goodbye.\r\n")))
        trial.holds(f"behind the farewell the connection is ended: {names[sent[-1]:]}", {"shutdown", "close"} & set(names[sent[-1] + 1:]))


def try_synch(trial):
    """A Synch in the middle of a name takes nothing of it: its mark, which comes as urgent data, is read as the command behind its IAC."""
    trial.has_letters("general")
    trial.has_settings(settings(["general"], users(), port=trial.port, nodes=1))
    trial.begins(areas=["general"], nodes=1)
    name, iac = NAMES[0], b"\xff"
    ways = {"interrupted": (name[:2] + iac + b"\xf4" + iac, MARK, name[2:]), "at the beginning": (iac, MARK, name), "at the end": (name + iac, MARK),
            "byte by byte": tuple(bytes([it]) for it in name[:1] + iac) + (MARK,) + tuple(bytes([it]) for it in name[1:]),
            "twice": (name[:1] + iac, MARK, PAUSE, name[1:2] + iac, MARK, name[2:]), "sent as any byte": (name[:1] + iac + MARK + name[1:],), "twice at once": (name[:1] + iac, MARK, iac, MARK, name[1:])}
    for what, parts in ways.items():
        caller = trial.caller(f"a caller, {what}")
        caller.reads(GREETING)
        for part in parts:
            if part is PAUSE:
                time.sleep(PAUSE)
            else:
                caller.line.send(part, socket.MSG_OOB if part == MARK else 0)
        caller.line.send(b"\r\n")
        trial.is_so(f"a Synch {what}: what is asked then", caller.reads_to(b": "), b"Password")
        found = caller.enters(password_of(name), b"Top> ")
        trial.is_so(f"a Synch {what}: the log-in", found, b"Welcome, %s.\r\n" % name)
        caller.quits()
    trial.is_ended("a board that is interrupted")


def try_late_make(trial):
    """A make that is late with its lock takes no base from who has posted into it meanwhile, by whatever path it came to the folder."""
    name = NAMES[0]
    typed = b"\r".join((name, password_of(name), b"1", b"p", b"All", b"first", b"n", b"a line", b".", b"q", b"q", b""))
    for n, words in enumerate((("areas", "late0"), (".", "areas/late1"), ("areas/..", "areas/late2"))):
        base = f"late{n}"
        trial.has_settings(settings([(base, "areas", base)], users()), "late.toml")
        late = trial.tracer("-e", "trace=flock", "-e", f"inject=flock:delay_enter={LATE}:when=2")
        making = trial.starts("make", *words, under=late, stdout=subprocess.DEVNULL, stderr=subprocess.DEVNULL)
        while making.poll() is None and not os.path.exists(f"{trial.areas}/{base}.JHR"):
            time.sleep(0.01)
        printed, _, told = trial.done("local", "late.toml", typed=typed)
        making.wait()
        listed = trial.ended("list", "areas", base)
        trial.holds(f"a late make, {words}: the post: {printed[-200:]} {told}", b"Posted as 1." in printed)
        trial.is_so(f"a late make, {words}: what is listed", listed, (b"       1  %s > All  first\n" % name, 0))


def try_put_back(trial):
    """Files of a backup that were put in the place of those of a served area are left as they are."""
    trial.has_letters("general")
    shutil.copytree(trial.areas, f"{trial.folder}/backup")
    trial.has_settings(settings(["general"], users(), port=trial.port, nodes=1))
    trial.begins(areas=["general"], nodes=1)
    caller = trial.guest(0)
    trial.is_so("a post before", caller.posts(b"All", b"post", [b"a line"], False, PROMPT), 2)
    backup = {name: open(f"{trial.folder}/backup/{name}", "rb").read() for name in os.listdir(f"{trial.folder}/backup")}
    for name in backup:
        os.rename(f"{trial.folder}/backup/{name}", f"{trial.areas}/{name}")
    trial.is_so("a post then", caller.writes(b"All", b"post", [b"a line"], False, PROMPT), IN_DOUBT)
    trial.is_ended("a board whose files were put back")
    trial.is_so("what was put back, as it is listed", trial.ended("list", "areas", "general"), (LISTED, 0))
    found = {name: open(f"{trial.areas}/{name}", "rb").read() for name in backup}
    trial.holds("what was put back is as it was", found == backup)
    shutil.rmtree(f"{trial.folder}/backup")


def try_many(trial):
    """As many areas as there may be, in no more open files than an operator is told of."""
    names = [f"area{n}" for n in range(1, MOST_AREAS + 1)]
    trial.has_letters(*names)
    trial.has_settings(settings(names, users(), port=trial.port, nodes=1))
    most = MOST_AREAS * AREA_FILES + NODE_FILES + OTHER_FILES
    trial.begins("--calls", "1", areas=names, nodes=1, preexec_fn=with_files(most))
    caller = trial.user(0)
    end = time.monotonic() + MOST_PACKING
    while not all(os.path.exists(f"{trial.areas}/{name}.ndt") for name in names) and time.monotonic() < end:
        time.sleep(0.05)
    trial.holds("each area is packed", time.monotonic() < end)
    for n in (1, MOST_AREAS // 2, MOST_AREAS):
        prompt = b"[area%d] " % n
        caller.enters(b"%d" % n, prompt)
        caller.answers(b"m 1", b"Mark is 1, high 1.\r\n", prompt)
        trial.is_so(f"a post in area {n}", caller.posts(b"All", b"post", [b"a line"], False, prompt), 2)
        caller.enters(b"b", b"Top> ")
    count = len(os.listdir(f"/proc/{trial.process.pid}/fd"))
    print(f"{MOST_AREAS} areas and a caller: {count} open files, {most} at most")
    trial.holds(f"{count} open files, where {most} are the most", count <= most)
    caller.quits()
    trial.ends("as many areas as there may be", 0)
    trial.is_so("the last of them", len(trial.base(names[-1]).live()), 2)


if __name__ == "__main__":
    goes_through(Edge, "what a board asks of the system", (try_read_only, try_no_files, try_linked, try_ports, try_cut, try_put_back, try_synch, try_many,
                                                             try_permissions),
                 (try_no_stat, try_made, try_making, try_late_make, try_one_version, try_packs, try_posts_between, try_waiting))
