#!/usr/bin/env python3
"""Tries `board serve CONF` of the built program on a port of this machine: what each of several callers is sent, how a run ends, and what
the files then hold.

usage: serve.py PROGRAM [--kills N]

The callers are sockets, each a Telnet client of one of three kinds (caller.py). Eight of them post, list, read, answer, mark and kill in
three areas at once, while a ninth waits for a free node and the areas are packed. In a session of two seconds each message bears its own
moment. Then runs are killed at drawn moments while callers post, and callers who behave badly share a board with one who does not. What
must be sent is made here from what was posted; the files are read by jam.py, which knows the tables of the JAM proposal and nothing of
the program. Where N is given, as many runs are killed, at other moments, and nothing else is tried.
"""
import os
import random
import re
import shutil
import signal
import socket
import sys
import threading
import time

from area import Message, shown
from caller import GUARD, PLAIN, TALKATIVE, Otherwise
from harness import (AREAS, BY_ANOTHER, CALLERS, COUNT, GREETING, HOST_FAULT, IN_DOUBT, MOST_SESSION_BYTES, NAMES, NO_WORDS, SYSOP, TOP, Served,
                     free_port, goes_through, has_version_6, is_quiet, low_port, password_of, resets, settings, together, users, with_files, with_limit)
from visits import CLIENTS, Hall, Visit


def try_callers(trial):
    """Eight callers at once and a ninth who waits, then seven more, and the end when each node has served two."""
    trial.has_bases()
    since = int(time.time())
    trial.begins("--calls", "2")
    hosts = ["127.0.0.1"] * (COUNT - 1) + ["::1" if has_version_6() else "127.0.0.1"]
    hall = Hall()
    first = trial.caller(NAMES[0].decode(), CLIENTS[0])
    visits = [Visit(hall, n, first if n == 0 else trial.caller(NAMES[n].decode(), CLIENTS[n], hosts[n])) for n in range(COUNT)]
    together(visit.logs_in for visit in visits)
    ninth = trial.caller("the ninth")
    ninth.types(b"Grace\n%s\n1\nq\n" % password_of(b"Grace"))
    for step in (Visit.posts, Visit.looks, Visit.answers, Visit.lists_again):
        together((lambda visit=visit: step(visit)) for visit in visits)
    trial.holds("who waits for a node is sent nothing", is_quiet(ninth))
    together(visit.caller.quits for visit in visits)
    ninth.reads(b"Test Board\r\nName: Password: Welcome, Grace.\r\nTop> ")
    figures = ninth.reads_to(b"[general] Goodbye.\r\n")
    trial.is_so("who waited is served", figures, shown(hall.areas["general"].figures(CALLERS[NAMES.index(b"Grace")])))
    try_ends(trial)
    trial.ends("each node has served two", 0)
    hall.compares(trial, "eight callers", since)
    trial.checks("eight callers")


def try_ends(trial):
    """Seven more, each with an end of another kind."""
    def wrong():
        caller = trial.caller("one who guesses")
        caller.types(b"Ada\nx\n" * 3)
        caller.reads(b"Test Board\r\nName: " + b"Password: Login incorrect.\r\nName: " * 2 + b"Password: Login incorrect.\r\nGoodbye.\r\n")

    def hung_up(typed):
        caller = trial.caller("one who hangs up")
        caller.types(typed)
        caller.line.close()

    def reset():
        caller = trial.caller("one who is cut off")
        caller.types(b"Ad")
        resets(caller.line)

    def quit_at_once():
        caller = trial.caller("Hedy", TALKATIVE)
        caller.logs_in(b"Hedy", password_of(b"Hedy"))
        caller.quits()

    together((wrong, reset, quit_at_once, quit_at_once, lambda: hung_up(b""), lambda: hung_up(b"Ad"), lambda: hung_up(b"Ada\n")))


def try_clock(trial):
    """In one session each post bears the moment in which it is made, and a reading by who is to receive it that of the reading."""
    trial.has_bases()
    trial.begins()
    caller, moments = trial.guest(0), []
    for does in [lambda: caller.posts(NAMES[0], b"a post", [b"a line"])] * 2 + [lambda: caller.enters(b"1", b"[general] ")]:
        # so each has seconds of its own, the first too, which are not those of the log-in
        time.sleep(1.1)
        since = int(time.time())
        does()
        moments.append((since, int(time.time())))
    caller.quits()
    trial.is_ended("a session that goes on")
    first, second = (message.head for message in trial.base().slots)
    found = [first["written"], second["written"], first["received"]]
    trial.holds(f"two posts and a reading bear {found}, where {moments} are wanted", all(low <= it <= high for it, (low, high) in zip(found, moments)))
    trial.holds(f"the moments {found} are later and later", found == sorted(set(found)))
    trial.is_so("what nobody has read bears no moment of it", second["received"], 0)


class Poster:
    """One who posts until the line breaks, and what was acknowledged to them until then."""

    def __init__(self, trial, hall, n, draw):
        self.hall, self.n, self.draw, self.count, self.under_way, self.killing = hall, n, draw, 0, None, None
        self.area = AREAS[n % len(AREAS)]
        self.prompt, self.caller = b"[%s] " % self.area.encode(), trial.guest(n, self.area, CLIENTS[n])

    def goes_on(self, is_broken):
        """Posts again and again; the sysop kills every other message of their own, and packs."""
        try:
            while True:
                number = self.posts()
                if self.n == SYSOP and self.count % 2:
                    self.kills(number)
        except (Otherwise, ConnectionError):
            if not is_broken.is_set():
                raise
            self.hears_the_last()

    def posts(self):
        text = [b"%d of %s" % (self.draw.randrange(10**9), NAMES[self.n]), b"x" * self.draw.randrange(70)]
        self.under_way = Message(NAMES[self.n], b"All", b"post %d" % self.draw.randrange(10**9), text)
        number = self.caller.posts(b"All", self.under_way.subject, text, False, self.prompt)
        self.is_posted(number)
        self.count += 1
        return number

    def is_posted(self, number):
        self.hall.adds(self.area, number, self.under_way)
        self.under_way = None

    def kills(self, number):
        self.killing = self.hall.areas[self.area].messages[number]
        self.caller.answers(b"k %d" % number, b"Killed %d.\r\n" % number, self.prompt)
        self.killing.is_killed, self.killing = True, None
        if not self.caller.enters(b"x", self.prompt).startswith(b"Packed: "):
            raise Otherwise("a pack was refused")

    def hears_the_last(self):
        """What was acknowledged in the last text that came, of which the rest was lost."""
        posted = re.search(rb"Posted as (\d+)\.", self.caller.seen)
        if self.under_way is not None and posted:
            self.is_posted(int(posted[1]))
        if self.killing is not None and b"Killed " in self.caller.seen:
            self.killing.is_killed, self.killing = True, None

    def settles(self, live):
        """Finds out whether what was under way came to be: it did whole, or not at all."""
        known = self.hall.areas[self.area].messages
        if self.under_way is not None:
            for number in [it for it in live if it not in known and live[it].first(6) == self.under_way.subject][:1]:
                self.is_posted(number)
        if self.killing is not None:
            self.killing.is_killed = not any(known[number] is self.killing for number in live if number in known)


def try_kills(trial):
    """The program is ended at drawn moments while callers post, and begun again over the same bases: what was acknowledged is there. The bases
    are new in every tenth run."""
    runs = int(trial.option.split()[1]) if trial.option else 4
    draw, since = random.Random(16 + runs), int(time.time())
    for turn in range(runs):
        if turn % 10 == 0:
            trial.has_bases()
            hall = Hall()
        how = signal.SIGTERM if turn % 4 == 2 else signal.SIGKILL
        what = f"run {turn + 1}, which is ended by {how.name}"
        trial.begins()
        posters = together((lambda n=n, seed=draw.random(): Poster(trial, hall, n, random.Random(seed))) for n in range(COUNT))
        is_broken, many, rest = threading.Event(), draw.randrange(20, 200), draw.random() / 200
        threads = [threading.Thread(target=trial.tells_wrong, args=(what, lambda it=it: it.goes_on(is_broken))) for it in posters]
        for thread in threads:
            thread.start()
        end = time.monotonic() + GUARD
        while sum(it.count for it in posters) < many and any(thread.is_alive() for thread in threads) and time.monotonic() < end:
            time.sleep(0.0005)
        time.sleep(rest)
        is_broken.set()
        trial.is_ended(what, how)
        for thread in threads:
            thread.join()
        trial.holds(f"{what}: {many} posts were acknowledged", sum(it.count for it in posters) >= many)
        trial.checks(what)
        for poster in posters:
            poster.settles(trial.base(poster.area).live())
        hall.compares(trial, what, since)


def try_rude(trial):
    """Callers who say nothing, never read, send bytes 255 for ever, hang up or break off harm nobody, and cost no node but their own."""
    trial.has_bases()
    since, hall = int(time.time()), Hall()
    trial.begins()
    silent = trial.caller("one who says nothing")
    deaf, endless = trial.guest(1), trial.caller("one who sends bytes 255 for ever")
    stuffed, sent = threading.Thread(target=stuffs, args=(deaf,)), []
    flood = threading.Thread(target=lambda: sent.append(floods(endless.line)))
    stuffed.start()
    flood.start()
    polite = trial.guest(0, client=PLAIN)
    for n in range(30):
        for typed in (b"", b"Ad", b"Ada\n", b"Ada\n%s\n1\np\nAll\nnever posted\nn\na line" % password_of(b"Ada")):
            rude = trial.caller("one who hangs up")
            rude.types(typed)
            if n % 2:
                resets(rude.line)
            else:
                rude.line.close()
        message = Message(b"Ada", b"All", b"post %d" % n, [b"a line"])
        hall.adds("general", polite.posts(b"All", message.subject, message.text), message)
    area = hall.areas["general"]
    polite.answers(b"l", area.listed(area.seen(CALLERS[0])[:20]), b"[general] ")
    for thread in (stuffed, flood):
        thread.join(3 * GUARD)
    trial.holds(f"bytes 255 are taken up to the most of a session: {sent}", bool(sent) and sent[0] >= MOST_SESSION_BYTES)
    together((lambda n=n: trial.guest(n).quits()) for n in range(2, 2 + COUNT - 3))
    five = together((lambda n=n: trial.guest(n)) for n in range(2, 2 + COUNT - 3))
    waits = trial.caller("one more")
    trial.holds("three nodes are held, and five are free", is_quiet(waits))
    silent.line.close()
    waits.reads(GREETING)
    for caller in [polite] + five:
        caller.quits()
    trial.is_ended("after rude callers")
    trial.checks("after rude callers")
    hall.compares(trial, "after rude callers", since)


def stuffs(caller, asked=b"?\n"):
    """Asks on and on without a look at the answers, until nothing more is taken."""
    caller.line.settimeout(1)
    try:
        while True:
            caller.line.sendall(asked * 8192)
    except OSError:
        return


def floods(line):
    """Sends bytes 255 until the board hangs up, and says how many were taken."""
    sent = 0
    try:
        while True:
            sent += line.send(b"\xff" * 65536)
    except OSError:
        return sent


def try_refusals(trial):
    """What keeps a board from being served, by its status and its line; the areas are then as they were."""
    trial.port = free_port()
    trial.has_bases()
    before = {area: trial.files(area) for area in AREAS}
    words = ("serve", "board.toml")
    for family, host in [(socket.AF_INET, "0.0.0.0"), (socket.AF_INET, "127.0.0.1")] + [(socket.AF_INET6, "::")] * has_version_6():
        with socket.socket(family) as held:
            held.bind((host, trial.port))
            held.listen()
            trial.is_so(f"a port that another has at {host}", trial.ended(*words), HOST_FAULT)
    low = low_port()
    if low is not None:
        trial.has_settings(settings(AREAS, users(), port=low, nodes=COUNT))
        trial.opens_to_all()
        trial.is_so(f"port {low}, without the right", trial.ended(*words, **BY_ANOTHER), HOST_FAULT)
    trial.holds("where a port is refused the areas are as they were", all(trial.keeps(before[area], area) and trial.is_shut(area) for area in AREAS))
    for path in ("nothing.toml", "areas"):
        trial.is_so(f"the settings file {path}", trial.ended("serve", path), HOST_FAULT)
    trial.has_settings(settings(AREAS, users(), port=trial.port, nodes=33))
    trial.is_so("33 nodes", trial.ended(*words), (b"fault 2.4 OutOfRange nodes\n", 2))
    trial.has_settings(settings(AREAS + ("more",), users(), port=trial.port))
    trial.is_so("an area that is not there", trial.ended(*words), (b"fault 3.1 ShortHeader\n", 3))
    counts = ("0", "1000001", "+1", "00000000001", "one", "")
    for behind in ((), ("",), ("board.toml", "--calls"), *(("board.toml", "--calls", count) for count in counts), ("board.toml", "--call", "1"),
                   ("board.toml", "1"), ("--calls", "1", "board.toml"), ("board.toml", "--calls", "1", "more")):
        trial.is_so(f"the words {behind}", trial.ended("serve", *behind), NO_WORDS)


def try_doubt(trial):
    """A disk that fails while callers are served: each is told so, and goes on, and the run ends with status 4."""
    trial.has_bases()
    trial.has_settings(settings(AREAS, users(), port=trial.port, nodes=2))
    trial.begins("--calls", "0000000001", nodes=2, preexec_fn=with_limit(40))
    callers = together((lambda n=n: trial.guest(n)) for n in range(2))
    for caller in callers:
        trial.is_so("a post into it", caller.writes(b"All", b"it fails", [b"a line"]), IN_DOUBT)
    for caller in callers:
        caller.quits()
    trial.ends("a journal that does not grow", 4)
    trial.checks("a journal that does not grow")
    trial.is_so("nothing was posted", trial.base().slots, [])


def try_few_files(trial):
    """The system has files for three callers: those who come then wait, and are served when others have left; no node is lost by that."""
    trial.has_bases()
    trial.has_settings(settings(AREAS, users(), port=trial.port, nodes=COUNT, pack_minutes=0))
    trial.begins()
    served = trial.caller("one who is served")
    served.reads(GREETING)
    files = len(os.listdir(f"/proc/{trial.process.pid}/fd")) - 1
    served.line.close()
    trial.is_ended("a run whose files are counted")
    trial.begins(preexec_fn=with_files(files + 3))
    callers = [trial.caller(f"caller {n + 1} of 12") for n in range(12)]
    for n in range(0, len(callers), 3):
        for caller in callers[n:n + 3]:
            caller.reads(GREETING)
        trial.holds("who gets no file is sent nothing", n + 3 == len(callers) or is_quiet(callers[n + 3]))
        for caller in callers[n:n + 3]:
            caller.line.close()
    for _ in range(2 * COUNT):
        last = trial.caller("one who comes when all have left")
        last.reads(GREETING)
        last.line.close()
    trial.is_ended("few files")
    trial.checks("few files")


def try_example(trial):
    """The settings that are shown to an operator, at another port."""
    shutil.rmtree(trial.areas)
    os.mkdir(trial.areas)
    trial.is_so("a base is made", trial.ended("make", "areas", "general"), (b"", 0))
    with open(f"{TOP}/examples/board.toml") as file:
        text = file.read()
    trial.holds("the port and the nodes that are shown", "\nport = 2323\n" in text and "\nnodes = 4\n" in text)
    trial.has_settings(text.replace("port = 2323", f"port = {trial.port}"))
    warned = b"".join(b"user.%d.digest is one of the example\n" % n for n in (1, 2, 3))
    trial.begins(areas=("general",), nodes=4)
    trial.opening += warned
    caller = trial.caller("Ada", PLAIN)
    caller.logs_in(b"Ada", b"good morning", b"A Small Board")
    caller.enters(b"1", b"[general] ")
    trial.is_so("the first post", caller.posts(b"Sysop", b"A question", [b"When is the next pack?"]), 1)
    caller.quits()
    trial.is_ended("the settings that are shown")
    trial.is_so("what is then listed", trial.ended("list", "areas", "general"), (b"       1  Ada > Sysop  A question\n", 0))
    trial.begins("--calls", "1", areas=("general",), nodes=4)
    trial.opening += warned
    together(lambda: trial.caller("who leaves").line.close() for _ in range(4))
    trial.ends("the same, of which one message is live", 0)


TRIES = (try_callers, try_clock, try_kills, try_rude, try_refusals, try_doubt, try_few_files, try_example)

if __name__ == "__main__":
    goes_through(Served, "callers at a port", [try_kills] if sys.argv[2:] else TRIES, option=r"--kills \d+", in_memory=False)
