"""What the scripts here have in common: a count of what was looked at and what was otherwise, how a program is run, served, traced and refused memory in a
folder of its own, and the settings of the boards that are tried.
"""
import hashlib
import os
import re
import resource
import shutil
import signal
import socket
import struct
import subprocess
import sys
import tempfile
import threading
from concurrent.futures import ThreadPoolExecutor

import jam
from area import User
from caller import BARE, GUARD, Caller, Otherwise, connected, end_of

TOP = os.path.dirname(os.path.dirname(os.path.realpath(__file__)))
# seconds in which a run ends that waits for nobody, however much it has to do
LIMIT = 600
with open(f"{TOP}/tests/words.txt", encoding="utf-8") as file:
    # the words of each fault line, by its number and name; in braces stand values
    WORDS = dict(line.rstrip("\n").split(": ", 1) for line in file if not line.startswith("#"))
OFFERS = b"\xff\xfb\x01\xff\xfb\x03"
LOCAL, TOOLS = ("local", "board.toml"), ("list", "check", "pack", "relink", "make")
MOST_SESSION_BYTES = 16_777_216
# how many bytes a session at the console reads at once
PIECE_BYTES = 4096
# how a run is refused: the line and the status
NO_WORDS, SHORT_HEADER, ALREADY_THERE = (b"fault 1 Words\n", 1), (b"fault 3.1 ShortHeader\n", 3), (b"fault 3.17 AlreadyThere\n", 3)
STORE_FAULT, HOST_FAULT, NO_MEMORY = (b"fault 4 StoreFault\n", 4), (b"fault 5 HostFault\n", 5), (b"fault 6 OutOfMemory\n", 6)
# what the operator is told of callers and packs
LOGGED = re.compile(rb"node \d+: |bell: |board: \S+: a change that waited ")
# what is told of a run behind one that was stopped
RECOVERED = re.compile(rb"board: \S+: a change that waited in its journal is done\n")
# what a caller is sent first, and where the disk has failed
GREETING, IN_DOUBT = b"Test Board\r\nName: ", b"Store fault: the change is in doubt.\r\n"
BOARD = """name = "Test Board"
address = "2:5020/1042"
"""
AREA = """[[area]]
name = "{}"
dir = "{}"
base = "{}"
read = 10
post = 10
sysop = 200
"""
USER = """[[user]]
name = "{}"
id = {}
level = {}
digest = "{}"
"""
USERS = (("Test", 7, 50, "ba7816bf8f01cfea414140de5dae2223b00361a396177a9cb410ff61f20015ad"),
         ("Hello", 8, 50, "9f86d081884c7d659a2feaa0c55ad015a3bf4f1b2b0b822cd15d6c15b0f00a08"),
         ("Sysop", 9, 255, "2cf24dba5fb0a30e26e83b2ac5b9e29e1b161e5c1fa7425e73043362938b9824"))
# the areas of a board that many call, and its eight users, with the numbers that they have
AREAS = ("general", "letters", "trade")
NAMES = [b"Ada", b"Barbara", b"Edsger", b"Grace", b"Hedy", b"John", b"Tony", b"Sysop"]
COUNT = len(NAMES)
SYSOP = COUNT - 1
CALLERS = [User(name, 255 if n == SYSOP else 50) for n, name in enumerate(NAMES)]
IDS = {name: 11 + n for n, name in enumerate(NAMES)}
# who runs a program as a user without rights, where this one has any
BY_ANOTHER = {"user": 65534, "group": 65534, "extra_groups": []} if os.geteuid() == 0 else {}
# refuses the allocation with a number, or all from there on, and leaves a file that says so
ALLOCATOR = r"""
#include <fcntl.h>
#include <stdatomic.h>
#include <stdlib.h>
#include <unistd.h>
extern void *__libc_malloc(size_t);
extern void *__libc_realloc(void *, size_t);
static atomic_long calls;
static int is_refused(void) {
    const char *number = getenv("REFUSED"), *path = getenv("REFUSED_FILE");
    long more = number == NULL ? -1 : atomic_fetch_add(&calls, 1) + 1 - atol(number);
    if (more < 0 || more > 0 && getenv("REFUSED_LASTS") == NULL) return 0;
    close(open(path, O_CREAT | O_WRONLY, 0600));
    return 1;
}
void *malloc(size_t size) { return is_refused() ? NULL : __libc_malloc(size); }
void *realloc(void *old, size_t size) { return is_refused() ? NULL : __libc_realloc(old, size); }
"""


def password_of(name):
    return name.lower() + b" at home"


def users():
    return [(name.decode(), IDS[name], level, hashlib.sha256(password_of(name)).hexdigest()) for name, level in CALLERS]


def placed(area):
    """The name, folder and base of an area: all three are given, or the name of one whose base is so named and lies in `areas`."""
    return (area, "areas", area) if isinstance(area, str) else area


def settings(areas=("general",), users=USERS, **numbers):
    """A settings file with these areas and users, and these numbers of the board, as nodes=2."""
    return (BOARD + "".join(f"{key} = {value}\n" for key, value in numbers.items()) + "".join(AREA.format(*placed(area)) for area in areas)
            + "".join(USER.format(*user) for user in users))


def lines(words):
    return "".join(word + "\r\n" for word in words).encode()


def one_by_one(words):
    """The same, where each line comes in a read of its own, as from one who types: the zeros behind it are no keys."""
    return b"".join(lines([word]).ljust(PIECE_BYTES, b"\0") for word in words)


def is_told(told, printed, place=None):
    """Whether this is what the operator is told of a refusal with this line: one line, on what is refused and why, in the words of words.txt. Where a
    place is given, the base is that of the area there."""
    name = re.match(r"fault ([\d.]+ \w+)", printed.decode())
    said = WORDS[name[1]] if name and name[1] in WORDS else "none"
    words = re.sub(r"\\{\w+\\}", "[^\n]+", re.escape(said))
    refused = "(?:[^\n]+: )?" if place is None else rf"[^\n]+: the base of area {place}, looked for from the folder of this start: "
    return re.fullmatch(rf"board: {refused}{words}\n", told.decode(errors="replace")) is not None


def with_limit(most, is_lasting=True):
    """Before a program begins: no file grows beyond this, for good or until it is lifted, and the system answers so and does not end the program."""
    def before():
        signal.signal(signal.SIGXFSZ, signal.SIG_IGN)
        resource.setrlimit(resource.RLIMIT_FSIZE, (most, most if is_lasting else resource.getrlimit(resource.RLIMIT_FSIZE)[1]))
    return before


def lifts(process):
    """Lets the files of a program grow again."""
    hard = resource.prlimit(process.pid, resource.RLIMIT_FSIZE)[1]
    resource.prlimit(process.pid, resource.RLIMIT_FSIZE, (hard, hard))


def with_files(most):
    """Before a program begins: it has no more files open at once."""
    return lambda: resource.setrlimit(resource.RLIMIT_NOFILE, (most, most))


def memory_folder():
    """Where files are not written to a disk, if there is such a place: each run syncs its files."""
    return "/dev/shm" if os.access("/dev/shm", os.W_OK | os.X_OK) else None


def free_port():
    with socket.socket() as held:
        held.bind(("127.0.0.1", 0))
        return held.getsockname()[1]


def low_port():
    """A port that a user without rights may not open, if there is one and this user has the right to try."""
    with open("/proc/sys/net/ipv4/ip_unprivileged_port_start") as file:
        return 79 if os.geteuid() == 0 and int(file.read()) > 79 else None


def has_version_6():
    try:
        with socket.socket(socket.AF_INET6) as held:
            held.bind(("::1", 0))
        return True
    except OSError:
        return False


def together(tries):
    """Does all of these at the same time, and gives what each answers, or the first that is wrong."""
    tries = list(tries)
    with ThreadPoolExecutor(len(tries)) as pool:
        return [done.result() for done in [pool.submit(it) for it in tries]]


def is_quiet(caller, seconds=0.2):
    caller.line.settimeout(seconds)
    try:
        return not caller.line.recv(1, socket.MSG_PEEK) and False
    except TimeoutError:
        return True
    finally:
        caller.line.settimeout(GUARD)


def resets(line):
    """Ends a connection as one that breaks."""
    line.setsockopt(socket.SOL_SOCKET, socket.SO_LINGER, struct.pack("ii", 1, 0))
    line.close()


def may_trace():
    """Whether strace is there and may be used."""
    return shutil.which("strace") is not None and subprocess.run(
        ["strace", "-y", "-o", os.devnull, "true"], stdout=subprocess.DEVNULL, stderr=subprocess.DEVNULL, check=False).returncode == 0


def inject(call, how, at):
    """The words of strace by which a call of the system goes otherwise, the time with this number."""
    return "-e", f"inject={call}:{how}:when={at}"


class Trial:
    """What was looked at with a program, and how much of it was otherwise than it must be; each such thing is told at once."""

    def __init__(self, program, folder):
        self.program, self.folder, self.areas, self.wrong, self.tried = program, folder, f"{folder}/areas", 0, 0

    def holds(self, what, is_so):
        self.tried += 1
        if not is_so:
            self.wrong += 1
            print(f"wrong: {what}", flush=True)
        return is_so

    def is_so(self, what, found, wanted):
        return self.holds(f"{what}: {str(found)[-300:]}, where {str(wanted)[-300:]} is wanted", found == wanted)

    def tells_wrong(self, what, does):
        """Does something, and tells what a caller met that was otherwise than it must be."""
        try:
            does()
        except (Otherwise, OSError) as fault:
            self.holds(f"{what}: {type(fault).__name__} {fault}", False)

    def tells(self, what):
        """The line that a script ends with, and its status."""
        print(f"{what}: {self.tried - self.wrong} as they must, {self.wrong} otherwise")
        return 1 if self.wrong else 0

    def is_gone(self):
        """Ends what is left of a run, of which there is none here."""


class Runs(Trial):
    """Runs of the program in a folder, over the bases in `areas`."""

    def has_settings(self, text, name="board.toml"):
        with open(f"{self.folder}/{name}", "w") as file:
            file.write(text)

    def has_letters(self, *names, **head):
        """Only these bases, each with one message, whose header has these values."""
        jam.write_only(self.areas, **{name: jam.one_message(**head) for name in names})

    def base(self, name="general"):
        return jam.read(self.areas, name)[0]

    def files(self, name="general"):
        return jam.read_files(self.areas, name)

    def keeps(self, before, name="general"):
        """Whether the files of a base are as they were, but for the journal."""
        now = self.files(name)
        return all(now[it] == before[it] for it in jam.FILES)

    def is_shut(self, name="general"):
        """Whether the gate of the journal is closed."""
        return self.files(name)["jnl"][:1] == b"\0"

    def starts(self, *words, under=(), **run):
        """A run that goes on, under a tracer, where one is given."""
        run = {"cwd": self.folder, "stdin": subprocess.DEVNULL, "stdout": subprocess.PIPE, "stderr": subprocess.PIPE} | run
        return subprocess.Popen([*under, self.program, *words], **run)

    def done(self, *words, typed=None, limit=GUARD, **run):
        """What a run prints to which this is typed, its status, and what the operator is told but of changes that waited."""
        printed, status, told = end_of(self.starts(*words, **(run if typed is None else {"stdin": subprocess.PIPE} | run)), typed, limit)
        return printed, status, told and RECOVERED.sub(b"", told)

    def ended(self, *words, **run):
        """What a run prints and its status; the operator is told why it is refused, and nothing else."""
        printed, status, told = self.done(*words, **run)
        self.holds(f"{words}: what the operator is told: {told}", is_told(told, printed) if (printed or b"").startswith(b"fault ") else not told)
        return printed, status

    def are_refused(self, what, status, runs):
        """Looks whether these runs, all at once, are refused with this status, and the operator is told why: each is given as its words, the
        expressions that one of the lines has to fit in lower case, and how it is run."""
        ends = together(lambda words=words, run=run: self.done(*words, **run) for words, _, run in runs)
        for (words, said, _), (printed, ended, told) in zip(runs, ends):
            self.is_so(f"{what}, {' '.join(words)}: the status", ended, status)
            self.holds(f"{what}, {' '.join(words)}: what is printed: {printed}", re.fullmatch(rb"fault %d\b.*\n" % status, printed))
            is_said = any(all(re.search(it, line) for it in said) for line in told.lower().split(b"\n"))
            self.holds(f"{what}, {' '.join(words)}: what the operator is told: {told}, where {said} are wanted", is_said and is_told(told, printed))

    def tracer(self, *options):
        """The words that run a program under strace, as a child of this one."""
        return "strace", "-D", "-f", "-o", f"{self.folder}/trace", *options

    def trace(self):
        with open(f"{self.folder}/trace", encoding="latin1") as file:
            return list(file)

    def traced(self, *words, by, **run):
        """What a run prints and its status, and the lines of its trace with the paths of the files, by these words of strace."""
        printed, status, _ = self.done(*words, under=("strace", "-f", "-y", "-o", f"{self.folder}/trace", *by), **run)
        return printed, status, self.trace()

    def has_allocator(self):
        """Makes the allocator that refuses."""
        with open(f"{self.folder}/refusing.c", "w") as file:
            file.write(ALLOCATOR)
        subprocess.run(["cc", "-O2", "-shared", "-fPIC", "-o", f"{self.folder}/refusing.so", f"{self.folder}/refusing.c"], check=True)

    def refused(self, number, *words, lasts=False, **run):
        """What a run prints and its status where this allocation is refused, and all behind it if that lasts; and whether it came."""
        mark = f"{self.folder}/came"
        environment = {"LD_PRELOAD": f"{self.folder}/refusing.so", "REFUSED": str(number), "REFUSED_FILE": mark} | ({"REFUSED_LASTS": "1"} if lasts else {})
        printed, status, _ = self.done(*words, env=environment, **run)
        is_come = os.path.exists(mark)
        if is_come:
            os.remove(mark)
        return printed, status, is_come


class Served(Runs):
    """Runs of `serve` in one folder with the bases of three areas, for the eight users."""

    def __init__(self, program, folder):
        super().__init__(program, folder)
        self.port, self.process, self.opening, self.told, self.ear = free_port(), None, b"", [], None

    def has_bases(self):
        """Three empty bases, made by the program, and the settings."""
        shutil.rmtree(self.areas, ignore_errors=True)
        os.mkdir(self.areas)
        for area in AREAS:
            self.is_so(f"a base is made, {area}", self.ended("make", "areas", area), (b"", 0))
        self.has_settings(settings(AREAS, users(), port=self.port, nodes=COUNT))

    def begins(self, *words, areas=AREAS, nodes=COUNT, **run):
        """Begins to serve these areas, whose journals hold no change, with so many nodes."""
        live = [(name, len(jam.read(f"{self.folder}/{path}", base)[0].live())) for name, path, base in map(placed, areas)]
        self.opening = b"listening port %d nodes %d\n" % (self.port, nodes) + b"".join(
            b"area %s live %d\n" % (name.encode(), count) for name, count in live)
        self.process = self.starts("serve", "board.toml", *words, **run)
        # its lines are taken as they come: a pipe that is full would hold the board up
        side, self.process.stderr, self.told = self.process.stderr, None, []
        self.ear = threading.Thread(target=self.told.extend, args=(side,), daemon=True)
        self.ear.start()

    def caller(self, name, client=BARE, host="127.0.0.1"):
        """One who is connected, and known by this name here."""
        return Caller(connected(self.port, host, lambda: self.process.poll() is None), client, str(name))

    def user(self, n, client=BARE):
        """One of the users, logged in."""
        caller = self.caller(NAMES[n].decode(), client)
        caller.logs_in(NAMES[n], password_of(NAMES[n]))
        return caller

    def guest(self, n, area="general", client=BARE, place=None):
        """One of the users, logged in and in an area, which has this place in the settings."""
        caller = self.user(n, client)
        caller.enters(b"%d" % (place or AREAS.index(area) + 1), b"[%s] " % area.encode())
        return caller

    def ends(self, what, status, how=None):
        """Looks whether the run ends so, by itself or by this signal, has printed nothing, and has told the operator what it opened with."""
        if how is not None:
            self.process.send_signal(how)
        try:
            printed = self.process.communicate(timeout=GUARD)[0]
            self.ear.join(GUARD)
            told = b"".join(line for line in self.told if not LOGGED.match(line))
            self.is_so(f"{what}: what is printed, and the status", (printed, self.process.returncode), (b"", status))
            self.is_so(f"{what}: what the operator is told", told, self.opening + (b"closed\n" if how is None else b""))
        except subprocess.TimeoutExpired:
            self.holds(f"{what}: no end", False)
        self.is_gone()

    def is_ended(self, what, how=signal.SIGTERM):
        """Ends the run by this signal, and looks whether it ends so."""
        self.ends(what, -how, how)

    def opens_to_all(self):
        """Lets each user write what is in the folder."""
        for path in (self.folder, self.areas):
            os.chmod(path, 0o777)
            for name in os.listdir(path):
                os.chmod(f"{path}/{name}", 0o777)

    def is_gone(self):
        """Ends what is left of a run."""
        if self.process is not None and self.process.poll() is None:
            self.process.kill()
            self.process.communicate()

    def checks(self, what):
        """Looks whether a check of each base finds nothing wrong, and what is to be found; it does first what waits in the journal."""
        for area in AREAS:
            waiting = jam.recovered(self.files(area)["jnl"])
            found = self.ended("check", "areas", area)
            self.is_so(f"{what}: a check of {area}", found, (jam.figures(self.base(area)) + waiting, 0))
            self.holds(f"{what}: the gate of {area} is closed", self.is_shut(area))


def goes_through(kind, what, tries, traced=(), option=None, in_memory=True):
    """Tries all of this with the program that the words of the script name, in a folder beside a copy of it, and ends with the status. What else
    the words say has to fit the option, and is that of the trial. What is traced wants strace; where it is not there, a line says so."""
    words = sys.argv[1:]
    if not words or words[1:] and not (option and re.fullmatch(option, " ".join(words[1:]))):
        sys.exit(sys.modules["__main__"].__doc__)
    if traced and not may_trace():
        print("the calls of the system were not looked at: strace is not installed, or may not be used")
        traced = ()
    room = os.path.realpath(tempfile.mkdtemp(dir=memory_folder() if in_memory else None))
    try:
        os.chmod(room, 0o755)
        os.mkdir(f"{room}/run")
        trial = kind(shutil.copy(words[0], f"{room}/board"), f"{room}/run")
        trial.option = " ".join(words[1:])
        for tried in (*tries, *traced):
            trial.tells_wrong(tried.__name__, lambda: tried(trial))
            trial.is_gone()
    finally:
        shutil.rmtree(room)
    sys.exit(trial.tells(what))
