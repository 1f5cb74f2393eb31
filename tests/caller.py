"""A caller of a board: over a socket, as one of several Telnet clients, over pipes, or at a terminal; and what it is sent."""
import fcntl
import os
import pty
import select
import socket
import subprocess
import termios
import time

IAC, WILL, WONT, DO, DONT = 255, 251, 252, 253, 254
ECHO, AHEAD = 1, 3
OFFERED = [(WILL, ECHO), (WILL, AHEAD)]
# seconds in which an answer is waited for before it is taken as not coming
GUARD = 20


class Otherwise(Exception):
    """A caller was sent something else than it must be, or nothing."""


class Client:
    """How a client behaves: what it says at once of its options, whether it takes up what is offered, what it sends for the key Enter,
    and what the board must say of options to it."""

    def __init__(self, name, opening, takes_up, enter, answers):
        self.name, self.opening, self.takes_up, self.enter = name, bytes(opening), takes_up, enter
        self.commands = OFFERED + answers
        self.is_echoed = takes_up or bytes((IAC, DO, ECHO)) in self.opening


# one that says nothing of its own, one that says much at once, as PuTTY does, and one that knows nothing of Telnet, as netcat
PLAIN = Client("telnet", b"", True, b"\r\0", [])
SAID = [(WILL, 31), (WILL, 32), (WILL, 24), (WILL, 39), (DO, ECHO), (WILL, AHEAD), (DO, AHEAD)]
TALKATIVE = Client("a talkative client", [byte for command in SAID for byte in (IAC, *command)], False, b"\r\n",
                   [(DONT, 31), (DONT, 32), (DONT, 24), (DONT, 39), (DO, AHEAD)])
BARE = Client("netcat", b"", False, b"\n", [])
# a shell on a terminal that runs what it is told to, and writes down what `stty -a` tells before and after, the status, and which line it reads then
SHELL = """
stty -a >before
sh -c 'echo $$ >pid; exec "$@"' sh "$@"
echo $? >status
stty -a >after
read -r line && printf %s "$line" >line
"""


def connected(port, host="127.0.0.1", is_going=lambda: True, limit=GUARD):
    """A connection, which is tried for until the port is open."""
    end = time.monotonic() + limit
    while True:
        try:
            line = socket.create_connection((host, port), limit)
            line.setsockopt(socket.IPPROTO_TCP, socket.TCP_NODELAY, 1)
            return line
        except ConnectionRefusedError:
            if time.monotonic() > end or not is_going():
                raise Otherwise(f"port {port} of {host} is not open") from None
            time.sleep(0.005)


class Caller:
    """One who types at a client, and looks at what comes."""

    def __init__(self, line, client=BARE, what="a caller"):
        self.line, self.client, self.what = line, client, what
        self.raw, self.seen, self.commands, self.is_over = b"", b"", [], False
        if client.opening:
            self.line.sendall(client.opening)

    def take(self):
        """Takes what comes next, and waits for it; nothing more comes where the board has hung up."""
        try:
            more = self.line.recv(65536)
        except TimeoutError:
            raise Otherwise(f"{self.what}: nothing came behind {self.seen[-300:]!r}") from None
        except ConnectionError:
            more = b""
        self.is_over = not more
        self.raw += more
        self.split()

    def split(self):
        """Puts the text apart from the commands of Telnet, and answers the offers."""
        while self.raw:
            at = self.raw.find(IAC)
            self.seen += self.raw if at < 0 else self.raw[:at]
            self.raw = b"" if at < 0 else self.raw[at:]
            if len(self.raw) < 2 or self.raw[1] in (WILL, WONT, DO, DONT) and len(self.raw) < 3:
                return
            if self.raw[1] in (WILL, WONT, DO, DONT):
                command = (self.raw[1], self.raw[2])
                self.commands.append(command)
                self.raw = self.raw[3:]
                if command in OFFERED and self.client.takes_up:
                    self.line.sendall(bytes((IAC, DO, command[1])))
            else:
                self.seen += b"\xff" if self.raw[1] == IAC else b""
                self.raw = self.raw[2:]

    def reads(self, wanted):
        """Looks whether this text is what comes."""
        while len(self.seen) < len(wanted) and not self.is_over:
            self.take()
        found, self.seen = self.seen[:len(wanted)], self.seen[len(wanted):]
        if found != wanted:
            raise Otherwise(f"{self.what}: {found[-300:]!r} came, where {wanted[-300:]!r} is wanted")

    def reads_to(self, end):
        """What comes before this text, which ends all that comes."""
        while not self.seen.endswith(end):
            if self.is_over:
                raise Otherwise(f"{self.what}: hung up behind {self.seen[-300:]!r}, where {end!r} is wanted")
            self.take()
        found, self.seen = self.seen[:-len(end)], b""
        return found

    def types(self, text):
        """Types without a look at what comes."""
        try:
            self.line.sendall(text.replace(b"\xff", b"\xff\xff"))
        except TimeoutError:
            raise Otherwise(f"{self.what}: {text[:80]!r} was not taken") from None

    def enters(self, text, end=b"", shown=None):
        """Types a line, looks whether its echo comes where there is one, and gives what comes then before this end."""
        self.types(text + self.client.enter)
        if self.client.is_echoed:
            self.reads((text if shown is None else shown) + b"\r\n")
        return self.reads_to(end) if end else b""

    def answers(self, text, wanted, end):
        """Types a line, and looks whether this comes before this end."""
        found = self.enters(text, end)
        if found != wanted:
            raise Otherwise(f"{self.what}: {found[-300:]!r} came upon {text!r}, where {wanted[-300:]!r} is wanted")

    def logs_in(self, name, password, board=b"Test Board"):
        self.reads(board + b"\r\nName: ")
        self.answers(name, b"", b"Password: ")
        found = self.enters(password, b"Top> ", b"*" * len(password))
        if found != b"Welcome, %s.\r\n" % name:
            raise Otherwise(f"{self.what}: {found!r} came upon the log-in of {name!r}")
        if self.commands != self.client.commands:
            raise Otherwise(f"{self.what}: the options {self.commands}, where {self.client.commands} are wanted")

    def posts(self, to, subject, text, is_private=False, prompt=b"[general] "):
        """Posts a message, and gives its number once that is acknowledged."""
        return self.number_of(self.writes(to, subject, text, is_private, prompt))

    def writes(self, to, subject, text, is_private=False, prompt=b"[general] "):
        """Writes a message, and gives what comes upon its end."""
        self.answers(b"p", b"", b"To: ")
        self.answers(to, b"", b"Subject: ")
        self.answers(subject, b"", b"Private (Y/N): ")
        self.enters(b"y" if is_private else b"n")
        return self.ends_text(text, prompt)

    def edits(self, number, subject, text, prompt=b"[general] "):
        """Gives a message another text and another subject, which an empty one keeps, and gives what comes upon the end."""
        self.begins_edit(number, subject)
        return self.ends_text(text, prompt)

    def begins_edit(self, number, subject):
        """Gives a message another subject, so that its text is asked for next."""
        self.answers(b"e %d" % number, b"", b"Subject (empty keeps): ")
        self.enters(subject)

    def ends_text(self, text, prompt):
        """Types the lines of a text and its end, and gives what comes upon it."""
        self.reads(b"Text, . ends, ! cancels\r\n")
        for line in text:
            self.enters(line)
        return self.enters(b".", prompt)

    def number_of(self, found):
        """The number under which a message was posted."""
        if not (found.startswith(b"Posted as ") and found.endswith(b".\r\n") and found[10:-3].isdigit()):
            raise Otherwise(f"{self.what}: {found!r} came upon a post")
        return int(found[10:-3])

    def quits(self):
        """Leaves, and looks whether the board hangs up then."""
        self.enters(b"q")
        self.reads(b"Goodbye.\r\n")
        while not self.is_over:
            self.take()
        if self.seen or self.raw:
            raise Otherwise(f"{self.what}: {self.seen!r} came behind the end")
        self.line.close()


def end_of(process, typed=None, limit=GUARD):
    """What a program prints to which this is typed, its status, and what it tells the operator; where it does not end in time, that it does not."""
    with process:
        try:
            printed, told = process.communicate(typed, timeout=limit)
        except subprocess.TimeoutExpired:
            process.kill()
            return b"no end", None, b""
    return printed, process.returncode, told


class Piped:
    """One who types over pipes to a program that runs, and what it has printed."""

    def __init__(self, process):
        self.process, self.seen = process, b""

    def takes(self, is_enough):
        """Takes what is printed until it is enough, or no more comes."""
        end = time.monotonic() + GUARD
        while not is_enough(self.seen):
            ready, _, _ = select.select([self.process.stdout], [], [], max(0, end - time.monotonic()))
            more = os.read(self.process.stdout.fileno(), 65536) if ready else b""
            if not more:
                break
            self.seen += more

    def types(self, text):
        """Types this, and tells whether it could be."""
        try:
            self.process.stdin.write(text)
            self.process.stdin.flush()
            return True
        except BrokenPipeError:
            return False

    def leaves(self, limit=GUARD):
        """Types nothing more, and gives all that is printed, and the status."""
        printed, status, _ = end_of(self.process, limit=limit)
        return self.seen + printed, status


class Terminal:
    """A terminal with a shell that runs the launcher with these words, and what it shows."""

    def __init__(self, trial, what, words):
        self.trial, self.what, self.shown, self.is_well = trial, what, b"", True
        for name in ("before", "after", "status", "pid", "line"):
            if os.path.exists(f"{trial.folder}/{name}"):
                os.remove(f"{trial.folder}/{name}")
        self.keyboard, side = pty.openpty()
        self.shell = subprocess.Popen(["sh", "-c", SHELL, "sh", trial.launcher, *words], cwd=trial.folder, stdin=side, stdout=side,
                                      stderr=side, start_new_session=True, preexec_fn=lambda: fcntl.ioctl(0, termios.TIOCSCTTY, 0))
        os.close(side)

    def told(self, name):
        """What the shell wrote down, or None."""
        path = f"{self.trial.folder}/{name}"
        return open(path, encoding="utf-8", errors="replace").read() if os.path.exists(path) else None

    def shows(self, text):
        """Reads until as much is shown as this text has, and looks whether it is the text; the terminal puts a CR before each LF."""
        end, seen, wanted = time.monotonic() + GUARD, b"", text.replace(b"\n", b"\r\n")
        while len(seen) < len(wanted) and select.select([self.keyboard], [], [], max(0, end - time.monotonic()))[0]:
            try:
                seen += os.read(self.keyboard, len(wanted) - len(seen))
            except OSError:
                break
        self.shown += seen
        self.is_well = self.is_well and self.trial.is_so(f"{self.what}: what is shown", seen, wanted)
        return self.is_well

    def types(self, keys, echoes, then=b""):
        """Types these keys, each with its echo before the next, and looks whether this is shown behind the last."""
        for n, (key, echo) in enumerate(zip(keys, echoes)):
            os.write(self.keyboard, key)
            if not self.shows(echo + (then if n == len(keys) - 1 else b"")):
                return False
        return True

    def enters(self, line, then=b"", mask=None):
        """Types a line and the key that ends it."""
        keys = [line[n:n + 1] for n in range(len(line))]
        return self.types(keys + [b"\r"], [mask or key for key in keys] + [b"\r\n"], then)

    def process(self):
        """The launcher's, which the shell runs."""
        return int(self.told("pid"))

    def program(self):
        """The program's, which the launcher runs."""
        for name in filter(str.isdigit, os.listdir("/proc")):
            try:
                if os.readlink(f"/proc/{name}/exe") == self.trial.program:
                    return int(name)
            except OSError:
                continue
        raise ProcessLookupError

    def waits(self, is_so):
        end = time.monotonic() + GUARD
        while not is_so() and time.monotonic() < end:
            time.sleep(0.01)
        return is_so()

    def ends(self, status, then=b""):
        """Looks whether the launcher ends so with this shown behind all, and leaves the terminal, and the next line, to the shell."""
        if not self.is_well or not self.shows(then):
            self.shell.kill()
        elif not self.trial.holds(f"{self.what}: no end in {GUARD} seconds", self.waits(lambda: self.told("after"))):
            self.shell.kill()
        else:
            os.write(self.keyboard, b"what comes next\n")
            self.waits(lambda: self.shell.poll() is not None)
            self.shell.kill()
            self.trial.is_so(f"{self.what}: the status", self.told("status"), f"{status}\n")
            self.trial.is_so(f"{self.what}: the terminal", self.told("after"), self.told("before"))
            self.trial.is_so(f"{self.what}: what the shell reads then", self.told("line"), "what comes next")
        self.shell.wait()
        os.close(self.keyboard)
