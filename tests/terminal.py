#!/usr/bin/env python3
"""Tries `./board local CONF` of the built program on a terminal: what a person sees and types, and how the terminal is left.

usage: terminal.py PROGRAM

The terminal is a pseudo-terminal, on which a shell runs the launcher as a user's would: it writes down what `stty -a` tells before and after,
the status, and which line it reads itself then. Each key is typed when all that the keys before it lead to is shown, and not before. What is to be
shown is written out here. The files are read by jam.py.
"""
import hashlib
import os
import pty
import shutil
import signal
import subprocess
import time

import jam
from caller import GUARD, Terminal
from harness import LOCAL, TOP, USERS, Runs, goes_through, lines, settings
from jam import PRIVATE, mark
from visits import ANSWERED, FIRST, START

PASSWORD = b"Zq9#vault"
ERASED = b"\x08 \x08"
ENTERED = b"Welcome, Hello.\r\nTop> "
OPENED = b"1 visible, 1 unread.\r\n[general] "
LETTER = b"Message 1\r\nFrom: Test\r\nTo: Hello\r\nSubject: abc\r\nDate: 2001-09-09 01:46:40\r\n\r\n%s\r\n\r\n[general] "
HUNG_UP = b"\nboard: hung up\n"


class Launched(Runs):
    """Runs of the launcher on a terminal, in a copy of the repository with nothing but it, for which this program serves the sources."""

    def __init__(self, program, folder):
        top = f"{folder}-top"
        super().__init__(f"{top}/crates/board/out/board", folder)
        self.launcher = f"{top}/board"
        for path in ("board", "crates.txt", ".ci/on_terminal", ".ci/program.sh", "crates/board/out/board"):
            os.makedirs(os.path.dirname(f"{top}/{path}"), exist_ok=True)
            shutil.copy(program if path.startswith("crates/") else f"{TOP}/{path}", f"{top}/{path}")
        with open(f"{self.program}.serves", "w") as file:
            file.write("crates/board/out/board\n")


class Seen(Terminal):
    """A session on a terminal of the user Hello."""

    def __init__(self, trial, what, words=LOCAL):
        super().__init__(trial, what, words)

    def logs_in(self):
        return (self.shows(START[6:]) and self.enters(b"Hello", b"Password: ") and self.enters(PASSWORD, ENTERED, b"*")
                and self.enters(b"1", OPENED))


def has_letter(trial, text=b"Good\r"):
    """A base with one letter to Hello, who has a password of their own."""
    trial.has_settings(settings().replace(USERS[1][3], hashlib.sha256(PASSWORD).hexdigest()))
    base = jam.one_message()
    base.slots[0].text = text
    jam.write_only(trial.areas, general=base)


def try_session(trial):
    """A caller logs in, lists, reads, answers, posts, marks and leaves."""
    has_letter(trial)
    since = int(time.time())
    seen = Seen(trial, "a session")
    well = (seen.shows(START[6:])
            and seen.types([b"H", b"o", b"\x7f", b"e", b"l", b"\x08", b"l", b"l", b"o", b"\r"],
                           [b"H", b"o", ERASED, b"e", b"l", ERASED, b"l", b"l", b"o", b"\r\n"], b"Password: ")
            and seen.enters(PASSWORD, ENTERED, b"*")
            and seen.enters(b"1", OPENED)
            and seen.enters(b"l", b"       1  Test > Hello  abc\r\n[general] ")
            and seen.types([b"z", b"z", b"\x15", b"n", b"\r"], [b"z", b"z", ERASED * 2, b"n", b"\r\n"], LETTER % b"Good")
            and seen.enters(b"r", b"Reply to Test, subject Re: abc\r\nText, . ends, ! cancels\r\n")
            and seen.enters(b"Thanks") and seen.enters(b".", b"Posted as 2.\r\n[general] ")
            and seen.enters(b"p", b"To: ") and seen.enters(b"Sysop", b"Subject: ") and seen.enters(b"secret", b"Private (Y/N): ")
            and seen.enters(b"y", b"Text, . ends, ! cancels\r\n")
            and seen.enters(b"hush") and seen.enters(b".", b"Posted as 3.\r\n[general] ")
            and seen.enters(b"m 3", b"Mark is 3, high 3.\r\n[general] ")
            and seen.enters(b"q", b"Goodbye.\r\n"))
    seen.ends(0)
    trial.holds("the password is not shown", PASSWORD not in seen.shown)
    trial.holds("no byte 255 is shown", b"\xff" not in seen.shown)
    base = trial.base()
    if not well or not trial.is_so("how many letters there are", len(base.slots), 3):
        return
    first, second, third = base.slots
    trial.is_so("the letter", (first.head["read"], first.head["reply_first"], first.text), (1, 2, b"Good\r"))
    trial.is_so("the answer", ([second.first(kind) for kind in (2, 3, 6)], second.text, second.head["reply_to"], second.head["attribute"] & PRIVATE),
                ([b"Hello", b"Test", b"Re: abc"], b"Thanks\r", 1, 0))
    trial.is_so("the private letter",
                ([third.first(kind) for kind in (2, 3, 6)], third.text, third.head["reply_to"], third.head["attribute"] & PRIVATE),
                ([b"Hello", b"Sysop", b"secret"], b"hush\r", 0, PRIVATE))
    trial.holds("they were written now", all(since <= letter.head["written"] <= time.time() for letter in (second, third)))
    trial.is_so("the mark", base.marks, mark(b"Hello", 8, 3, 3))


def try_bytes(trial):
    """Bytes 255 are shown and typed as they are."""
    has_letter(trial, b"a\xffb\xff\xffc\xff\xff\xff\r")
    seen = Seen(trial, "bytes 255")
    if (seen.logs_in() and seen.enters(b"1", LETTER % b"a\xffb\xff\xffc\xff\xff\xff")
            and seen.enters(b"r", b"Reply to Test, subject Re: abc\r\nText, . ends, ! cancels\r\n")
            and seen.enters(b"\xff\xff\xf6 \xff") and seen.enters(b".", b"Posted as 2.\r\n[general] ")):
        trial.is_so("what was typed", trial.base().slots[1].text, b"\xff\xff\xf6 \xff\r")
        seen.enters(b"q", b"Goodbye.\r\n")
    seen.ends(0)


def try_ends(trial):
    """However a session ends, the terminal is as before, and a text that was not ended is not posted."""
    for what, end, status, then in (
            ("^C", lambda seen: os.write(seen.keyboard, b"\x03"), 0, HUNG_UP),
            ("^D", lambda seen: os.write(seen.keyboard, b"\x04"), 0, HUNG_UP),
            ("INT", lambda seen: os.kill(seen.process(), signal.SIGINT), 0, HUNG_UP),
            ("TERM", lambda seen: os.kill(seen.process(), signal.SIGTERM), 0, HUNG_UP),
            ("HUP", lambda seen: os.kill(seen.process(), signal.SIGHUP), 0, HUNG_UP),
            ("a killed program", lambda seen: os.kill(seen.program(), signal.SIGKILL), 137, b"")):
        has_letter(trial)
        before = trial.files()
        seen = Seen(trial, what)
        if (seen.logs_in() and seen.enters(b"p", b"To: ") and seen.enters(b"Sysop", b"Subject: ") and seen.enters(b"all", b"Private (Y/N): ")
                and seen.enters(b"n", b"Text, . ends, ! cancels\r\n") and seen.enters(b"a line") and seen.types([b"x"], [b"x"])):
            end(seen)
        seen.ends(status, then)
        trial.holds(f"{what}: the base is as it was", trial.keeps(before) and trial.is_shut())

    has_letter(trial)
    seen = Seen(trial, "a window that is closed")
    if seen.logs_in() and seen.enters(b"k 1", b"Killed 1.\r\n[general] "):
        trial.is_so("a window that is closed: how many letters are left", len(trial.base().live()), 0)
    os.close(seen.keyboard)
    seen.shell.wait()
    gone = seen.waits(lambda: not os.path.exists(f"/proc/{seen.process()}"))
    trial.holds("a window that is closed: the end", gone and trial.is_shut())


def try_refusals(trial):
    """What is refused, with its status."""
    has_letter(trial)
    seen = Seen(trial, "three wrong passwords")
    if seen.shows(START[6:]):
        for then in (b"Name: ", b"Name: ", b"Goodbye.\r\n"):
            well = seen.enters(b"Hello", b"Password: ") and seen.enters(b"wrong", b"Login incorrect.\r\n" + then, b"*")
            if not well:
                break
    seen.ends(7)
    refuses(trial, "no settings", ("local", "nothing.toml"), 5, b"fault 5 HostFault\n", b"nothing.toml: ")
    refuses(trial, "no path", ("local",), 1, b"fault 1 Words\n", b"board: these words are no command line; the word help alone shows the forms\n")
    trial.has_settings("x =")
    refuses(trial, "settings that are none", LOCAL, 2, b"fault 2.1 NotToml\n", b"board: board.toml: the settings are no TOML document: line 1, column ")
    trial.has_settings(settings(["general", "other"]))
    refuses(trial, "an area that is not there", LOCAL, 3, b"fault 3.1 ShortHeader\n", b"the base of area 2, looked for from the folder of this start: ",
            b": there is no base here: its header file, .JHR or .jhr, is not there, or has fewer than 1,024 bytes\n")


def refuses(trial, what, words, status, *said):
    """Looks whether a run is refused so: it shows what it does without a terminal, and all of this is said there."""
    done = subprocess.run([trial.launcher, *words], cwd=trial.folder, stdin=subprocess.DEVNULL, stdout=subprocess.PIPE, stderr=subprocess.STDOUT,
                          timeout=GUARD, check=False)
    trial.holds(f"{what}: {done.stdout}, where {said} are wanted", all(it in done.stdout for it in said))
    Seen(trial, what, words).ends(status, done.stdout)


def try_pipes(trial):
    """Where one side is no terminal, what is read and sent is the program's alone."""
    trial.has_settings(settings())
    trial.has_letters("general")
    words, run = [trial.launcher, "local", "board.toml"], {"cwd": trial.folder, "timeout": GUARD, "check": False}
    done = subprocess.run(words, input=lines(ANSWERED), capture_output=True, **run)
    trial.is_so("pipes", (done.stdout, done.stderr, done.returncode), (FIRST, b"", 0))
    keyboard, side = pty.openpty()
    os.write(keyboard, b"\x04")
    done = subprocess.run(words, stdin=side, capture_output=True, **run)
    trial.is_so("a pipe behind a terminal", (done.stdout, done.stderr, done.returncode), (START, b"", 0))
    done = subprocess.run(words, stdin=subprocess.DEVNULL, stdout=side, stderr=side, **run)
    trial.is_so("a terminal behind no input", (os.read(keyboard, 4096), done.returncode), (START.replace(b"\n", b"\r\n"), 0))
    os.close(side)
    os.close(keyboard)


if __name__ == "__main__":
    goes_through(Launched, "a session on a terminal", (try_session, try_bytes, try_ends, try_refusals, try_pipes), in_memory=False)
