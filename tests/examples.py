#!/usr/bin/env python3
"""Tries what stands in examples/ for operators: the scripts `areas` and `digest`, the settings, and the units for systemd.

usage: examples.py PROGRAM

What is printed is written out here. The passwords are typed on a pseudo-terminal. The units are looked at by systemd-analyze, where there is one.
"""
import fcntl
import hashlib
import os
import pty
import re
import select
import shutil
import subprocess
import sys
import tempfile
import termios

from harness import Trial

TOP = os.path.dirname(os.path.dirname(os.path.realpath(__file__)))
LIMIT = 60
AREA = """[[area]]
name = "{}"
dir = "{}"
base = "{}"
read = 10
"""
SETTINGS = """name = "Test Board"
address = "2:5020/1042"
{}[[user]]
name = "Test"
id = 7
level = 50
{}
"""
DIGEST = 'digest = "ba7816bf8f01cfea414140de5dae2223b00361a396177a9cb410ff61f20015ad"'
AREAS = (("general", "areas", "general"), ("Letters to all", "more/letters", "letters"), ("trade", "areas", "trade"))
EMPTY = "base 1, next 1, live 0, killed 0, empty 0, msgids 0, linked yes, recovered closed"
ASKED, ASKED_AGAIN = "Password: ", "The same again: "
# the exposure of board.service that systemd-analyze may find, in tenths
MOST_EXPOSED = 15


class Examples(Trial):
    """Runs of the scripts in one folder, which has the settings."""

    def has_settings_of(self, areas, name="board.toml", lines=DIGEST):
        with open(f"{self.folder}/{name}", "w") as file:
            file.write(SETTINGS.format("".join(AREA.format(*area) for area in areas), lines))

    def done(self, *words, **more):
        """The status of a run, what it prints and what it tells."""
        environment = {**os.environ, "BOARD": self.program, **more}
        words = [words[0] if words[0].startswith("/") else f"{TOP}/examples/{words[0]}", *words[1:]]
        done = subprocess.run(words, cwd=self.folder, stdin=subprocess.DEVNULL, capture_output=True, timeout=LIMIT, check=False, env=environment,
                              start_new_session=True)
        return done.returncode, done.stdout.decode(), done.stderr.decode()

    def answers(self, what, words, status, printed, told=(), **more):
        """Looks whether a run ends so, prints these lines, and tells of these things, a line each."""
        found = self.done(*words, **more)
        self.is_so(f"{what}: the status and what is printed", found[:2], (status, "".join(f"{line}\n" for line in printed)))
        lines = found[2].splitlines()
        self.holds(f"{what}: what is told: {lines}", len(lines) == len(told) and all(word in line for word, line in zip(told, lines)))

    def session(self, name, password):
        """What a caller at the console reads who logs in and leaves."""
        typed = f"{name}\n{password}\nq\n".encode()
        return subprocess.run([self.program, "local", "board.toml"], cwd=self.folder, input=typed, capture_output=True, timeout=LIMIT, check=False).stdout

    def typed(self, *lines):
        """The status, what is printed, and what the terminal shows of a run of `digest` at which these lines are typed, each when it is asked for."""
        keyboard, side = pty.openpty()
        run = subprocess.Popen([f"{TOP}/examples/digest"], cwd=self.folder, stdin=side, stdout=subprocess.PIPE, stderr=subprocess.PIPE, text=True,
                               start_new_session=True, preexec_fn=lambda: fcntl.ioctl(0, termios.TIOCSCTTY, 0))
        os.close(side)
        shown = ""
        for line, asked in zip(lines, (ASKED, ASKED_AGAIN)):
            while not shown.endswith(asked) and select.select([keyboard], [], [], LIMIT)[0]:
                try:
                    shown += os.read(keyboard, 1).decode()
                except OSError:
                    break
            os.write(keyboard, line.encode() + b"\n")
        printed, told = run.communicate(timeout=LIMIT)
        while select.select([keyboard], [], [], 0)[0]:
            try:
                shown += os.read(keyboard, 1024).decode()
            except OSError:
                break
        os.close(keyboard)
        return run.returncode, printed, told, shown.replace("\r\n", "\n")


def try_areas(trial):
    """Three areas, of which one is there, one is missing with its folder, and one is damaged."""
    trial.has_settings_of(AREAS)
    os.mkdir(f"{trial.folder}/areas")
    for base in ("general", "trade"):
        trial.is_so(f"a base is made, {base}", trial.done(trial.program, "make", "areas", base), (0, "", ""))
    with open(f"{trial.folder}/areas/trade.JDX", "wb") as file:
        file.write(b"cut")
    damaged, missing = "trade: fault 3.4 IndexLength", "Letters to all: fault 3.1 ShortHeader"
    refused = "board: areas/trade: "
    trial.answers("a look at three areas", ("areas", "check", "board.toml"), 3, (f"general: {EMPTY}", missing, damaged),
                  ("board: more/letters/letters: ", refused))
    trial.answers("what is missing is made", ("areas", "make", "board.toml"), 0, ("general: already there", "Letters to all: made", "trade: already there"))
    with open(f"{trial.folder}/areas/trade.JDX", "rb") as file:
        trial.is_so("what is damaged stays as it is", file.read(), b"cut")
    trial.answers("a look once more", ("areas", "check", "board.toml"), 3, (f"general: {EMPTY}", f"Letters to all: {EMPTY}", damaged), (refused,))
    os.makedirs(f"{trial.folder}/areas/none.JHR")
    trial.has_settings_of((("none", "areas", "none"), AREAS[2], AREAS[0]), "more.toml")
    trial.answers("the highest status is that of all", ("areas", "check", "more.toml"), 4, ("none: fault 4 StoreFault", damaged, f"general: {EMPTY}"),
                  ("board: areas/none: ", refused))
    trial.has_settings_of((("file", "board.toml", "file"), AREAS[0]), "file.toml")
    trial.answers("a folder that cannot be made", ("areas", "make", "file.toml"), 4,
                  ("file: the folder board.toml cannot be made: File exists", "general: already there"))


def try_backups(trial):
    """Areas are backed up into a folder that is made for it; a second time each is refused, and a damaged one is not copied."""
    for folder in ("areas", "more"):
        shutil.rmtree(f"{trial.folder}/{folder}")
    trial.has_settings_of(AREAS)
    trial.answers("bases are made", ("areas", "make", "board.toml"), 0, ("general: made", "Letters to all: made", "trade: made"))
    done = ("areas", "backup", "board.toml", "copies/today")
    trial.answers("a backup of three areas", done, 0, ("general: backed 0", "Letters to all: backed 0", "trade: backed 0"))
    trial.is_so("a backup is a base", trial.done(trial.program, "list", "copies/today", "general"), (0, "", ""))
    names = ("general", "Letters to all", "trade")
    trial.answers("the same once more", done, 3, [f"{name}: fault 3.19 NotEmpty 0" for name in names],
                  ("board: copies/today/general: ", "board: copies/today/letters: ", "board: copies/today/trade: "))
    with open(f"{trial.folder}/areas/trade.JDX", "wb") as file:
        file.write(b"cut")
    trial.answers("a damaged area", (*done[:3], "copies"), 3, ("general: backed 0", "Letters to all: backed 0", "trade: fault 3.4 IndexLength"),
                  ("board: areas/trade: ",))
    trial.answers("a folder that cannot be made", (*done[:3], "board.toml"), 4, (), ("areas: the folder board.toml cannot be made: ",))


def try_words(trial):
    """What is refused before anything is run, and where the program is looked for."""
    for words in ((), ("check",), ("look", "board.toml"), ("check", "board.toml", "more"), ("backup", "board.toml")):
        trial.answers(f"the words {words}", ("areas", *words), 1, (), ("usage: ", "areas make", "areas backup"))
    trial.answers("settings that are not there", ("areas", "check", "none.toml"), 5, (), ("areas: none.toml: ",))
    for text, why in (("name", "no TOML"), ('name = "\xff"', "no TOML"), ("name = 1", "no table"), ("area = 1", "no table"), ("area = []", "no table"),
                      ('[[area]]\nname = "a"\nbase = "b"', "area 1 has no dir"), ('[[area]]\nname = "a"\ndir = 1\nbase = "b"', "area 1 has no dir")):
        with open(f"{trial.folder}/wrong.toml", "w", encoding="latin-1") as file:
            file.write(text)
        trial.answers(f"settings with {text!r}", ("areas", "check", "wrong.toml"), 2, (), (why,))
    trial.has_settings_of(AREAS[:1], "one.toml")
    with open(f"{trial.folder}/one.toml", "rb") as file:
        text = file.read()
    with open(f"{trial.folder}/one.toml", "wb") as file:
        file.write(b"\xef\xbb\xbf" + text.replace(b"\n", b"\r\n"))
    one = ("areas", "check", "one.toml"), 0, (f"general: {EMPTY}",)
    trial.answers("settings as an editor elsewhere writes them", *one)
    trial.answers("a program that is not there", one[0], 70, (), ("/none/board",), BOARD="/none/board")
    os.mkdir(f"{trial.folder}/bin")
    os.symlink(trial.program, f"{trial.folder}/bin/board")
    trial.answers("no program on the path", one[0], 70, (), ("BOARD",), BOARD="", PATH=os.path.dirname(sys.executable))
    trial.answers("the program on the path", *one, BOARD="", PATH=f"{trial.folder}/bin:{os.environ['PATH']}")
    os.rename(f"{trial.folder}/bin/board", f"{trial.folder}/board")
    trial.answers("the program in the folder", *one, BOARD="")


def try_digest(trial):
    """A password that is typed twice, and what is refused."""
    password, salts = "  a good morning  to ~all", set()
    for _ in range(2):
        status, printed, told, shown = trial.typed(password, password)
        trial.is_so("a password: how it ends", (status, told), (0, ""))
        trial.is_so("a password: what the terminal shows", shown, f"{ASKED}\n{ASKED_AGAIN}\n")
        found = re.fullmatch(r'salt = "([0-9a-f]{16})"\ndigest = "([0-9a-f]{64})"\n', printed)
        if not trial.holds(f"a password: what is printed: {printed!r}", found):
            return
        trial.is_so("a password: its digest", found[2], hashlib.sha256((found[1] + password).encode()).hexdigest())
        salts.add(found[1])
        trial.has_settings_of(AREAS[:1], lines=printed)
        for word, answer in ((password, b"Welcome, Test."), (password.strip(), b"Login incorrect.")):
            trial.holds(f"a log-in with {word!r}", answer in trial.session("Test", word))
    trial.is_so("each salt is another", len(salts), 2)
    for lines, why in ((("one", "another"), "two passwords"), (("",), "at least one"), (("x" * 79,), "78 characters"), (("gr\u00fcn",), "ASCII"),
                       (("one", "\4"), "no password"), (("\3",), "no password")):
        status, printed, told, _ = trial.typed(*lines)
        trial.is_so(f"{lines} is refused", (status, printed), (1, ""))
        trial.holds(f"{lines} is refused: {told!r}", re.fullmatch(f"digest: .*{why}.*\n", told))
    trial.answers("no terminal", ("digest",), 1, (), ("no terminal",))
    status, printed, _ = trial.done("digest", "a password")
    trial.is_so("a word is refused", (status, printed), (1, ""))


def try_settings(trial):
    """The settings that are shown: who can log in."""
    shutil.copy(f"{TOP}/examples/board.toml", f"{trial.folder}/board.toml")
    for name, password in (("Ada", "good morning"), ("Guest", "guest")):
        trial.holds(f"{name} logs in", f"Welcome, {name}.".encode() in trial.session(name, password))
    for password in ("", "change me", "sysop", "password", "good morning", "guest"):
        found = trial.session("Sysop", password)
        trial.holds(f"nobody is the sysop with {password!r}: {found[-200:]}", b"Welcome" not in found and b"Login incorrect." in found)


def try_units(trial):
    """The units, with programs that are there in the place of those that are installed; or a line that says that they were left out."""
    if not shutil.which("systemd-analyze"):
        print("left out: the units, since there is no systemd-analyze here")
        return
    os.mkdir(f"{trial.folder}/units")
    names = ("board.service", "toss.service", "toss.timer")
    for name in names:
        with open(f"{TOP}/examples/{name}") as file:
            text = file.read().replace("/usr/local/bin/board", trial.program).replace("/usr/local/bin/toss", "/bin/true")
        with open(f"{trial.folder}/units/{name}", "w") as file:
            file.write(text)
    with open(f"{TOP}/examples/board.service") as file:
        for line in re.findall(r"(?m)^#     (.*)$", file.read()):
            is_there = all(os.path.exists(f"{TOP}/{path}") for path in re.findall(r"(?:built|examples)/\S+", line))
            trial.holds(f"{line}: it stays in the top folder, and finds there what it names", is_there and not line.startswith("cd "))
    analyze = shutil.which("systemd-analyze")
    for name in names:
        trial.answers(f"{name} is parsed", (analyze, "verify", "--man=no", f"{trial.folder}/units/{name}"), 0, ())
    words = (analyze, "security", "--offline=true", f"--threshold={MOST_EXPOSED}", f"{trial.folder}/units/board.service")
    if trial.done(*words[:3], words[4])[0] != 0:
        print("left out: how far board.service is shut off, which this systemd-analyze cannot tell of a file")
        return
    status, printed, _ = trial.done(*words)
    trial.is_so(f"board.service is exposed by {MOST_EXPOSED} tenths at most: {printed[-80:]}", status, 0)


def main(program):
    folder = os.path.realpath(tempfile.mkdtemp())
    try:
        shutil.copy(program, f"{folder}/program")
        trial = Examples(f"{folder}/program", folder)
        for tried in (try_areas, try_backups, try_words, try_digest, try_settings, try_units):
            tried(trial)
    finally:
        shutil.rmtree(folder)
    print(f"{trial.tried - trial.wrong} passed, {trial.wrong} failed")
    return 1 if trial.wrong else 0


if __name__ == "__main__":
    if len(sys.argv) != 2:
        sys.exit(__doc__)
    sys.exit(main(sys.argv[1]))
