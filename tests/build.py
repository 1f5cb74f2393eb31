#!/usr/bin/env python3
"""Tries `./board` where a source of the program is another than it was when the kept program was built: it has to run no program that these
sources do not build.

usage: build.py

A copy of what the program is made of is run as it stands, then with another definition and another proof, which are in no byte of it, then
with a wrong body in the lowest crate, which is one of the edits that a contract refuses, then without the kit, then stopped while it
proves, then as it stood at first, and at last with another sum beside the kept program, so that it is built. What the kit kept of the crates
is used; where it kept nothing no whole build is tried, and a line says so. And `.ci/try_program` has to run a changed text before its proof, which
takes most of a minute, and to leave what `./board` runs as it is.
"""
import glob
import os
import re
import shutil
import signal
import subprocess
import sys
import tempfile
import time

from harness import TOP, WORDS, Trial

# of a crate that uses no other, so that nothing has to be proved before it is refused
EDIT = "crates/jb_bytes/wrong/reads_the_highest_byte_first.edit"
CRATE = EDIT.split("/")[1]
LIMIT = 3000
# in the environment of a build, so that its processes are found
MARK = "BOARD_TRIED_IN"
NOT_BUILT = 70
# the file with the texts, what parts the names in a list there and in a copy of it, and a line that does not compile
TEXTS, PARTS, PARTS_IN_COPY, NO_CODE = "crates/jb_text/src/lines.rt", 'b" > "', 'b" => "', 'fn a_number() -> u8 { "a text" }\n'
UNPROVED = "board: UNPROVED: built from the sources as they stand, for a look before their proof"
# said of the first crate where nothing was kept of any
NONE_IS_KEPT = re.compile(r"board: 1 of \d+: \w+ is proved ")


def copy_of(folder):
    """What `./board` reads, without what was built or kept beside it."""
    for name in ("board", "crates.txt", "HANDLES"):
        shutil.copy(f"{TOP}/{name}", folder)
    for name in (".ci", "built", "crates"):
        shutil.copytree(f"{TOP}/{name}", f"{folder}/{name}", symlinks=True, ignore=shutil.ignore_patterns("out", "__pycache__"))


def edit_of(folder):
    """The file that the edit changes, as it stands and with the edit."""
    with open(f"{folder}/{EDIT}") as file:
        lines = file.read().splitlines()
    path, old, new = (next(line[len(word):] for line in lines if line.startswith(word)) for word in ("file: ", "old: ", "new: "))
    path = f"{folder}/crates/{CRATE}/{path}"
    with open(path) as file:
        text = file.read()
    return path, text, text.replace(old, new)


def put(path, text):
    with open(path, "w") as file:
        file.write(text)


def path_without(name, folder):
    """A folder in which all programs of the search path can be called but one."""
    os.mkdir(folder)
    for place in os.environ["PATH"].split(":"):
        for it in os.listdir(place) if os.path.isdir(place) else ():
            if it != name and not os.path.lexists(f"{folder}/{it}"):
                os.symlink(f"{place}/{it}", f"{folder}/{it}")
    return folder


def marked(folder):
    """The words of each process of a build that has this mark."""
    found = {}
    for pid in filter(str.isdigit, os.listdir("/proc")):
        try:
            with open(f"/proc/{pid}/environ", "rb") as file, open(f"/proc/{pid}/cmdline", "rb") as words:
                if f"{MARK}={folder}".encode() in file.read().split(b"\0"):
                    found[pid] = words.read().split(b"\0")
        except OSError:
            continue
    return found


class Copy(Trial):
    """A copy of the repository, and what running it comes to."""

    def starts(self, **environment):
        return subprocess.Popen([self.program, "help"], stdin=subprocess.DEVNULL, stdout=subprocess.PIPE, stderr=subprocess.PIPE, text=True,
                                start_new_session=True, env=os.environ | environment)

    def runs(self, **environment):
        run = self.starts(**environment)
        printed, told = run.communicate(timeout=LIMIT)
        return run.returncode, printed, told.splitlines()

    def serves(self, when, wanted):
        self.is_so(f"{when}, the kept program is run", self.runs(), (0, wanted, []))

    def proves_otherwise(self, wanted):
        """Another definition and another proof change no byte of the program, so no build begins: by the time of the sources, nor by their sum."""
        for part in ("specs", "proofs"):
            path = min(glob.glob(f"{self.folder}/crates/{CRATE}/{part}/*.antt"))
            with open(path) as file:
                text = file.read()
            put(path, f"{text}-- another line\n")
            self.serves(f"with others in {part}", wanted)
            os.remove(f"{self.folder}/crates/board/out/board.serves")
            self.serves(f"with others in {part}, by the sum", wanted)
            put(path, text)

    def builds_nothing(self, when, status, printed, told):
        """What each run that comes to no program shows."""
        self.is_so(f"{when}, status and what is printed", (status, printed), (NOT_BUILT, ""))
        self.is_so(f"{when}, why it builds", told[:1], ["board: the sources are not those of the program that is kept in built/"])
        begins = next((line for line in told if line.startswith("board: proving the ")), "")
        self.holds(f"{when}, what is begun: {begins}", re.fullmatch(r"board: proving the \d+ crates of the program on \d+ processors, and building it", begins))
        self.holds(f"{when}, no program stands there", not os.path.exists(f"{self.folder}/crates/board/out/board"))

    def refuses(self):
        """A crate that is not proved: its name, the place of what is wrong, and where the whole log is."""
        status, printed, told = self.runs()
        self.builds_nothing("a wrong body", status, printed, told)
        last = re.fullmatch(rf"board: {CRATE} was not proved, so the program was not built; the whole log is (.*)", told[-1] if told else "")
        self.holds(f"the crate that is refused: {told[-1:]}", last)
        self.holds(f"the place of what is wrong: {told[2:]}", any(re.search(rf"\bcrates/{CRATE}/src/\w+\.rt:\d+", line) for line in told))
        if last:
            with open(last[1]) as file:
                self.holds("the log has what was said of the crate", f"rt: {CRATE} NOT PROVED\n" in file.read())
            os.remove(last[1])

    def lacks_the_kit(self, folder):
        status, printed, told = self.runs(PATH=folder)
        self.builds_nothing("no kit", status, printed, told)
        self.is_so("no kit", told[-1:], ["board: the command rt of the Rattle kit was not found, and the program is not built without it"])

    def tries(self, *words, **environment):
        """A run of the program that is tried, in the folder with the base of the program's own run."""
        return subprocess.Popen([f"{self.folder}/.ci/try_program", *words], cwd=f"{self.folder}/crates/board/data", stdin=subprocess.DEVNULL,
                                stdout=subprocess.PIPE, stderr=subprocess.PIPE, text=True, env=os.environ | environment)

    def has_tried(self, what, run, status, wanted, *told):
        """How a run of it ends, what it printed, and the last lines that it said."""
        printed, said = run.communicate(timeout=LIMIT)
        self.is_so(f"tried, {what}", (run.returncode, printed, said.splitlines()[-len(told):]), (status, wanted, [*told]))

    def builds_none_to_try(self, path):
        """Where it can keep none, and where there is no kit."""
        place = f"{self.folder}/.ci/out"
        put(place, "")
        told = f"board: nothing can be written in {place}, where the program that is tried is kept, so none was built"
        self.has_tried("no place", self.tries("help"), NOT_BUILT, "", told)
        os.remove(place)
        told = "board: the command rt of the Rattle kit was not found, and the program is not built without it"
        self.has_tried("no kit", self.tries("help", PATH=path), NOT_BUILT, "", told)

    def tries_unproved(self):
        """A changed text is seen in what it prints, and one that comes while it is built, and does not compile, is told with its place."""
        path = f"{self.folder}/{TEXTS}"
        with open(path) as file:
            text = file.read()
        put(path, text.replace(PARTS, PARTS_IN_COPY))
        run = self.tries("list", ".", "general")
        # by that line it has taken its copy of the sources
        self.is_so("tried, what is said first", run.stderr.readline(), "board: building the sources as they stand\n")
        put(path, text + NO_CODE)
        place = f'{TEXTS}:{text.count(chr(10)) + 1}:{NO_CODE.index(chr(34)) + 1}: error[mismatched-types]: expected `u8`, found `&str`'
        self.has_tried("no code", self.tries("help"), NOT_BUILT, "", place, "board: the sources do not compile, so there is no program to try")
        self.has_tried("another text", run, 0, "       1  Test => Hello  abc\n", UNPROVED)
        put(path, text.replace(PARTS, PARTS_IN_COPY))
        self.has_tried("no such words", self.tries("sing"), 1, "fault 1 Words\n", UNPROVED, f"board: {WORDS['1 Words']}")
        put(path, text)

    def is_stopped(self):
        """Interrupted while it proves, as by ^C, it leaves nothing at work and no file. The shell that it is ends by the signal."""
        run, told = self.starts(**{MARK: self.folder}), []
        for line in run.stderr:
            told.append(line.rstrip("\n"))
            if line.startswith("board: proving the "):
                while run.poll() is None and not any(b"--crate-name" in words for words in marked(self.folder).values()):
                    time.sleep(0.2)
                self.is_so("a build is at work when it is stopped", run.poll(), None)
                os.killpg(run.pid, signal.SIGINT)
        printed = run.communicate(timeout=LIMIT)[0]
        self.builds_nothing("stopped", NOT_BUILT if run.returncode == -signal.SIGINT else run.returncode, printed, told)
        self.is_so("stopped, what is said", told[-1:], ["board: stopped; what was proved until now is used again where the kit keeps it"])
        self.is_so("stopped, what is still at work", marked(self.folder), {})
        self.is_so("stopped, what is left beside the note of what serves", os.listdir(f"{self.folder}/crates/board/out"), ["board.serves"])

    def builds(self, wanted):
        """Where the sum of the sources is another and all crates are proved, the program is built and run, and at once the next time."""
        put(f"{self.folder}/built/sources", "another sum\n")
        run, told = self.starts(), []
        for line in run.stderr:
            told.append(line.rstrip("\n"))
            if NONE_IS_KEPT.match(line):
                os.killpg(run.pid, signal.SIGINT)
        printed = run.communicate(timeout=LIMIT)[0]
        if any(map(NONE_IS_KEPT.match, told)):
            print("nothing is kept of the crates, so no build of the whole program was tried", flush=True)
            return
        self.is_so("a build, status and what is printed", (run.returncode, printed), (0, wanted))
        self.holds(f"a build, what is said of it: {told}", told and re.fullmatch(r"board: built in \d+ s", told[-1]))
        with open(f"{self.folder}/crates/board/out/board", "rb") as built, open(f"{self.folder}/built/board", "rb") as kept:
            self.holds("the program that is built is the one that is kept", built.read() == kept.read())
        os.chmod(f"{self.folder}/built/board", 0o644)
        self.is_so("behind a build, its program is run at once, and no other", self.runs(), (0, wanted, []))


def main():
    with tempfile.TemporaryDirectory(prefix="board-tried-") as room:
        folder = f"{os.path.realpath(room)}/copy"
        os.mkdir(folder)
        copy_of(folder)
        trial = Copy(f"{folder}/board", folder)
        wanted = subprocess.run([f"{TOP}/built/board", "help"], stdin=subprocess.DEVNULL, stdout=subprocess.PIPE, text=True, check=True).stdout
        path, right, wrong = edit_of(folder)
        trial.holds(f"{EDIT} changes something", right != wrong)
        trial.serves("at first", wanted)
        trial.proves_otherwise(wanted)
        without_kit = path_without("rt", f"{room}/path")
        trial.builds_none_to_try(without_kit)
        trial.tries_unproved()
        put(path, wrong)
        trial.refuses()
        trial.lacks_the_kit(without_kit)
        trial.is_stopped()
        put(path, right)
        trial.serves("as it stood again", wanted)
        trial.builds(wanted)
        sys.exit(trial.tells("a program that is kept, and sources that are others"))


if __name__ == "__main__":
    main()
