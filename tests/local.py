#!/usr/bin/env python3
"""Tries `board local CONF` of the built program over real files: what is sent, the exit status, and what the files then hold.

usage: local.py PROGRAM [quick]

Where it is to be quick, sessions that take as many bytes as they may, and a console that breaks off at each byte, are left out. Each caller
is a process of its own, spoken to over pipes. What must be sent is written out here or made from what is typed; the files are read by jam.py,
which knows the tables of the JAM proposal and nothing of the program.
"""
import os
import shutil
import subprocess
import sys
import tempfile
import time

from caller import Piped
from harness import (HOST_FAULT, IN_DOUBT, LIMIT, LOCAL, MOST_SESSION_BYTES, NO_WORDS, OFFERS, TOP, Runs, goes_through, is_told, lines, memory_folder,
                     one_by_one, settings, with_limit)
from jam import PRIVATE, crc, mark, write_files
from visits import ANSWERED, FIRST, LISTED, START, WRONG

# more than any file of the bases here has
LONG_FILE = 1_000_000
MOST_SETTINGS_BYTES = 1_048_576


class Sessions(Runs):
    """Sessions in one folder, each with what it must send and its status."""

    def run(self, what, text, status, typed=b"", words=LOCAL, place=None, **run):
        run = run if "stdin" in run else {"typed": typed} | run
        sent, ended, told = self.done(*words, limit=LIMIT, **run)
        self.is_so(f"{what}: what is sent", sent, text)
        self.is_so(f"{what}: the status", ended, status)
        # a refusal is told in words too
        is_refused = text is not None and text.startswith(b"fault ")
        self.holds(f"{what}: the error output: {told}", is_told(told, text, place) if is_refused else not told)


def try_transcripts(trial):
    """A letter is read and answered; three passwords are wrong; a caller hangs up."""
    trial.has_settings(settings())
    trial.has_letters("general")
    since = int(time.time())
    trial.run("a letter is answered", FIRST, 0, lines(ANSWERED))
    base = trial.base()
    if not trial.is_so("how many letters there are", len(base.slots), 2):
        return
    first, second = base.slots
    trial.is_so("the letter was read once, and has its answer", (first.head["read"], first.head["reply_first"], first.text), (1, 2, b"Good\r"))
    trial.holds("the receiver has received the letter", first.head["attribute"] == 0x00800009 and since <= first.head["received"] <= time.time())
    trial.is_so("who answers whom", [second.first(kind) for kind in (2, 3, 4, 5, 6)],
                [b"Hello", b"Test", b"2:5020/1042 01000002", b"2:5020/1042 01000001", b"Re: abc"])
    trial.is_so("the answer", (second.text, second.owner, second.head["reply_to"], second.head["attribute"]),
                (b"Thanks\r", crc(b"Test"), 1, 0x00800001))
    trial.holds("the answer was written now", since <= second.head["written"] <= time.time())
    trial.is_so("what has been read", base.marks, mark(b"Hello", 8, 1, 1))
    trial.holds("the gate is closed", trial.is_shut())

    trial.has_letters("general")
    before = trial.files()
    trial.run("three wrong passwords", WRONG, 7, lines(["x", "y"] * 3))
    trial.run("a right name and wrong passwords", WRONG, 7, lines(["Hello", "tEst"] * 3))
    trial.run("hung up at once", START, 0)
    trial.run("hung up in a line", START, 0, b"Hel")
    trial.run("hung up in a command of Telnet", START, 0, b"\xff")
    trial.run("hung up after the name", START + b"Password: ", 0, lines(["Hello"]))
    trial.holds("who does not get in changes nothing", trial.keeps(before))


def try_pauses(trial):
    """All that is owed is sent before more is read: a line is typed only when all is there that is sent to a caller who hangs up before it."""
    trial.has_settings(settings())
    sent = []
    for count in range(len(ANSWERED) + 1):
        trial.has_letters("general")
        found, status, _ = trial.done(*LOCAL, typed=lines(ANSWERED[:count]))
        sent.append(found)
        trial.is_so(f"hung up before line {count + 1}: the status", status, 0)
    trial.holds("what is sent only grows", all(more.startswith(fewer) for fewer, more in zip(sent, sent[1:])))
    trial.is_so("what is sent to nothing and to all lines", (sent[0], sent[-1]), (START, FIRST))
    trial.has_letters("general")
    caller = Piped(trial.starts(*LOCAL, stdin=subprocess.PIPE))
    for word, before in zip(ANSWERED, sent):
        caller.takes(lambda seen: len(seen) >= len(before))
        if not trial.is_so("one line at a time: what was sent before the next line", caller.seen, before):
            break
        trial.holds(f"one line at a time: hung up before {word!r} was typed", caller.types(lines([word])))
    seen, status = caller.leaves()
    trial.is_so("one line at a time: what is sent", seen, FIRST)
    trial.is_so("one line at a time: the status", status, 0)


def try_clock(trial):
    """A caller posts twice in one session, each time behind a pause: each letter bears the moment at which it was posted."""
    trial.has_settings(settings())
    trial.has_letters("general")
    moments = []
    caller = Piped(trial.starts(*LOCAL, stdin=subprocess.PIPE))
    caller.types(lines(["Hello", "test", "1"]))
    for number in (2, 3):
        time.sleep(2.1)
        since = int(time.time())
        caller.types(lines(["p", "Test", "hour", "n", "What hour is it?", "."]))
        caller.takes(lambda seen: b"Posted as %d.\r\n" % number in seen)
        moments.append((since, int(time.time())))
    caller.types(lines(["q"]))
    _, status = caller.leaves()
    trial.is_so("two posts, each behind a pause: the status", status, 0)
    written = [slot.head["written"] for slot in trial.base().slots[1:]]
    trial.holds(f"two posts, each behind a pause: {written}, each of the moment at which it was posted, {moments}",
                len(written) == 2 and all(low <= it <= high for it, (low, high) in zip(written, moments)))


def try_telnet(trial):
    """The options, the echo with a password under stars, what is erased, and the question whether one is there."""
    trial.has_settings(settings())
    trial.has_letters("general")
    typed = b"\xff\xfd\x01Helxy\x08\x7flo\r\0test\r\n\xff\xf6\xff\xfd\x18zz\xff\xf8q\nignored"
    sent = (b"Helxy\x08 \x08\x08 \x08lo\r\nPassword: ****\r\nWelcome, Hello.\r\nTop> [Yes]\r\n\xff\xfc\x18zz\x08 \x08\x08 \x08q\r\n"
            b"Goodbye.\r\n")
    trial.run("an echo", START + sent, 0, typed)


def try_privacy(trial):
    """A private letter is seen by its sender, its receiver and the sysop alone."""
    trial.has_settings(settings())
    trial.has_letters("general")
    trial.run("a private letter", START + b"Password: Welcome, Hello.\r\nTop> 1 visible, 1 unread.\r\n[general] To: Subject: Private (Y/N): "
              b"Text, . ends, ! cancels\r\nPosted as 2.\r\n[general] Goodbye.\r\n", 0,
              lines(["hello", "test", "1", "p", "Sysop", "secret", "y", "hush", ".", "q"]))
    letters = trial.base().slots
    if not trial.is_so("which letters are private", [letter.head["attribute"] & PRIVATE for letter in letters], [0, PRIVATE]):
        return
    date = time.strftime("%Y-%m-%d %H:%M:%S", time.gmtime(letters[1].head["written"])).encode()
    listed = LISTED.replace(b"\n", b"\r\n")
    secret = b"       2  Hello > Sysop  secret\r\n"
    for name, password, seen, answer in ((b"Test", "abc", listed, b"No such message.\r\n"), (b"Sysop", "hello", listed + secret, None)):
        shown = answer or b"Message 2\r\nFrom: Hello\r\nTo: Sysop\r\nSubject: secret\r\nDate: " + date + b"\r\n\r\nhush\r\n\r\n"
        trial.run(f"the letters that {name.decode()} sees",
                  START + b"Password: Welcome, " + name + b".\r\nTop> %d visible, %d unread.\r\n[general] " % ((len(seen.split(b"\r\n")) - 1,) * 2)
                  + seen + b"[general] " + shown + b"[general] Goodbye.\r\n", 0, lines([name.decode(), password, "1", "L", "2", "Q"]))


def try_areas(trial):
    """Several areas, and the first that is refused, by its place; those before it are closed with nothing changed."""
    names = ("general", "other", "third")
    trial.has_settings(settings(names))
    trial.has_letters(*names)
    counts = b"".join(b"%3d  %-24s%6d unread\r\n" % (k + 1, name.encode(), unread) for k, (name, unread) in enumerate(zip(names, (1, 0, 1))))
    trial.run("three areas", START + b"Password: Welcome, Sysop.\r\nTop> 1 visible, 1 unread.\r\n[other] Killed 1.\r\n[other] "
              b"Packed: base 2, live 0, dropped 1.\r\n[other] Top> " + counts + b"Top> Goodbye.\r\n", 0,
              lines(["Sysop", "hello", "2", "k 1", "x", "b", "a", "q"]))
    trial.is_so("what is left of them", [(trial.base(name).number, len(trial.base(name).slots)) for name in names], [(1, 1), (2, 0), (1, 1)])

    damages = (("other", "jhr", lambda data: data[:1023], 3, b"fault 3.1 ShortHeader\n", 2),
               ("third", "jdx", lambda data: data + b"\0\0\0\0", 3, b"fault 3.4 IndexLength\n", 3),
               ("general", "jdt", lambda data: data[:-1], 3, b"fault 3.12 TextPlace 1\n", 1),
               ("third", "jnl", lambda data: b"\1" + bytes(16), 3, b"fault 3.14 BadJournal 16\n", 3),
               ("other", "jdx", None, 4, b"fault 4 StoreFault\n", 2))
    for name, extension, damage, status, line, place in damages:
        trial.has_letters(*names)
        if damage is None:
            os.remove(f"{trial.areas}/{name}.{extension}")
            os.mkdir(f"{trial.areas}/{name}.{extension}")
        else:
            write_files(trial.areas, name, {extension: damage(trial.files(name)[extension])})
        before = {other: trial.files(other) for other in names if other != name}
        trial.run(line.decode().strip(), line, status, lines(ANSWERED), place=place)
        trial.holds(f"{line!r}: the other areas are as they were", all(trial.keeps(files, other) for other, files in before.items()))
    trial.has_letters("general", "other")
    trial.run("an area that is not there", b"fault 3.1 ShortHeader\n", 3, lines(ANSWERED), place=3)


def try_settings(trial):
    """Settings that are refused, by their field, and words that are no command line."""
    trial.has_letters("general")
    whole = settings()
    for text, line in ((whole.replace("read = 10", "read = 256"), "fault 2.4 OutOfRange area.1.read"), ("x =", "fault 2.1 NotToml"),
                       (whole.replace('name = "Test"', ""), "fault 2.2 Missing user.1.name"),
                       (whole.replace('"2:5020/1042"', "7"), "fault 2.3 WrongKind address"),
                       (whole.replace("id = 8", "id = 7"), "fault 2.5 Repeated user.2.id"),
                       (whole.replace("b9824", "b982"), "fault 2.6 BadDigest 3"),
                       (settings(["general"] * 2), "fault 2.5 Repeated area.2.name")):
        trial.has_settings(text)
        trial.run(line, line.encode() + b"\n", 2, lines(ANSWERED))
    trial.holds("nothing is opened for them", not os.path.exists(f"{trial.areas}/general.jnl"))
    trial.has_settings(whole + "#" * (MOST_SETTINGS_BYTES - len(whole)))
    trial.run("the longest settings", START, 0)
    trial.has_settings(whole + "#" * (MOST_SETTINGS_BYTES + 1 - len(whole)))
    trial.run("longer settings", *HOST_FAULT)
    trial.run("no settings", *HOST_FAULT, words=("local", "nothing.toml"))
    trial.run("settings that are a folder", *HOST_FAULT, words=("local", "areas"))
    for words in (("local",), ("local", ""), ("local", "board.toml", "more"), ("Local", "board.toml")):
        trial.run(f"the words {words}", *NO_WORDS, words=words)


def try_example(trial):
    """The settings that are shown to an operator, with a base that is made for them."""
    shutil.rmtree(trial.areas)
    os.mkdir(trial.areas)
    trial.run("a base is made", b"", 0, words=("make", "areas", "general"))
    with open(f"{TOP}/examples/board.toml") as file:
        trial.has_settings(file.read())
    trial.run("the settings that are shown", OFFERS + b"A Small Board\r\nName: Password: Welcome, Ada.\r\nTop> 0 visible, 0 unread.\r\n[general] "
              b"To: Subject: Private (Y/N): Text, . ends, ! cancels\r\nPosted as 1.\r\n[general] Goodbye.\r\n", 0,
              lines(["Ada", "good morning", "1", "p", "Sysop", "A question", "n", "When is the next pack?", ".", "q"]))
    trial.run("what is then listed", b"       1  Ada > Sysop  A question\n", 0, words=("list", "areas", "general"))


def try_limit(trial):
    """A session takes so many bytes and no more."""
    trial.has_settings(settings())
    trial.has_letters("general")
    entered = START + b"Password: Welcome, Test.\r\nTop> "
    typed = lines(["Test", "abc"])
    typed += b"\0" * (MOST_SESSION_BYTES - len(typed))
    trial.run("as many bytes as a session takes, and more", entered, 7, typed + lines(["Q"]))
    trial.run("one byte less", entered, 0, typed[:-1])
    trial.run("an end with the last byte", entered + b"Goodbye.\r\n", 0, typed[:-3] + lines(["Q"]))
    trial.run("a command of Telnet that never ends", START, 7, b"\xff\xfa" + b"\0" * (MOST_SESSION_BYTES - 2))


def try_breaks(trial):
    """A console that breaks off at each byte: what was sent is a beginning of all that is to be sent, and what was asked by then is done."""
    trial.has_settings(settings())
    with open(f"{trial.folder}/typed", "wb") as file:
        file.write(one_by_one(ANSWERED))
    read, posted = FIRST.index(b"Message 1"), FIRST.index(b"Posted")
    for most in range(len(FIRST) + 1):
        trial.has_letters("general")
        what = f"a console that takes {most} bytes"
        with open(f"{trial.folder}/typed", "rb") as typed, open(f"{trial.folder}/sent", "w+b") as sent:
            sent.seek(LONG_FILE - most)
            trial.run(what, None, 0 if most == len(FIRST) else 5, stdin=typed, stdout=sent, preexec_fn=with_limit(LONG_FILE))
            sent.seek(LONG_FILE - most)
            trial.is_so(f"{what}: what is sent", sent.read(), FIRST[:most])
        slots = trial.base().slots
        trial.is_so(f"{what}: how often the letter was read, and how many there are", (slots[0].head["read"], len(slots)),
                    (int(most >= read), 1 + int(most >= posted)))


def try_faults(trial):
    """A console that fails, and a disk that fails in the middle: the change is in doubt, and the next program settles it."""
    trial.has_settings(settings())
    trial.has_letters("general")
    with open("/dev/full", "wb") as full:
        trial.run("a console that takes nothing", None, 5, lines(ANSWERED), stdout=full)
    with open(f"{trial.folder}/written", "wb") as file:
        trial.run("a console that gives nothing", START, 5, stdin=file)
    trial.is_so("nothing came of it", (trial.base().slots[0].head["read"], trial.base().marks), (0, b""))

    doubt = START + (b"Password: Welcome, Hello.\r\nTop> 1 visible, 1 unread.\r\n[general] "
                     + (IN_DOUBT + b"[general] ") * 2 + b"Goodbye.\r\n")
    typed = lines(["Hello", "test", "1", "N", "1", "Q"])
    for what, most, again, times_read in (("a journal that does not grow", 40, doubt[:-len(b"Goodbye.\r\n")], 0),
                                          ("a header that cannot be written", 700, b"fault 4 StoreFault\n", 1)):
        trial.has_letters("general")
        trial.run(what, doubt, 4, typed, preexec_fn=with_limit(most))
        trial.run(f"{what}, again", again, 4, lines(["Hello", "test", "1", "N", "1"]), preexec_fn=with_limit(most))
        trial.run(f"{what}: the next caller", START, 0)
        trial.is_so(f"{what}: how often the letter was read", trial.base().slots[0].head["read"], times_read)


def goes_to_memory(trial):
    """What takes long is tried in a folder that is on no disk."""
    trial.memory = tempfile.TemporaryDirectory(dir=memory_folder())
    trial.folder, trial.areas = trial.memory.name, f"{trial.memory.name}/areas"


QUICK = (try_transcripts, try_pauses, try_clock, try_telnet, try_privacy, try_areas, try_settings, try_faults, try_example)
LONG = (goes_to_memory, try_limit, try_breaks)

if __name__ == "__main__":
    goes_through(Sessions, "a session at the console", QUICK if sys.argv[2:] else QUICK + LONG, option="quick", in_memory=False)
