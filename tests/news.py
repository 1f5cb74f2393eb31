#!/usr/bin/env python3
"""Tries the news of `board serve CONF` of the built program, on ports of this machine.

usage: news.py PROGRAM

What must be answered is told by the transcripts in tests/news, which are written by hand after the examples of RFC 3977, and by a plain slow reading of
docs/FORMATS.md (news_plain.py) over bases with gaps, with messages that nobody may be shown, and with names and texts of all kinds (news_bases.py). Lines
come at once, in pieces and byte by byte; 10,000 are drawn from a fixed seed. Then news is read beside callers who post, kill, edit and pack; readers leave
in all ways, and one never reads. No line has `QUIT` behind which others count but where the end is looked at.
"""
import glob
import os
import random
import re
import socket
import time

import jam
import news_bases
from caller import connected
from harness import HOST_FAULT, LOGGED, MOST_SESSION_BYTES, NAMES, SYSOP, TOP, free_port, goes_through, has_version_6, is_quiet, resets, together
from news_bases import FIRST, HIDDEN
from news_plain import GREATEST, MOST_LINE, OTHER_LISTS
from newsreader import GREETING, News, NewsReader, without_clock

LINES, SEED, AT_ONCE = 10_000, 3977, 200
# how many bytes are sent one by one at most
MOST_SINGLE = 50_000
PROMPT = b"[general] "
# one area of callers and news, as `general`, in an empty base
ONE_AREA = [(b"general", "general", 10, 200)]
with open(f"{TOP}/tests/news_commands.txt", "rb") as file:
    # each command of the table, and what it does not take
    COMMANDS = file.read().splitlines()


class Drawing:
    """Lines that are drawn: commands with drawn words, often of the right kind, and bytes of all kinds."""

    def __init__(self, seed):
        self.draw = random.Random(seed)
        self.commands = {
            b"CAPABILITIES": (self.garbage,), b"MODE": (self.mode,), b"HELP": (), b"LIST": (self.list, self.wildmat), b"GROUP": (self.group,),
            b"LISTGROUP": (self.group, self.range), b"ARTICLE": (self.target,), b"HEAD": (self.target,), b"BODY": (self.target,), b"STAT": (self.target,),
            b"NEXT": (), b"LAST": (), b"OVER": (self.range,), b"XOVER": (self.range,), b"DATE": (), b"NEWGROUPS": (self.day, self.day, self.zone),
            b"POST": ()}

    def line(self):
        if self.draw.random() < 0.04:
            return self.garbage().replace(b"\n", b"")
        verb = self.draw.choice(list(self.commands))
        words = [self.cased(verb)] + [make() for make in self.commands[verb][:self.draw.choice((0, 1, 1, 1, 2, 2, 3))]]
        if self.draw.random() < 0.06:
            words.insert(self.draw.randrange(len(words) + 1), self.garbage())
        # bytes of a word may part it, but end no line
        return self.blanks(0.1) + b"".join(word + self.blanks(1) for word in words).replace(b"\n", b"\r")[:-1] + self.blanks(0.1)

    def blanks(self, most):
        """Spaces and tabs, where this is how likely they are; one space as a rule."""
        if self.draw.random() >= most:
            return b""
        return b" " if most == 1 and self.draw.random() < 0.9 else b"".join(self.draw.choice((b" ", b"\t")) for _ in range(self.draw.randrange(1, 5)))

    def cased(self, word):
        return self.draw.choice((word, word, word.lower(), word.title()))

    def garbage(self):
        size = self.draw.choice((1, 3, 10, 60, MOST_LINE, 700))
        return self.draw.choice((self.draw.randbytes(size), bytes(self.draw.randrange(33, 127) for _ in range(size)), b"7", b"jam.1", b"QUIT"))

    def number(self):
        at = self.draw.randrange(FIRST + 70)
        return b"%d" % self.draw.choice((at, at, at, at, self.draw.randrange(260), 0, GREATEST - self.draw.randrange(4), GREATEST + 1, 2**32 + at, 10**40))

    def range(self):
        first, last, at = self.number(), self.number(), self.draw.randrange(70)
        return self.draw.choice((first, first + b"-", first + b"-" + last, b"-" + last, b"%d-%d" % (at, at + 9), b"1-", self.id()))

    def id(self):
        area, number = self.draw.choice((b"1", b"1", b"1", b"4", b"7", b"3", b"01", b"")), self.number()
        return self.draw.choice((b"<%s.%s@jam.invalid>", b"<%s.%s@jam.invalid>", b"<%s.%s@jam.invalid>", b"<%s.0%s@jam.invalid>", b"<%s%s@x>",
                                 b"<%s.%s@jam.invalid")) % (area, number)

    def target(self):
        return self.draw.choice((self.number, self.number, self.id))()

    def group(self):
        return self.draw.choice((b"jam.1", b"jam.1", b"jam.4", b"jam.%d" % self.draw.randrange(13), b"JAM.1", self.wildmat()))

    def wildmat(self):
        signs = (b"jam.", b"*", b"?", b"1", b"4", b"!", b"a", b"[", b"\\", b"\xc3\xa4")
        return b",".join(b"".join(self.draw.choice(signs) for _ in range(self.draw.randrange(9))) for _ in range(self.draw.choice((1, 1, 2, 5))))

    def list(self):
        return self.cased(self.draw.choice((b"ACTIVE", b"NEWSGROUPS", b"OVERVIEW.FMT", *OTHER_LISTS, b"MOTD")))

    def mode(self):
        return self.cased(self.draw.choice((b"READER", b"READER", b"STREAM")))

    def day(self):
        return self.draw.choice((b"%06d", b"%08d", b"%06d", b"%07d", b"%d")) % self.draw.randrange(10**6)

    def zone(self):
        return self.cased(self.draw.choice((b"GMT", b"UTC")))


def byte_by_byte(data):
    return (data[n:n + 1] for n in range(len(data)))


def pieces_of(data, draw):
    """The bytes at once, in drawn pieces, or byte by byte, where they are not too many for that."""
    if (how := draw.randrange(3)) == 0:
        return [data]
    if how == 1 and len(data) < MOST_SINGLE:
        return byte_by_byte(data)
    ends = sorted(draw.randrange(len(data)) for _ in range(len(data) // 300))
    return [data[start:end] for start, end in zip([0, *ends], [*ends, len(data)])]


def compares(trial, what, plain, lines, found):
    """Looks whether each of these lines, with its end, was answered as the plain reading says."""
    found = without_clock(found)
    trial.is_so(f"{what}: the greeting", found[:len(plain.greeting)], plain.greeting)
    at = len(plain.greeting)
    for line in lines:
        wanted = plain.hears(line)
        is_so = found[at:at + len(wanted)] == wanted
        if not trial.holds(f"{what}: {line[:600]!r} is answered {found[at:at + 600]!r}, where {wanted[:600]!r} is wanted", is_so):
            return
        at += len(wanted)
    trial.is_so(f"{what}: what comes behind", found[at:], b"")


def says(trial, what, lines, draw, plain=None):
    """A reader who says these lines, with their ends, in one of the ways in which they may come."""
    plain = plain or trial.plain()
    compares(trial, what, plain, lines, trial.reader(what).says(pieces_of(b"".join(lines), draw)))


def try_rows(trial):
    """A base of one message and an empty one, each answer written out."""
    trial.has_board([(b"general", "one", 10, 200)], {"one": jam.one_message()})
    trial.begins()
    for end in (b"\n", b"\r\n"):
        said = end.join((b"GROUP jam.1", b"STAT", b"ARTICLE 2", b"BODY 1", b"QUIT", b""))
        wanted = (b"201 Test Board\r\n211 1 1 1 jam.1\r\n223 1 <1.1@jam.invalid>\r\n423 No such number\r\n"
                  b"222 1 <1.1@jam.invalid>\r\nGood\r\n.\r\n205 Bye\r\n")
        trial.is_so("one message", trial.reader().says([said]), wanted)
    trial.is_ended("one message")
    trial.has_board([(b"general", "none", 10, 200)], {"none": news_bases.base_of({})})
    trial.begins()
    said = b"STAT\nGROUP jam.1\nSTAT\nHEAD <1.9@jam.invalid>\nGROUP jam.2\nQUIT\n"
    wanted = b"201 Test Board\r\n412 No group\r\n211 0 1 0 jam.1\r\n420 No current article\r\n430 No such article\r\n411 No such group\r\n205 Bye\r\n"
    trial.is_so("an empty base", trial.reader().says([said]), wanted)
    trial.is_ended("an empty base")


def script(path):
    """The lines of a transcript that are said, each with what is answered, the greeting behind none. Behind `[C] ` and `[S] ` a backslash begins a byte as
    Python writes it."""
    steps = [[b"", b""]]
    with open(path, encoding="ascii") as file:
        for line in file:
            text = line.rstrip("\n")[4:].encode().decode("unicode_escape").encode("latin1") + b"\r\n"
            if line.startswith("[C]"):
                steps.append([text, b""])
            elif line.startswith("[S]"):
                steps[-1][1] += text
    return steps


def try_transcripts(trial):
    """The examples of RFC 3977, and what the plain reading answers to them."""
    trial.has_board(news_bases.EXAMPLES, news_bases.example_bases())
    trial.begins()
    paths = sorted(glob.glob(f"{TOP}/tests/news/*.txt"))
    trial.holds("there are transcripts", len(paths) > 5)
    for path in paths:
        steps, name, plain = script(path), os.path.basename(path), trial.plain()
        said, answered = (b"".join(parts) for parts in zip(*steps))
        trial.is_so(f"{name}, by the plain reading", plain.greeting + plain.hears(said), answered)
        trial.is_so(f"{name}, at once", without_clock(trial.reader(name).says([said])), answered)
        trial.is_so(f"{name}, byte by byte", without_clock(trial.reader(name).says(byte_by_byte(said))), answered)
        reader = trial.reader(name)
        for line, wanted in steps:
            reader.line.sendall(line)
            trial.tells_wrong(f"{name}, line by line, {line}", lambda wanted=wanted: reader.reads(wanted))
        trial.holds(f"{name}: the end", not reader.takes())
        reader.line.close()
    trial.is_ended("transcripts")


def try_commands(trial):
    """Each command, in each way in which lines may come, with each end of a line, and with blanks around the words."""
    trial.has_board()
    trial.begins()
    for what, end, before in (("each command", b"\r\n", b""), ("each command with LF alone", b"\n", b""),
                              ("each command between blanks", b" \t \r\n", b"\t  ")):
        said = [before + line.replace(b" ", b"\t  " if before else b" ") + end for line in COMMANDS] + [b"QUIT" + end]
        for pieces in ([b"".join(said)], list(said), byte_by_byte(b"".join(said))):
            compares(trial, what, trial.plain(), said, trial.reader(what).says(pieces))
    reader, plain = trial.greeted("one after another"), trial.plain()
    for line in COMMANDS:
        reader.line.sendall(line + b"\r\n")
        trial.tells_wrong(f"one after another, {line}", lambda line=line: reader.reads(plain.hears(line + b"\r\n")))
    reader.quits()
    trial.is_ended("commands")


def try_lengths(trial):
    """Lines around the longest, which counts neither its end nor a carriage return before it; carriage returns in other places; bytes behind the last end."""
    trial.has_board()
    trial.begins()
    lines = []
    for size in (MOST_LINE - 1, MOST_LINE, MOST_LINE + 1, MOST_LINE + 2, MOST_LINE + 3, 5000, 70_000):
        for line in (b"STAT <1.7@jam.invalid>".ljust(size), b"LIST ACTIVE ".ljust(size, b"*"), b"x" * size, b"x" * (size - 1) + b"\r",
                     b"HELP".rjust(size, b"\t"), b"STAT <1.7@jam.invalid>".ljust(size, b"\0"), b"HELP".ljust(size, b"\r"), b"\xff" * size):
            lines += [line + b"\n", line + b"\r\n"]
    lines += [b"\n", b"\r\n", b"\r\r\n", b" \r\n", b"\t\n", b"\rHELP\n", b"HE\rLP\n", b"HELP \r\n", b"HELP\r\r\n", b"HELP\0\n", b"\xff\xf4\n",
              b"\xff\xfd\x06HELP\n", b"DATE\n"]
    draw = random.Random(SEED)
    for _ in range(3):
        says(trial, "lines of all lengths", lines + [b"QUIT\n"], draw)
    for rest in (b"", b"HELP", b"HELP\r", b"QUIT", b"x" * 100_000):
        reader = trial.reader("who ends no line")
        reader.line.sendall(b"STAT\n" + rest)
        reader.line.shutdown(socket.SHUT_WR)
        trial.is_so("who ends no line", reader.says([]), GREETING + b"412 No group\r\n")
    says(trial, "behind the end", [b"QUIT now\n", b"QUIT\n", b"HELP\n" * 2000, b"QUIT\n"], draw)
    trial.is_ended("lengths")


def try_drawn(trial):
    """Lines that are drawn."""
    trial.has_board()
    trial.begins()
    drawing = Drawing(SEED)
    for _ in range(LINES // AT_ONCE):
        lines = [line for line in (drawing.line() + drawing.draw.choice((b"\n", b"\r\n", b"\r\n")) for _ in range(AT_ONCE))
                 if line.strip().upper() != b"QUIT"]
        says(trial, "drawn lines", lines + [b"QUIT\r\n"], drawing.draw)
    trial.is_ended("drawn lines")


def try_hidden(trial):
    """Whatever is asked, of each area and each number, nothing is told of what nobody may be shown, and all else is."""
    for level in (0, 9, 10, 11, 199, 200, 255):
        trial.has_board(level=level)
        trial.begins()
        plain, lines = trial.plain(level), []
        for place, (_, name, _, _) in enumerate(trial.news_areas, 1):
            base = trial.base(name)
            numbers = range(base.number, base.number + len(base.slots))
            lines += [b"GROUP jam.%d" % place, b"OVER 1-", b"LISTGROUP"]
            lines += [b"%s %s" % (part, target) for number in numbers for target in (b"%d" % number, b"<%d.%d@jam.invalid>" % (place, number))
                      for part in (b"ARTICLE", b"STAT")]
        lines = [line + b"\r\n" for line in [b"LIST", b"LIST NEWSGROUPS", *lines, b"QUIT"]]
        found = trial.reader().says([b"".join(lines)])
        trial.holds(f"at level {level}: nothing is told of what is not to be shown", HIDDEN not in found)
        compares(trial, f"at level {level}", plain, lines, found)
        trial.is_ended(f"at level {level}")


def try_beside(trial):
    """Callers post, answer, edit, kill and pack while one reads: what was acknowledged is there at the reader's next line, numbers only rise, and what a
    pack drops leaves a gap."""
    trial.has_board(ONE_AREA, {"general": news_bases.base_of({})})
    trial.begins()
    reader, since = trial.greeted(), int(time.time())
    shown = reader.asks(b"DATE")[0]
    wanted = [time.strftime("111 %Y%m%d%H%M%S", time.gmtime(moment)).encode() for moment in range(since, int(time.time()) + 1)]
    trial.holds(f"the clock: {shown}, where one of {wanted} is wanted", shown in wanted)
    trial.is_so("an empty group", reader.asks(b"GROUP jam.1"), (b"211 0 1 0 jam.1", []))
    caller, sysop = trial.guest(0, place=1), trial.guest(SYSOP, place=1)
    for number in range(1, 121):
        is_private = number % 10 == 5
        caller.posts(NAMES[1] if is_private else b"All", b"post %d" % number, [HIDDEN if is_private else b".%d" % number], is_private, PROMPT)
        seen = number - (number + 5) // 10
        trial.is_so(f"behind post {number}", reader.asks(b"GROUP jam.1"), (b"211 %d 1 %d jam.1" % (seen, number), []))
        answer, lines = reader.asks(b"BODY %d" % number)
        if is_private:
            trial.is_so(f"post {number}, which is private", (answer, lines), (b"423 No such number", []))
        else:
            trial.is_so(f"post {number}", (answer, lines), (b"222 %d <1.%d@jam.invalid>" % (number, number), [b".%d" % number]))
    visible = [number for number in range(1, 121) if number % 10 != 5]
    trial.is_so("all that is seen", reader.asks(b"LISTGROUP"), (b"211 108 1 120 jam.1", [b"%d" % number for number in visible]))
    trial.is_so("overviews of it", [int(line.split(b"\t")[0]) for line in reader.asks(b"OVER 1-")[1]], visible)
    for number in (1, 2, 50, 120):
        sysop.answers(b"k %d" % number, b"Killed %d.\r\n" % number, PROMPT)
        trial.is_so(f"{number} is killed", reader.asks(b"STAT %d" % number)[0], b"423 No such number")
    trial.is_so("behind kills", reader.asks(b"GROUP jam.1")[0], b"211 104 1 120 jam.1")
    trial.is_so("the first article then", reader.asks(b"STAT")[0], b"223 3 <1.3@jam.invalid>")
    trial.holds("a pack", sysop.enters(b"x", PROMPT).startswith(b"Packed: base 3, live 116, dropped 4."))
    trial.is_so("behind a pack", reader.asks(b"GROUP jam.1")[0], b"211 104 3 120 jam.1")
    trial.is_so("a number that a pack dropped", reader.asks(b"ARTICLE 50")[0], b"423 No such number")
    trial.is_so("over what a pack dropped", [reader.asks(line)[0] for line in (b"STAT 49", b"NEXT", b"LAST")],
                [b"223 49 <1.49@jam.invalid>", b"223 51 <1.51@jam.invalid>", b"223 49 <1.49@jam.invalid>"])
    trial.is_so("an edit", caller.edits(49, b"another subject", [b"another text"], PROMPT), b"Edited 49.\r\n")
    trial.is_so("the current article, which was edited", reader.asks(b"BODY"), (b"222 49 <1.49@jam.invalid>", [b"another text"]))
    trial.is_so("its overview", reader.asks(b"OVER")[1][0].split(b"\t")[:2], [b"49", b"another subject"])
    sysop.answers(b"k 49", b"Killed 49.\r\n", PROMPT)
    trial.is_so("the current article, which was killed", [reader.asks(line)[0] for line in (b"STAT", b"OVER")], [b"420 No current article"] * 2)
    trial.is_so("the next behind it", reader.asks(b"NEXT")[0], b"223 51 <1.51@jam.invalid>")
    sysop.enters(b"51", PROMPT)
    sysop.enters(b"r", b"Text, . ends, ! cancels\r\n")
    sysop.enters(b"an answer")
    sysop.answers(b".", b"Posted as 121.\r\n", PROMPT)
    trial.is_so("an answer refers to what it answers", reader.asks(b"OVER 121")[1][0].split(b"\t")[4:6], [b"<1.121@jam.invalid>", b"<1.51@jam.invalid>"])
    compares_now(trial, reader)
    reader.quits()
    caller.quits()
    sysop.quits()
    trial.is_ended("news beside callers")
    trial.is_so("a check then", trial.ended("check", "areas", "general")[1], 0)


def compares_now(trial, reader):
    """Looks whether a reader who is connected is answered as the files are now."""
    plain = trial.plain()
    lines = [b"LIST", b"GROUP jam.1", b"LISTGROUP", b"OVER 1-", *(b"ARTICLE %d" % number for number in range(130))]
    for line in lines:
        reader.line.sendall(line + b"\r\n")
        trial.tells_wrong(f"as the files are now, {line}", lambda line=line: reader.reads(plain.hears(line + b"\r\n")))


def try_deaf(trial):
    """Who asks on and never reads holds up the readers who come then, and no caller; and what is owed is not kept in memory."""
    trial.has_board(bases={**news_bases.bases(), "general": news_bases.base_of({})}, areas=[*news_bases.AREAS, *ONE_AREA])
    trial.begins()
    caller = trial.guest(0, place=len(trial.news_areas))
    deaf = trial.greeted("who never reads")
    deaf.line.settimeout(1)
    try:
        while True:
            deaf.line.sendall(b"GROUP jam.4\nOVER 1-\n" * 1000)
    except TimeoutError:
        pass
    waits = trial.reader("who comes then")
    for number in range(1, 31):
        trial.is_so("a post beside", caller.posts(b"All", b"a post", [b"a line"], False, PROMPT), number)
    trial.holds("who comes then waits", is_quiet(waits))
    grown = memory_of(trial)
    print(f"who never reads: the program has {grown // 1024} KB of memory at most")
    trial.holds("what is owed is not kept in memory", grown < 64 << 20)
    deaf.line.close()
    waits.reads(GREETING)
    trial.is_so("and is then served", waits.asks(b"GROUP jam.%d" % len(trial.news_areas))[0], b"211 30 1 30 jam.%d" % len(trial.news_areas))
    waits.quits()
    caller.quits()
    trial.is_ended("who never reads")


def memory_of(trial):
    """The most bytes of memory that the run has had."""
    with open(f"/proc/{trial.process.pid}/status", encoding="ascii") as file:
        return next(int(line.split()[1]) * 1024 for line in file if line.startswith("VmHWM:"))


def try_ends(trial):
    """Readers who leave, hang up, break off, close one half of the line, or send as much as a session takes; each is followed by one who is served."""
    trial.has_board()
    trial.begins()
    node = b"node 4: "

    def hears(reader):
        reader.line.shutdown(socket.SHUT_WR)
        return reader.says([])

    for said in (b"", b"H", b"HELP\n", b"GROUP jam.4\nOVER 1-\n" * 50):
        for leaves in (socket.socket.close, resets, lambda line: line.shutdown(socket.SHUT_WR)):
            reader = trial.greeted("who hangs up")
            reader.line.sendall(said)
            leaves(reader.line)
    trial.is_so("one half of the line", hears(trial.reader()), GREETING)
    trial.greeted().quits()
    line = b"x" * (MOST_SESSION_BYTES - 7)
    trial.is_so("as much as is taken, with a QUIT at its end", trial.reader().says([line, b"\n", b"QUIT\r\n"]), GREETING + b"501 Syntax\r\n205 Bye\r\n")
    trial.is_so("as much as is taken, without one", trial.reader().says([line, b"xx\nQUIT\n"]), GREETING + b"501 Syntax\r\n")
    trial.is_so("more, of one line", trial.reader().says([line, line]), GREETING)
    if has_version_6():
        trial.greeted("by IPv6", "::1").quits()
    trial.greeted().quits()
    trial.is_ended("readers who leave")
    ends = {re.sub(rb".* ended after \d+ s: ", b"", line) for line in trial.told if line.startswith(node) and b" ended " in line}
    trial.holds(f"what the operator is told of their ends: {ends}", {b"left\n", b"hung up\n", b"sent too much\n"} <= ends
                <= {b"left\n", b"hung up\n", b"sent too much\n", b"the line broke\n"})
    trial.holds("what the operator is told of readers", all(LOGGED.match(it) for it in trial.told if it.startswith(node)))


def try_calls(trial):
    """With `--calls` each node serves so many callers, and news so many readers, and the run ends then."""
    trial.has_board(nodes=2)
    trial.begins("--calls", "2")
    first, second = trial.greeted("the first reader"), trial.reader("the second")
    together((lambda n=n: trial.user(n).quits()) for n in range(4))
    trial.holds("the second waits for the first, and the run for both", is_quiet(second) and trial.process.poll() is None)
    first.quits()
    second.reads(GREETING)
    second.quits()
    trial.ends("each has served two", 0)


def try_settings(trial):
    """What settings of news are refused, and that without a port there is no news."""
    for numbers, line in (({"nodes": 32}, b"news_port"), ({"news_port": 65_536}, b"news_port"), ({"news_port": -1}, b"news_port"),
                          ({"news_level": 256}, b"news_level"), ({"news_level": -1}, b"news_level")):
        trial.has_board(**numbers)
        trial.is_so(f"the settings {numbers}", trial.ended("serve", "board.toml"), (b"fault 2.4 OutOfRange %s\n" % line, 2))
    trial.has_board(news_port='"119"')
    trial.is_so("a text as news_port", trial.ended("serve", "board.toml"), (b"fault 2.3 WrongKind news_port\n", 2))
    for nodes, news_port, calls in ((32, None, 1), (31, trial.news_port, 1)):
        trial.has_board(nodes=nodes, news_port=news_port)
        trial.begins("--calls", "1")
        together(lambda: trial.caller("who leaves").line.close() for _ in range(nodes))
        if news_port:
            trial.greeted().quits()
        else:
            trial.opening = trial.opening.replace(b"news on port %d\n" % trial.news_port, b"")
        trial.ends(f"{nodes} nodes", 0)
    trial.port, trial.news_port = free_port(), free_port()
    trial.has_board()
    for host in ("0.0.0.0", "127.0.0.1"):
        with socket.socket() as held:
            held.bind((host, trial.news_port))
            held.listen()
            trial.is_so(f"a port for news that another has at {host}", trial.ended("serve", "board.toml"), HOST_FAULT)
    trial.has_board(news_port=trial.port)
    trial.is_so("the port of callers for news too", trial.ended("serve", "board.toml"), (b"fault 2.5 Repeated news_port\n", 2))
    trial.has_board(news_port=0)
    with trial.starts("serve", "board.toml") as child:
        told = [child.stderr.readline() for _ in range(2)]
        found = re.fullmatch(rb"news on port ([1-9]\d*)\n", told[1])
        if trial.holds(f"a port for news that the system picks: {told}", found):
            NewsReader(connected(int(found[1]))).quits(GREETING)
        child.kill()
    trial.has_board(level=None)
    trial.begins()
    says(trial, "no level", [b"LIST\n", b"GROUP jam.1\n", b"GROUP jam.2\n", b"QUIT\n"], random.Random(SEED), trial.plain(0))
    trial.is_ended("no level")
    trial.has_board(level=10)
    words = ("local", "board.toml")
    trial.is_so("a session at the console", trial.ended(*words, typed=b"")[1], 0)


TRIES = (try_rows, try_transcripts, try_commands, try_lengths, try_drawn, try_hidden, try_beside, try_deaf, try_ends, try_calls, try_settings)

if __name__ == "__main__":
    goes_through(News, "news", TRIES)
