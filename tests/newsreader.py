"""A news reader at a socket: what it asks, and what it is answered; and runs of `serve` over the bases of news_bases.py."""
import re
import threading

import jam
import news_bases
from caller import GUARD, Otherwise, connected
from harness import AREA, BOARD, USER, Served, free_port, users
from news_plain import CLOCK, Reader

GREETING = b"201 Test Board\r\n"
# the codes of answers with lines behind them up to a stop
BLOCKS = (b"101", b"100", b"215", b"220", b"221", b"222", b"224", b"231")


class NewsReader:
    """One who is connected to a port for news, and known by this name here."""

    def __init__(self, line, what="a news reader"):
        self.line, self.what, self.seen = line, what, b""

    def reads(self, wanted):
        """Looks whether this is what comes."""
        while len(self.seen) < len(wanted) and self.takes():
            pass
        found, self.seen = without_clock(self.seen[:len(wanted)]), self.seen[len(wanted):]
        if found != wanted:
            raise Otherwise(f"{self.what}: {found[-300:]!r} came, where {wanted[-300:]!r} is wanted")

    def takes(self):
        """Takes what comes next, and tells whether something came."""
        try:
            more = self.line.recv(65536)
        except TimeoutError:
            raise Otherwise(f"{self.what}: nothing came behind {self.seen[-300:]!r}") from None
        except ConnectionError:
            more = b""
        self.seen += more
        return more != b""

    def reads_line(self):
        """The next line, without its end."""
        while b"\r\n" not in self.seen:
            if not self.takes():
                raise Otherwise(f"{self.what}: hung up behind {self.seen[-300:]!r}")
        line, self.seen = self.seen.split(b"\r\n", 1)
        return line

    def asks(self, line):
        """Sends a line, and gives the first line of what is answered, and the lines behind it, where it has some, each without a stop that was put before
        it."""
        self.line.sendall(line + b"\r\n")
        answer, lines = self.reads_line(), []
        has_lines = answer[:3] in BLOCKS or answer[:3] == b"211" and line.upper().startswith(b"LISTGROUP")
        while has_lines and (more := self.reads_line()) != b".":
            lines.append(more.removeprefix(b"."))
        return answer, lines

    def says(self, pieces):
        """Sends these pieces, one after another, while all that comes is read, and gives that, up to the end."""
        sender = threading.Thread(target=self.sends, args=(pieces,))
        sender.start()
        while self.takes():
            pass
        sender.join(GUARD)
        self.line.close()
        return self.seen

    def sends(self, pieces):
        try:
            for piece in pieces:
                self.line.sendall(piece)
        except OSError:
            # the board has hung up
            pass

    def quits(self, wanted=b""):
        """Leaves, and looks whether this, the answer and the end come then."""
        self.line.sendall(b"QUIT\r\n")
        self.reads(wanted + b"205 Bye\r\n")
        if self.takes():
            raise Otherwise(f"{self.what}: {self.seen!r} came behind the end")
        self.line.close()


def without_clock(answers):
    """The same, whatever the clock shows."""
    return re.sub(rb"(?m)^111 \d{14}\r$", CLOCK + b"\r", answers)


class News(Served):
    """Runs of `serve` for callers and news readers in one folder."""

    def __init__(self, program, folder):
        super().__init__(program, folder)
        self.news_port, self.news_areas = free_port(), []

    def has_board(self, areas=news_bases.AREAS, bases=None, level=10, **numbers):
        """The files of these areas, each a name, a base and the levels of who reads and of the sysop, and the settings."""
        bases = bases or news_bases.bases()
        jam.write_only(self.areas, **{name: bases[name] for _, name, _, _ in areas})
        numbers = {"port": self.port, "nodes": 2, "pack_minutes": 0, "news_port": self.news_port, "news_level": level} | numbers
        text = BOARD + "".join(f"{key} = {value}\n" for key, value in numbers.items() if value is not None)
        for name, base, read, sysop in areas:
            text += AREA.format(name.decode(), "areas", base).replace("read = 10", f"read = {read}").replace("sysop = 200", f"sysop = {sysop}")
        self.has_settings(text + "".join(USER.format(*user) for user in users()))
        self.news_areas, self.nodes = areas, numbers["nodes"]

    def begins(self, *words, **run):
        """Begins to serve that board."""
        super().begins(*words, areas=[(name.decode(), "areas", base) for name, base, _, _ in self.news_areas], nodes=self.nodes, **run)
        listening, areas = self.opening.split(b"\n", 1)
        self.opening = listening + b"\nnews on port %d\n" % self.news_port + areas

    def plain(self, level=10):
        """The plain reading of the same board, as the files are now."""
        areas = [(name, self.base(base), read, sysop) for name, base, read, sysop in self.news_areas]
        return Reader(b"Test Board", areas, level)

    def reader(self, what="a news reader", host="127.0.0.1"):
        return NewsReader(connected(self.news_port, host, lambda: self.process.poll() is None), what)

    def greeted(self, what="a news reader", host="127.0.0.1"):
        reader = self.reader(what, host)
        reader.reads(GREETING)
        return reader
