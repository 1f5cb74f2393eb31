#!/usr/bin/env python3
"""Tries the pages between nodes of `board local CONF` and `board serve CONF` of the built program: what is typed and said, and that each page that
was sent is told once, to who reads at its node, and in order.

usage: pages.py PROGRAM [--calls N]

Which node serves a caller is told by the log. On a board of 32 nodes as many callers page each other, read and hang up at moments that are drawn from
a fixed seed, also within a page and within what `G` says, and others come after them; in the end one at each node reads what is left. Each page is a
text of its own. Where N is given, each of them calls so often, and nothing else is tried.
"""
import math
import random
import re
import socket
import sys
import threading
import time

from caller import BARE, GUARD, PLAIN, TALKATIVE, Otherwise
from harness import AREAS, COUNT, Served, goes_through, is_quiet, lines, one_by_one, resets, settings, together, users
from local import Sessions
from newsreader import News
from serve import stuffs
from visits import ANSWERED, FIRST, PAGED, PAGES, START, WRONG

# pages that wait for a node at most, and what `G` tells at most; the bytes of a page, and of a line
MOST_WAITING = 64
MOST_PAGE, MOST_LINE = 72, 78
# the nodes of the board whose callers are drawn, how often each of them calls, and the nodes to which more than their share is sent
NODES, CALLS, LIKED, SEED = 32, 5, 3, 72
TOP, IN_AREA = b"Top> ", b"[general] "
NONE, NO_NODE, UNKNOWN, SENT = b"No pages.\r\n", b"No such node.\r\n", b"Unknown command.\r\n", b"Sent.\r\n"
ENTERED = START + b"Password: Welcome, Hello.\r\n" + TOP


def full(node):
    return b"Node %d is full.\r\n" % node


def told(node, *texts):
    """What is told of these pages of a node."""
    return b"".join(b"Page from node %d: %s\r\n" % (node, text) for text in texts)


class Paged(News, Sessions):
    """Runs of `serve` and `local` in one folder, with the callers of each node."""

    def opens(self, *words, nodes=2):
        """Begins to serve three empty areas."""
        self.has_bases()
        self.has_settings(settings(AREAS, users(), port=self.port, nodes=nodes, pack_minutes=0))
        Served.begins(self, *words, nodes=nodes)

    def node_of(self, caller, since):
        """The node that serves a caller, by what the log has told since then."""
        line = re.compile(rb"node (\d+): 127\.0\.0\.1:%d connected\n" % caller.line.getsockname()[1])
        end = time.monotonic() + GUARD
        while not (found := next(filter(None, map(line.fullmatch, self.told[since:])), None)):
            if time.monotonic() > end:
                raise Otherwise(f"{caller.what}: no node")
            time.sleep(0.001)
        return int(found[1])

    def comes(self, n=0, client=BARE):
        """One of the users, logged in, whose node is known."""
        since = len(self.told)
        caller = self.user(n % COUNT, client)
        return Paging(caller, self.node_of(caller, since))

    def fills(self, nodes):
        """A caller on each node, by its number."""
        found = {it.node: it for it in together((lambda n=n: self.comes(n)) for n in range(nodes))}
        self.is_so("each node has a caller", sorted(found), list(range(1, nodes + 1)))
        return found


class Paging:
    """A caller who sends and reads pages."""

    def __init__(self, caller, node):
        self.caller, self.node, self.prompt = caller, node, TOP

    def enters(self):
        self.caller.enters(b"1", IN_AREA)
        self.prompt = IN_AREA

    def sends(self, to, text):
        """What is said of a page."""
        self.caller.answers(b"S %d" % to, b"", b"Page: ")
        return self.caller.enters(text, self.prompt)

    def takes(self):
        """What is told of pages."""
        return self.caller.enters(b"G", self.prompt)

    def quits(self):
        self.caller.quits()


def try_oneself(trial):
    """A page to oneself at the console, typed at once and line by line."""
    for typed in (lines, one_by_one):
        trial.has_settings(settings())
        trial.has_letters("general")
        before = trial.files()
        trial.run("a page to oneself", PAGES, 0, typed(PAGED))
        trial.holds("pages are no messages", trial.keeps(before))


def says(trial, what, words, said, top=TOP):
    """Looks whether this comes upon these words, each a line of text or of bytes, at the console of a board of two nodes."""
    words = ["Hello", "test", *words, "q"]
    typed = b"".join((word.encode() if isinstance(word, str) else word) + b"\r\n" for word in words)
    trial.has_settings(settings(nodes=2))
    trial.has_letters("general")
    trial.run(what, START + b"Password: Welcome, Hello.\r\n" + top + said + b"Goodbye.\r\n", 0, typed)


def try_commands(trial):
    """What is a command, at both prompts."""
    for prompt, way, entered in ((TOP, [], b""), (IN_AREA, ["1"], b"1 visible, 1 unread.\r\n" + IN_AREA)):
        for word in ("s 2", "S 2", "  S   2  ", "S 0000000002"):
            says(trial, repr(word), [*way, word, "hi"], entered + b"Page: " + SENT + prompt)
        for word in ("g", "G", "  g "):
            says(trial, repr(word), [*way, word], entered + NONE + prompt)
        for word in ("S 0", "S 3", "S 33", "S 65537", "S 4294967295", "s 00"):
            says(trial, repr(word), [*way, word], entered + NO_NODE + prompt)
        for word in ("S", "S 4294967296", "S 4294967297", "S 00000000001", "S1", "S -1", "S +1", "S 1 2", "S 1x", "S x", "G 1", "G 0", "G1", "GG"):
            says(trial, repr(word), [*way, word], entered + UNKNOWN + prompt)
    trial.has_settings(settings(nodes=2))
    trial.run("as names and passwords they are none", WRONG, 7, lines(["G", "S 1"] * 3))
    says(trial, "nor in a post", ["1", "p", "g", "s 1", "g", "s 1", "g", ".", "g"],
         b"1 visible, 1 unread.\r\n[general] To: Subject: Private (Y/N): Text, . ends, ! cancels\r\nPosted as 2.\r\n[general] " + NONE + IN_AREA)
    post = trial.base().slots[-1]
    trial.is_so("what was posted", (post.first(3), post.first(6), post.text), (b"g", b"s 1", b"s 1\rg\r"))


def try_area(trial):
    """In an area its prompt comes back, and the message that was shown last stays: an answer goes to it. What was sent there can be read outside."""
    trial.has_settings(settings(nodes=2))
    trial.has_letters("general")
    typed, at = [*ANSWERED], FIRST.index(b"Reply to ")
    typed[typed.index("R"):typed.index("R")] = ["s 1", "see 1", "S 3", "g", "g"]
    said = b"Page: " + SENT + IN_AREA + NO_NODE + IN_AREA + told(1, b"see 1") + IN_AREA + NONE + IN_AREA
    trial.run("pages between a message and its answer", FIRST[:at] + said + FIRST[at:], 0, lines(typed))
    answer = trial.base().slots[-1]
    trial.is_so("the answer", (answer.first(3), answer.head["reply_to"], answer.text), (b"Test", 1, b"Thanks\r"))
    said = b"1 visible, 1 unread.\r\n" + IN_AREA + b"Page: " + SENT + IN_AREA + TOP + told(1, b"here") + TOP
    says(trial, "sent in an area", ["1", "s 1", "here", "b", "g"], said)


def try_texts(trial):
    """What is typed as a page, and what is told of it."""
    line = b"0123456789" * 9
    high = bytes(range(128, 256))
    for what, typed, shown in (
            ("an empty page", b"", b""), ("spaces", b"  a  ", b"  a  "), ("71 bytes", line[:71], line[:71]), ("72 bytes", line[:72], line[:72]),
            ("a line of 78 bytes", line[:MOST_LINE], line[:MOST_PAGE]), ("a longer line", line, line[:MOST_PAGE]),
            ("what is erased of it", line[:MOST_LINE] + b"\x08" * 7 + b"z", line[:71] + b"z"), ("what is erased", b"abc\x08\x7fd\x08", b"a"),
            ("all that is typed", b"ab" + b"\x7f" * 3, b""),
            ("bytes below 32", b"a" + bytes(it for it in range(1, 32) if it not in b"\x08\n\r") + b"b", b"ab"),
            ("bytes from 128 on", high[:MOST_PAGE], high[:MOST_PAGE]), ("bytes up to 255", high[MOST_PAGE:], high[MOST_PAGE:]),
            ("bytes 255 alone", b"\xff" * MOST_PAGE, b"\xff" * MOST_PAGE), ("more of them", b"\xff" * MOST_LINE, b"\xff" * MOST_PAGE),
            *((f"the text {it!r}", it, it) for it in (b".", b"!", b"q", b"G", b"S 1", b"b", b"?", b"Page from node 2: hi", b"%s%n"))):
        doubled = [it.replace(b"\xff", b"\xff\xff") for it in (typed, shown)]
        says(trial, what, ["s 1", doubled[0], "g", "g"], b"Page: " + SENT + TOP + told(1, doubled[1]) + TOP + NONE + TOP)
    trial.has_settings(settings(nodes=2))
    trial.run("a page that was not ended", ENTERED + b"Page: ", 0, lines(["Hello", "test", "s 1"]) + b"hi")


def try_full(trial):
    """Of 65 pages the last is refused, and what was taken makes room. A page to oneself is as any other."""
    pages = [b"page %d" % n for n in range(1, 130)]
    first = pages[:MOST_WAITING]
    words = [word for page in pages[:MOST_WAITING + 1] for word in ("s 2", page)]
    says(trial, "65 pages", words, (b"Page: " + SENT + TOP) * MOST_WAITING + b"Page: " + full(2) + TOP)
    words = [word.replace("2", "1") if isinstance(word, str) else word for word in words]
    said = (b"Page: " + SENT + TOP) * MOST_WAITING + b"Page: " + full(1) + TOP
    says(trial, "65 pages to oneself", [*words, "g", "g"], said + told(1, *first) + TOP + NONE + TOP)
    trial.opens()
    one, two = trial.fills(2).values()
    for turn in range(3):
        found = [one.sends(two.node, page) for page in pages[:MOST_WAITING + 2]]
        trial.is_so(f"turn {turn}: what is said of 66", found, [SENT] * MOST_WAITING + [full(two.node)] * 2)
        trial.is_so(f"turn {turn}: to oneself they are none the more", two.sends(two.node, b"me too"), full(two.node))
        trial.is_so(f"turn {turn}: another node is not full", two.sends(one.node, b"all is well"), SENT)
        trial.is_so(f"turn {turn}: what is told", (two.takes(), two.takes()), (told(one.node, *first), NONE))
        trial.is_so(f"turn {turn}: the other", (one.takes(), one.takes()), (told(two.node, b"all is well"), NONE))
    trial.is_so("a page of each", (one.sends(two.node, b"1"), two.sends(two.node, b"2"), one.sends(two.node, b"3")), (SENT,) * 3)
    trial.is_so("in the order in which they came", two.takes(), told(one.node, b"1") + told(two.node, b"2") + told(one.node, b"3"))
    for it in (one, two):
        it.quits()
    trial.is_ended("full queues")


def try_clients(trial):
    """Each kind of client, with its echo, and bytes 255."""
    trial.opens()
    for n, (sender, reader) in enumerate(((PLAIN, TALKATIVE), (TALKATIVE, BARE), (BARE, PLAIN))):
        one, two = trial.comes(0, sender), trial.comes(1, reader)
        if n:
            one.enters()
        texts = [b"a page by %s" % sender.name.encode(), b"\xff" * MOST_PAGE, bytes(range(184, 256)), b"", b"x" * MOST_LINE]
        trial.is_so(f"{sender.name}: what is said", [one.sends(two.node, it) for it in texts], [SENT] * len(texts))
        trial.is_so(f"{reader.name}: what is told", two.takes(), told(one.node, *(it[:MOST_PAGE] for it in texts)))
        one.quits()
        two.quits()
    trial.is_ended("clients")


def try_waiting(trial):
    """Pages wait for whoever comes next on a node where nobody is, and are gone when the board has stopped. Nothing is said unasked."""
    trial.opens()
    one = trial.comes()
    other = 3 - one.node
    pages = (other, b"who comes?"), (one.node, b"who is next?"), (other, b"and then?")
    trial.is_so("nobody is there", [one.sends(*page) for page in pages], [SENT] * 3)
    one.quits()
    found = trial.fills(2)
    trial.holds("nothing is said unasked", all(is_quiet(it.caller) for it in found.values()))
    trial.is_so("who comes to the other node", (found[other].takes(), found[other].takes()), (told(one.node, b"who comes?", b"and then?"), NONE))
    found[one.node].caller.line.close()
    third = trial.comes()
    trial.is_so("who comes behind one who did not read", [third.node, third.takes(), third.takes()], [one.node, told(one.node, b"who is next?"), NONE])
    trial.is_so("a page that nobody reads", [third.sends(node, b"lost") for node in (1, 2)], [SENT] * 2)
    trial.holds("nothing is said of a page that came", is_quiet(found[other].caller))
    trial.is_ended("pages that nobody read")
    trial.opens("--calls", "2")
    found = trial.fills(2)
    trial.is_so("behind a new start", [it.takes() for it in found.values()], [NONE] * 2)
    for it in found.values():
        it.quits()
    for it in trial.fills(2).values():
        trial.is_so("a page that is left", it.sends(it.node, b"left"), SENT)
        it.quits()
    trial.ends("a run that ends while pages wait", 0)


def try_meanwhile(trial):
    """One reads on and on while others send without a pause: 64 at most are told at once, none is lost, and those of each are told in order."""
    trial.opens(nodes=5)
    reader, *senders = trial.fills(5).values()
    pages, said, takes = [b"page %d" % n for n in range(1000)], {it.node: [] for it in senders}, []

    def sends_on(sender):
        for start in range(0, len(pages), 100):
            some = pages[start:start + 100]
            sender.caller.types(b"".join(b"s %d\n%s\n" % (reader.node, page) for page in some))
            for _ in some:
                sender.caller.reads(b"Page: ")
                said[sender.node].append(reads_up_to(sender.caller, TOP))

    threads = [threading.Thread(target=trial.tells_wrong, args=("who sends on", lambda it=it: sends_on(it))) for it in senders]
    for thread in threads:
        thread.start()
    while any(thread.is_alive() for thread in threads):
        takes.append(reader.takes())
    takes.append(reader.takes())
    while takes[-1] != NONE:
        takes.append(reader.takes())
    most = max(it.count(b"\n") for it in takes)
    trial.holds(f"how many were told at once: {most}", most <= MOST_WAITING)
    found = pages_in(b"".join(it for it in takes if it != NONE))
    for node, answers in said.items():
        trial.is_so(f"what else is said to node {node}", set(answers) - {full(reader.node), SENT}, set())
        kept = [page for page, it in zip(pages, answers) if it == SENT]
        trial.is_so(f"the {len(kept)} pages of node {node} that were sent", [text for it, text in found if it == node], kept)
    trial.holds("some pages, and no others", found and {node for node, _ in found} <= set(said))
    for it in (reader, *senders):
        it.quits()
    trial.is_ended("pages that come meanwhile")


def reads_up_to(caller, end):
    """What comes before the first of these, which is taken too."""
    while end not in caller.seen:
        if caller.is_over:
            raise Otherwise(f"{caller.what}: hung up behind {caller.seen[-300:]!r}")
        caller.take()
    found, caller.seen = caller.seen.split(end, 1)
    return found


def pages_in(said):
    """The pages of these lines, each with the node that is named; the last line may be cut."""
    return [(int(node), text) for node, text in re.findall(rb"Page from node (\d+): ([^\r\n]*)\r\n", said)]


def try_rude(trial):
    """Who sends pages on and on, and who asks for them, and never reads what is said, holds up nobody else."""
    trial.opens(nodes=4)
    one, two, sender, asker = trial.fills(4).values()
    floods = [threading.Thread(target=stuffs, args=(it.caller, line)) for it, line in ((sender, b"s %d\nhere?\n" % asker.node), (asker, b"g\n"))]
    for flood in floods:
        flood.start()
    for n in range(200):
        text = b"page %d" % n
        trial.is_so("pages beside them", (one.sends(two.node, text), two.sends(one.node, text)), (SENT,) * 2)
        trial.is_so("what is told beside them", (two.takes(), one.takes()), (told(one.node, text), told(two.node, text)))
    for flood in floods:
        flood.join(3 * GUARD)
    for it in (sender, asker):
        it.caller.line.close()
    third = [trial.comes() for _ in range(2)]
    trial.is_so("who comes then", sorted(it.node for it in third), sorted((sender.node, asker.node)))
    left = {it.node: it.takes() for it in third}
    count = len(pages_in(left[asker.node]))
    trial.holds(f"{count} pages are left for them", count <= MOST_WAITING)
    trial.is_so("what is left for them", left, {sender.node: NONE, asker.node: told(sender.node, *[b"here?"] * count) or NONE})
    trial.is_so("no more", [it.takes() for it in third], [NONE] * 2)
    for it in (one, two, *third):
        it.quits()
    trial.is_ended("rude callers")


def try_news(trial):
    """A reader of news beside: nothing is said to it, no page goes to its node, and it has no commands for pages."""
    trial.has_board(nodes=2)
    trial.begins()
    reader = trial.greeted()
    one, two = trial.fills(2).values()
    trial.is_so("no page goes to a reader", [one.caller.enters(b"S %d" % node, TOP) for node in (3, 4, 5)], [NO_NODE] * 3)
    for n in range(1, 100):
        trial.is_so("a page beside a reader", (one.sends(two.node, b"%d" % n), two.takes()), (SENT, told(one.node, b"%d" % n)))
        if n % 10 == 0:
            trial.is_so("what a reader is answered", reader.asks(b"DATE")[0][:4], b"111 ")
    trial.is_so("a page that waits", one.sends(two.node, b"it waits"), SENT)
    trial.holds("a reader is told nothing", not reader.seen and is_quiet(reader))
    trial.is_so("commands of callers", [reader.asks(it)[0] for it in (b"S 1", b"G", b"g")], [b"500 Unknown"] * 3)
    reader.quits()
    trial.greeted().quits()
    trial.is_so("the page waits still", two.takes(), told(one.node, b"it waits"))
    one.quits()
    two.quits()
    trial.is_ended("news beside pages")


class Page:
    """A page that was typed: by a caller at this node, to that one, when its text was ended, and what came of it, and when: `sent` or `full`; `open`
    where the caller hung up with the end of the text, and `none` where before it."""

    def __init__(self, sender, to, text):
        self.sender, self.to, self.text, self.begun, self.ended, self.came = sender, to, text, time.monotonic(), math.inf, "open"

    def has_come(self, said):
        self.ended, self.came = time.monotonic(), {SENT: "sent", full(self.to): "full"}.get(said, said)

    def goes_before(self, other):
        """Whether it was put into the queue before the other one."""
        return self.ended < other.begun or self.sender == other.sender and self.begun < other.begun


class Take:
    """What `G` told on a node, and when; where the caller hung up it may have taken more, up to 64, which are then lost."""

    def __init__(self, node):
        self.node, self.begun, self.ended, self.told, self.is_cut = node, time.monotonic(), math.inf, [], True

    def has_come(self, said, is_cut=False):
        """Keeps what was told, each page with the node that is named; of what was cut, the lines that are whole."""
        self.told = pages_in(said)
        self.ended, self.is_cut = math.inf if is_cut else time.monotonic(), is_cut
        if not is_cut and said != (b"".join(told(*it) for it in self.told) or NONE):
            raise Otherwise(f"node {self.node}: {said[-300:]!r} came upon G")

    def room(self):
        """How many pages it may have lost."""
        return MOST_WAITING - len(self.told) if self.is_cut else 0


class Drawn:
    """One who calls again and again, and does what is drawn."""

    def __init__(self, trial, n, book):
        self.trial, self.n, self.book, self.draw, self.count, self.at = trial, n, book, random.Random(SEED + n), 0, None

    def calls(self):
        self.at = self.trial.comes(self.n, self.draw.choice((PLAIN, TALKATIVE, BARE)))
        if self.draw.random() < 0.5:
            self.at.enters()

    def goes_on(self):
        """Does some of all, and ends the call in some way."""
        for _ in range(self.draw.randrange(10, 40)):
            self.draw.choices((self.sends, self.takes, self.rests), (75, 15, 10))[0]()
        self.draw.choice((self.at.quits, self.leaves, self.leaves_a_page, self.leaves_a_text, self.leaves_a_page_sent, *[self.leaves_what_is_told] * 2))()

    def begins_page(self, to=None):
        """A page to a drawn node, whose text is still to be typed."""
        self.count += 1
        to = to or self.draw.randrange(1, (LIKED if self.draw.random() < 0.4 else NODES) + 1)
        text = b"%d of caller %d, from node %d to %d " % (self.count, self.n, self.at.node, to)
        self.at.caller.answers(b"s %d" % to, b"", b"Page: ")
        page = Page(self.at.node, to, text + b"x" * self.draw.randrange(MOST_PAGE + 1 - len(text)))
        self.book.append(page)
        return page

    def sends(self, to=None):
        page = self.begins_page(to)
        page.has_come(self.at.caller.enters(page.text, self.at.prompt))

    def takes(self):
        take = Take(self.at.node)
        self.book.append(take)
        take.has_come(self.at.takes())

    def rests(self):
        time.sleep(self.draw.random() / 100)

    def leaves(self):
        """Hangs up, or breaks off."""
        self.draw.choice((socket.socket.close, resets))(self.at.caller.line)

    def leaves_a_page(self):
        """Hangs up where a text is asked for."""
        self.begins_page().came = "none"
        self.leaves()

    def leaves_a_text(self):
        """Hangs up within a text, which is then no page."""
        page = self.begins_page()
        page.came = "none"
        self.at.caller.types(page.text[:self.draw.randrange(len(page.text) + 1)])
        self.leaves()

    def leaves_a_page_sent(self):
        """Hangs up with the end of a text."""
        page = self.begins_page()
        self.at.caller.types(page.text + self.at.caller.client.enter)
        self.leaves()

    def leaves_what_is_told(self):
        """Hangs up with a `G`, or behind a part of what it tells."""
        caller, take = self.at.caller, Take(self.at.node)
        self.book.append(take)
        caller.types(b"g" + caller.client.enter)
        if self.draw.random() < 0.7:
            seen = caller.line.recv(self.draw.randrange(1, 2000))
            is_cut = not seen.endswith(self.at.prompt)
            take.has_come(seen if is_cut else seen.removeprefix(b"g\r\n").removesuffix(self.at.prompt), is_cut)
        self.leaves()


def try_drawn(trial):
    """32 callers at once, each of whom calls some times."""
    calls = int(trial.option.split()[1]) if trial.option else CALLS
    trial.opens(nodes=NODES)
    book = []
    callers = [Drawn(trial, n, book) for n in range(NODES)]
    together(it.calls for it in callers)
    trial.is_so("each node has a caller", sorted(it.at.node for it in callers), list(range(1, NODES + 1)))
    trial.is_so("a node that is not there", [it.at.caller.enters(b"S 33", it.at.prompt) for it in callers], [NO_NODE] * NODES)
    together((lambda it=it: [it.sends(1) for _ in range(3)]) for it in callers)
    trial.is_so("of 96 pages at once 64 are sent", sorted(it.came for it in book), ["full"] * 32 + ["sent"] * 64)
    first = next(it for it in callers if it.at.node == 1)
    for wanted in (MOST_WAITING, 0):
        first.takes()
        trial.is_so("how many are told", len(book[-1].told), wanted)

    def goes_on(it):
        for n in range(calls):
            if n:
                it.calls()
            it.goes_on()

    together((lambda it=it: trial.tells_wrong(f"caller {it.n}", lambda: goes_on(it))) for it in callers)
    together(it.calls for it in callers)
    trial.is_so("each node has a caller in the end", sorted(it.at.node for it in callers), list(range(1, NODES + 1)))
    for it in callers:
        it.takes()
        while book[-1].told:
            it.takes()
        it.at.quits()
    compares(trial, book)
    trial.holds("the log tells nothing of pages", not any(b"page" in line or b"caller" in line for line in trial.told))
    trial.is_ended("drawn pages")


def compares(trial, book):
    """Looks, node by node, whether what was told is what was sent."""
    pages, takes = [it for it in book if isinstance(it, Page)], sorted((it for it in book if isinstance(it, Take)), key=lambda it: it.begun)
    known = {it.text: it for it in pages}
    found = [(take, page) for take in takes for page in take.told]
    trial.is_so("no page is told twice", sorted(text for _, (_, text) in found), sorted({text for _, (_, text) in found}))
    for take, (node, text) in found:
        page = known.get(text)
        trial.holds(f"{text} of node {node} was told on node {take.node}",
                    page and (page.sender, page.to) == (node, take.node) and page.came in ("sent", "open") and page.begun < take.ended)
    trial.holds("64 at most were told at once", all(len(it.told) <= MOST_WAITING for it in takes))
    lost = 0
    for node in range(1, NODES + 1):
        lost += Queue(node, [it for it in pages if it.to == node], [it for it in takes if it.node == node], known).compares(trial)
    kinds = {kind: sum(it.came == kind for it in pages) for kind in ("sent", "full", "open", "none")}
    trial.is_so("what is said of pages", sum(kinds.values()), len(pages))
    cut = sum(it.is_cut for it in takes)
    print(f"{len(pages)} pages typed: {kinds}; {len(found)} told by {len(takes)} of `G`, of which {cut} were cut, with which {lost} are lost")


class Queue:
    """All that was sent to a node, and all that was told there, one `G` after another."""

    def __init__(self, node, pages, takes, known):
        self.node, self.takes = node, takes
        self.sent, self.refused = [it for it in pages if it.came in ("sent", "open")], [it for it in pages if it.came == "full"]
        self.told = [(at, known[text]) for at, take in enumerate(takes) for _, text in take.told if text in known]

    def compares(self, trial):
        """Looks at all of it, and tells how many pages were lost."""
        what = f"node {self.node}"
        wrong = [(one.text, two.text) for n, (_, one) in enumerate(self.told) for _, two in self.told[n + 1:] if two.goes_before(one)]
        trial.is_so(f"{what}: what was told before what was sent before it", wrong, [])
        late = [(page.text, at) for at, page in self.told if any(take.begun > page.ended for take in self.emptied(at))]
        trial.is_so(f"{what}: what was told only behind a G that found no more", late, [])
        texts = {page.text for _, page in self.told}
        untold = [it for it in self.sent if it.came == "sent" and it.text not in texts]
        left = self.not_lost([(page, *self.places(page)) for page in untold])
        trial.is_so(f"{what}: what was neither told nor taken by one who hung up", [it.text for it in left], [])
        many = [it.text for it in self.sent if it.came == "sent" and self.least(it.ended) > MOST_WAITING]
        trial.is_so(f"{what}: what was sent where 64 waited", many, [])
        trial.is_so(f"{what}: what was refused where fewer waited", [it.text for it in self.refused if self.most(it) < MOST_WAITING], [])
        return len(untold) - len(left)

    def emptied(self, end):
        """The `G`s before this one that found no more pages."""
        return [it for it in self.takes[:end] if not it.is_cut and len(it.told) < MOST_WAITING]

    def places(self, page):
        """From which `G` on, and before which, a page may have been taken."""
        first = max((at for at, other in self.told if other.goes_before(page)), default=0)
        ends = [at for at, other in self.told if page.goes_before(other)]
        ends += [at for at, take in enumerate(self.takes) if take.begun > page.ended and not take.is_cut and len(take.told) < MOST_WAITING]
        first = max([first] + [at for at, take in enumerate(self.takes) if take.begun < page.begun])
        return first, min(ends, default=len(self.takes))

    def not_lost(self, places):
        """Those of these pages that no `G` of one who hung up may have taken: each takes those that have to go first."""
        for at, take in enumerate(self.takes):
            fits = sorted((it for it in places if it[1] <= at < it[2]), key=lambda it: it[2])[:take.room()]
            places = [it for it in places if it not in fits]
        return [page for page, _, _ in places]

    def least(self, moment):
        """How many pages wait at least."""
        taken = sum(len(it.told) + it.room() for it in self.takes if it.begun < moment)
        return sum(it.ended <= moment for it in self.sent) - taken

    def most(self, page):
        """How many wait at most at a moment at which this one is sent."""
        return sum(it.begun < page.ended for it in self.sent) - sum(len(it.told) for it in self.takes if it.ended < page.begun)


TRIES = (try_oneself, try_commands, try_area, try_texts, try_full, try_clients, try_waiting, try_meanwhile, try_rude, try_news, try_drawn)

if __name__ == "__main__":
    goes_through(Paged, "pages", [try_drawn] if sys.argv[2:] else TRIES, option=r"--calls \d+", in_memory=False)
