#!/usr/bin/env python3
"""Tries the news of `board serve CONF` of the built program with the readers slrn, tin, neomutt and fetchnews, of leafnode.

usage: readers.py PROGRAM

What each of them sends was taken down from it (slrn 1.0.3, tin 2.6.2, neomutt 20220429, leafnode 1.12.0), and is sent here from a socket; Python's nntplib
asks too, where it is there. Then each reader itself runs, on a terminal of tmux, where it is installed; where it is not, a line says so. Each has to list
the groups, to put an answer behind what it answers, to open each article of a base with gaps, to find nothing that is private, and to find what was posted
when it comes back.
"""
import email
import email.header
import os
import shutil
import subprocess
import time
import warnings

import jam
import news_bases
from caller import GUARD
from harness import goes_through
from news_bases import HIDDEN
from newsreader import News

AREAS = [(b"with gaps", "gaps", 10, 200), *news_bases.EXAMPLES]
# the group whose first article is answered, its place, and the prompt and the lines by which a caller writes there
GROUP, PLACE, PROMPT = b"jam.2", 2, b"[Testing things] "
FIRST, ANSWER, TEXT, NEW = "I am just a test article", "Another test article", "This is just a test article.", "What is new"
# what each reader sends as it starts, as it enters a group, and for the overviews there; all ask each article by its number
SENT = {
    "slrn": (["MODE READER", "XOVER", "XHDR Path", "LIST OVERVIEW.FMT", "LIST"], ["GROUP {group}"], "XOVER {low}-{high}"),
    "tin": (["CAPABILITIES", "XHDR", "LIST OVERVIEW.FMT", "LIST", "LIST NEWSGROUPS"], ["GROUP {group}", "LISTGROUP {group}"], "OVER {low}-{high}"),
    "neomutt": (["CAPABILITIES", "STARTTLS", "STAT", "LIST OVERVIEW.FMT", "DATE", "NEWGROUPS 20010909 014640 GMT", "LIST", "LIST NEWSGROUPS *"],
                ["GROUP {group}", "LISTGROUP {group} {low}-{high}"], "OVER {low}-{high}"),
    "fetchnews": (["MODE READER", "DATE", "NEWGROUPS 20010909 014640", "LIST", "LIST NEWSGROUPS"], ["GROUP {group}"], "XOVER {low}-{high}")}
# the answers with which a reader goes on
TAKEN = (b"100", b"101", b"111", b"201", b"211", b"215", b"220", b"224", b"231", b"412", b"500")
SLRN = """set hostname "board-at-home.org"
set username "tester"
set query_read_group_cutoff 0
set confirm_actions 0
set sorting_method 1
"""
NEOMUTT = """set news_server="news://127.0.0.1:{port}"
set newsrc="{home}/.newsrc"
set news_cache_dir="{home}/cache"
set folder="{home}/mail"
set spoolfile="{home}/inbox"
set sort=threads
set nntp_context=0
"""
LEAFNODE = """server = 127.0.0.1
port = {port}
expire = 30000
maxage = 30000
maxfetch = 10000
hostname = board-at-home.org
"""
SPOOL = ("leaf.node", "interesting.groups", "failed.postings", "out.going", "temp.files", "dormant.groups", *(f"message.id/{n:03}" for n in range(1000)))
# runs fetchnews with these folders in place of those of the machine
FETCHES = """mount --bind "$1" /etc/news/leafnode && mount --bind "$2" /var/spool/news &&
exec setpriv --reuid=news --regid=news --clear-groups fetchnews -vvv -f -n -w"""


def begins(trial):
    trial.has_board(AREAS, {**news_bases.example_bases(), "gaps": news_bases.gaps()})
    trial.begins()
    # once one was served, the port is open to all
    trial.greeted().quits()


def posts(trial):
    """A caller writes something new into the group."""
    caller = trial.guest(0, "Testing things", place=PLACE)
    number = caller.posts(b"All", NEW.encode(), [b"A line"], False, PROMPT)
    caller.quits()
    return number


def try_what_they_send(trial):
    """The lines of each reader, from a socket."""
    for name, (start, entering, overviews) in SENT.items():
        begins(trial)
        for turn in (1, 2):
            reader, groups = trial.greeted(name), {}
            for line in start:
                answer, lines = reader.asks(line.encode())
                trial.holds(f"{name}: {line} is answered {answer}", answer[:3] in TAKEN)
                if line == "LIST":
                    groups = {it.split()[0]: it.split()[1:] for it in lines}
            plain = {it.name: it for it in trial.plain().groups.values()}
            trial.is_so(f"{name}: the groups", groups, {key: [b"%d" % it.high, b"%d" % it.low, b"n"] for key, it in plain.items()})
            for group in plain.values():
                lines = [line.format(group=group.name.decode(), low=group.low, high=group.high) for line in (*entering, overviews)]
                reads_group(trial, name, reader, group, lines)
            reader.quits()
            number = posts(trial) if turn == 1 else 0
            trial.holds(f"{name}: what was posted has a number above the others", turn == 2 or number == plain[GROUP].next)
        trial.is_ended(name)


def reads_group(trial, name, reader, group, lines):
    """Enters a group, and opens all articles there."""
    what, numbers = f"{name}, {group.name.decode()}", list(group.visible)
    for line in lines[:-1]:
        answer, listed = reader.asks(line.encode())
        trial.is_so(f"{what}: {line}", answer, b"211 %d %d %d %s" % (len(numbers), group.low, group.high, group.name))
        trial.holds(f"{what}: the numbers", not line.startswith("LISTGROUP") or listed == [b"%d" % number for number in numbers])
    if not numbers:
        trial.is_so(f"{what}: overviews of nothing", reader.asks(lines[-1].encode())[0], b"423 No such number")
        return
    found = [line.split(b"\t") for line in reader.asks(lines[-1].encode())[1]]
    trial.is_so(f"{what}: the overviews", [(int(it[0]), it[4], it[5]) for it in found],
                [(number, group.id(number), group.answered(group.parents[number])) for number in numbers])
    # all are asked before the first is read
    reader.line.sendall(b"".join(b"ARTICLE %d\r\n" % number for number in numbers))
    for overview in found:
        answer, article = reader.reads_line(), []
        while (line := reader.reads_line()) != b".":
            article.append(line.removeprefix(b"."))
        trial.is_so(f"{what}: the answer", answer, b"220 %s %s" % (overview[0], overview[4]))
        compares(trial, what, group, int(overview[0]), article)


def compares(trial, what, group, number, lines):
    """Looks whether an article is read as what the base has."""
    article = email.message_from_bytes(b"\r\n".join(lines))
    trial.holds(f"{what}: article {number} tells nothing that is not to be shown", HIDDEN not in b"".join(lines))
    trial.is_so(f"{what}: the id of article {number}", article["Message-ID"], group.id(number).decode())
    subject = jam.shown(group.field(number, 6))
    if max(subject, default=0) > 127:
        trial.is_so(f"{what}: the subject of article {number}", b"".join(text for text, _ in email.header.decode_header(article["Subject"])), subject)
    body = [line.removeprefix(b".") for line in group.body(number).split(b"\r\n")[:-1]]
    trial.is_so(f"{what}: the text of article {number}", article.get_payload(decode=True), b"\r\n".join(body))


def try_nntplib(trial):
    """The module of Python that there was up to 3.12."""
    try:
        with warnings.catch_warnings():
            warnings.simplefilter("ignore")
            import nntplib
    except ImportError:
        print("nntplib was not tried: this Python has none")
        return
    begins(trial)
    posts(trial)
    group = trial.plain().groups[PLACE]
    with nntplib.NNTP("127.0.0.1", trial.news_port, readermode=True, timeout=GUARD) as server:
        trial.is_so("nntplib: the greeting", server.getwelcome(), "201 Test Board")
        trial.holds("nntplib: a reader", {"READER", "OVER"} <= server.getcapabilities().keys())
        trial.is_so("nntplib: the groups", [(it.group, int(it.last), int(it.first), it.flag) for it in server.list()[1]],
                    [(it.name.decode(), it.high, it.low, "n") for it in trial.plain().groups.values()])
        trial.is_so("nntplib: the names", server.descriptions("*")[1], {it.name.decode(): it.area.decode() for it in trial.plain().groups.values()})
        trial.is_so("nntplib: the group", server.group(GROUP.decode())[1:], (len(group.visible), group.low, group.high, GROUP.decode()))
        found = server.over((group.low, group.high))[1]
        trial.is_so("nntplib: the overviews", [(number, it["message-id"], it["references"]) for number, it in found],
                    [(number, group.id(number).decode(), group.answered(group.parents[number]).decode()) for number in group.visible])
        for number, _ in found:
            compares(trial, "nntplib", group, number, server.article(number)[1].lines)
        trial.is_so("nntplib: what was posted", nntplib.decode_header(found[-1][1]["subject"]), NEW)
        trial.holds("nntplib: the clock", abs(server.date()[1].timestamp() - time.mktime(time.gmtime())) < 86_400)
    trial.is_ended("nntplib")


class Screen:
    """A terminal of tmux in which a reader runs with a home of its own."""

    def __init__(self, trial, name, words):
        self.trial, self.name, self.tmux = trial, name, ["tmux", "-S", f"{trial.folder}/tmux", "-f", os.devnull]
        environment = {**os.environ, "HOME": f"{trial.folder}/{name}", "LC_ALL": "C.UTF-8", "TERM": "screen"}
        subprocess.run([*self.tmux, "new-session", "-d", "-x", "120", "-y", "40", *words], env=environment, cwd=environment["HOME"], check=True)

    def text(self):
        return subprocess.run([*self.tmux, "capture-pane", "-p"], capture_output=True, text=True, check=False).stdout

    def shows(self, *wanted):
        """Looks whether all of this is shown in time, and nothing that is not to be shown."""
        end = time.monotonic() + GUARD
        while not all(it in (text := self.text()) for it in wanted) and time.monotonic() < end:
            time.sleep(0.1)
        is_so = self.trial.holds(f"{self.name}: {wanted} is shown: {text}", all(it in text for it in wanted))
        return self.trial.holds(f"{self.name}: {text}: nothing that is not to be shown", HIDDEN.decode() not in text) and is_so

    def types(self, *keys):
        subprocess.run([*self.tmux, "send-keys", *keys], check=False)

    def ends(self):
        subprocess.run([*self.tmux, "kill-server"], check=False, stderr=subprocess.DEVNULL)


def is_installed(name, *others):
    missing = [it for it in (name, *others) if shutil.which(it) is None]
    if missing:
        print(f"{name} was not tried: {' and '.join(missing)} is not installed")
    return not missing


def has_home(trial, name, **files):
    """A home with these files and the two groups."""
    home = f"{trial.folder}/{name}"
    shutil.rmtree(home, ignore_errors=True)
    os.makedirs(f"{home}/mail")
    for path, text in {".newsrc": f"{GROUP.decode()}:\njam.3:\n", **files}.items():
        with open(f"{home}/{path}", "w", encoding="ascii") as file:
            file.write(text)
    return home


def reads_twice(trial, name, words, keys, opening=(), thread=FIRST):
    """A reader starts, shows the group, where it is opened from there, its articles, and the first of them; then, when something was posted, starts again
    and shows that."""
    for turn in (1, 2):
        screen = Screen(trial, name, words)
        for wanted in opening:
            if screen.shows(wanted):
                screen.types("Enter")
        if turn == 1 and screen.shows(FIRST, thread):
            screen.types("Enter")
            screen.shows(TEXT)
            screen.types(*keys)
        elif turn == 2:
            screen.shows(NEW)
        screen.ends()
        if turn == 1:
            posts(trial)


def try_slrn(trial):
    if is_installed("slrn", "tmux"):
        begins(trial)
        home = has_home(trial, "slrn", slrnrc=SLRN)
        words = ["slrn", "-h", "127.0.0.1", "-p", str(trial.news_port), "-f", f"{home}/.newsrc", "-i", f"{home}/slrnrc"]
        reads_twice(trial, "slrn", words, "qqq", [GROUP.decode()])
        trial.is_ended("slrn")


def try_tin(trial):
    if is_installed("tin", "tmux"):
        begins(trial)
        home = has_home(trial, "tin")
        words = ["tin", "-r", "-g", "127.0.0.1", "-p", str(trial.news_port), "-f", f"{home}/.newsrc"]
        # so it does not tell first what it is
        os.makedirs(f"{home}/.tin")
        reads_twice(trial, "tin", words, "Q", [GROUP.decode()])
        trial.is_ended("tin")


def try_neomutt(trial):
    if is_installed("neomutt", "tmux"):
        begins(trial)
        home = has_home(trial, "neomutt")
        with open(f"{home}/rc", "w", encoding="ascii") as file:
            file.write(NEOMUTT.format(port=trial.news_port, home=home))
        # started with its list of groups it opens a second connection, and waits for the first
        words = ["neomutt", "-n", "-F", f"{home}/rc", "-f", f"news://127.0.0.1:{trial.news_port}/{GROUP.decode()}"]
        reads_twice(trial, "neomutt", words, "qq", thread="└─>" + ANSWER)
        trial.is_ended("neomutt")


def try_fetchnews(trial):
    """All articles of both groups are fetched, and those that were posted when it comes back."""
    if not is_installed("fetchnews", "unshare"):
        return
    begins(trial)
    spool, conf = f"{trial.folder}/spool", f"{trial.folder}/leafnode"
    for path in (conf, *(f"{spool}/{name}" for name in SPOOL)):
        os.makedirs(path)
    with open(f"{conf}/config", "w", encoding="ascii") as file:
        file.write(LEAFNODE.format(port=trial.news_port))
    for group in trial.plain().groups.values():
        open(f"{spool}/interesting.groups/{group.name.decode()}", "w", encoding="ascii").close()
    subprocess.run(["chown", "-R", "news:news", spool], check=True)
    os.chmod(trial.folder, 0o755)
    for _ in range(2):
        done = subprocess.run(["unshare", "-m", "sh", "-c", FETCHES, "sh", conf, spool], capture_output=True, text=True, check=False, timeout=10 * GUARD)
        found = {name for folder in os.listdir(f"{spool}/message.id") for name in os.listdir(f"{spool}/message.id/{folder}")}
        wanted = {group.id(number).decode() for group in trial.plain().groups.values() for number in group.visible}
        trial.is_so(f"fetchnews: {done.stdout[-600:]}: what was fetched", sorted(found), sorted(wanted))
        posts(trial)
    trial.is_ended("fetchnews")


if __name__ == "__main__":
    goes_through(News, "news readers", (try_what_they_send, try_nntplib, try_slrn, try_tin, try_neomutt, try_fetchnews), in_memory=False)
