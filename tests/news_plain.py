"""What a news reader is answered, byte for byte, as docs/FORMATS.md, "News", has it: plain and slow, over bases as jam.py reads them, and with nothing of
the program.
"""
import base64
import re
from datetime import datetime, timezone
from email.utils import format_datetime

import jam

# the greatest number of an article, the bytes of the longest line, and those of a text in one encoded word
GREATEST, MOST_LINE, WORD_BYTES = 2_147_483_647, 510, 39
NODISP = 0x20000000
# how many bytes of a sender, a receiver and a subject an overview has, by the kinds of their subfields; callers write no more
MOST_BYTES = {2: 36, 3: 36, 6: 72}
# stands for what the clock shows
CLOCK = b"111 YYYYMMDDhhmmss"
SYNTAX, UNKNOWN, NOT_KEPT = b"501 Syntax", b"500 Unknown", b"503 Not kept"
NO_SUCH_GROUP, NO_GROUP, NO_CURRENT, NO_NUMBER, NO_ARTICLE = (
    b"411 No such group", b"412 No group", b"420 No current article", b"423 No such number", b"430 No such article")
CAPABILITIES = (b"101 Capabilities", b"VERSION 2", b"READER", b"OVER", b"LIST ACTIVE NEWSGROUPS OVERVIEW.FMT")
HELP = (b"100 Help", b"CAPABILITIES MODE HELP QUIT LIST GROUP ARTICLE HEAD BODY STAT", b"LISTGROUP NEXT LAST OVER DATE NEWGROUPS POST")
FIELDS = (b"215 Fields", b"Subject:", b"From:", b"Date:", b"Message-ID:", b"References:", b"Bytes:", b"Lines:")
PARTS = {b"ARTICLE": 220, b"HEAD": 221, b"BODY": 222, b"STAT": 223}
OTHER_LISTS = (b"HEADERS", b"ACTIVE.TIMES", b"DISTRIB.PATS", b"SUBSCRIPTIONS")


def lined(lines):
    return b"".join(line + b"\r\n" for line in lines)


def block(lines):
    """Lines, of which none begins with a stop, and the end behind them."""
    return lined([*lines, b"."])


def charset_of(data):
    try:
        data.decode()
        return b"UTF-8"
    except UnicodeDecodeError:
        return b"IBM437"


def cut(charset, data):
    """The first bytes for an encoded word: in UTF-8 no character is cut, if there is one to be seen."""
    ends = [at for at in range(WORD_BYTES, WORD_BYTES - 4, -1) if at >= len(data) or not 128 <= data[at] < 192]
    return data[:ends[0] if charset == b"UTF-8" and ends else WORD_BYTES]


def encoded(charset, data, between):
    """Encoded words of base64 (RFC 2047)."""
    words = []
    while data:
        words.append(b"=?%s?B?%s?=" % (charset, base64.b64encode(cut(charset, data))))
        data = data[len(cut(charset, data)):]
    return between.join(words)


def whole(most, data):
    """The same without the last bytes, where these begin a character of UTF-8 that may have been cut off."""
    try:
        data.decode()
        return data
    except UnicodeDecodeError as fault:
        return data[:fault.start] if len(data) == most and most <= fault.start + 3 else data


def field(data, between=b"\r\n "):
    return encoded(charset_of(data), jam.shown(data), between) if max(data, default=0) > 127 else jam.shown(data)


def sender(name, between=b"\r\n "):
    quoted = jam.shown(name).translate(bytes.maketrans(b'"\\', b"??"))
    if max(name, default=0) > 127:
        return encoded(charset_of(name), quoted, between) + between + b"<board@jam.invalid>"
    return b'"%s" <board@jam.invalid>' % quoted


def date(moment):
    return format_datetime(datetime.fromtimestamp(moment, timezone.utc)).encode()


def matches(pattern, name):
    """Whether a pattern of a wildmat fits the whole name (RFC 3977 section 4)."""
    places = {0}
    for sign in pattern:
        if sign == ord("*"):
            places = set(range(min(places, default=len(name) + 1), len(name) + 1))
        else:
            places = {at + 1 for at in places if at < len(name) and sign in (ord("?"), name[at])}
    return len(name) in places


def takes(wildmat, name):
    """Whether the last pattern that fits is one without an exclamation mark."""
    for pattern in reversed(wildmat.split(b",")):
        if matches(pattern.removeprefix(b"!"), name):
            return not pattern.startswith(b"!")
    return False


def range_of(word):
    """The first and the last number of a range, or None."""
    found = re.fullmatch(rb"(\d+)(-(\d*))?", word)
    if not found:
        return None
    first = int(found[1])
    last = first if not found[2] else int(found[3] or GREATEST)
    return (first, last) if max(first, last) <= GREATEST else (1, 0)


class Group:
    """An area that news readers see, by its place on the board and its name."""

    def __init__(self, place, area, base):
        self.place, self.area, self.base, self.name = place, area, base, b"jam.%d" % place
        self.visible = {number: message for number, message in sorted(base.live().items()) if not message.head["attribute"] & (jam.PRIVATE | NODISP)}
        self.parents = {number: parent for number, (parent, _, _) in jam.links_of(base).items()}
        self.next = base.number + len(base.slots)
        self.low, self.high = base.number if self.visible else self.next, self.next - 1

    def between(self, span):
        return [number for number in self.visible if span[0] <= number <= span[1]]

    def id(self, number):
        return b"<%d.%d@jam.invalid>" % (self.place, number)

    def answered(self, number):
        """The id of the article that is answered, where there is one."""
        return self.id(number) if number else b""

    def field(self, number, kind):
        """A name or a subject of a message."""
        return whole(MOST_BYTES[kind], self.visible[number].first(kind) or b"")

    def headers(self, number):
        message = self.visible[number]
        answered = message.head["reply_to"]
        return lined([b"Path: jam.invalid!not-for-mail", b"From: " + sender(self.field(number, 2)), b"Subject: " + field(self.field(number, 6)),
                      b"Date: " + date(message.head["written"]), b"Newsgroups: " + self.name, b"Message-ID: " + self.id(number),
                      *([b"References: " + self.id(answered)] if answered else []), b"X-JAM-To: " + field(self.field(number, 3)), b"MIME-Version: 1.0",
                      b"Content-Type: text/plain; charset=" + charset_of(message.text), b"Content-Transfer-Encoding: 8bit"])

    def body(self, number):
        pieces = self.visible[number].text.split(b"\r")
        shown = [jam.shown(piece.replace(b"\n", b"")) for piece in (pieces if pieces[-1] else pieces[:-1])]
        return lined(b"." + line if line.startswith(b".") else line for line in shown)

    def overview(self, number):
        subject, name = (whole(MOST_BYTES[kind], (self.visible[number].first(kind) or b"")[:MOST_BYTES[kind]]) for kind in (6, 2))
        return b"\t".join((b"%d" % number, field(subject, b" "), sender(name, b" "), date(self.visible[number].head["written"]), self.id(number),
                           self.answered(self.parents[number]), b"", b""))

    def shows(self, part, number, asked):
        """The answer with this part of an article."""
        text = {220: lambda: self.headers(number) + b"\r\n" + self.body(number), 221: lambda: self.headers(number), 222: lambda: self.body(number)}
        return b"%d %d %s\r\n" % (part, asked, self.id(number)) + (text[part]() + b".\r\n" if part in text else b"")


class Reader:
    """One news reader: what is answered to the bytes that come, as long as these areas stay as they are. An area is a name, a base, and the levels of who
    reads and of the sysop."""

    def __init__(self, board, areas, level):
        self.greeting, self.rest, self.group, self.current, self.is_over = lined([b"201 " + jam.shown(board)]), b"", None, None, False
        self.groups = {place: Group(place, name, base) for place, (name, base, read, sysop) in enumerate(areas, 1) if read <= level < sysop}

    def hears(self, data):
        """What is answered to these bytes."""
        *ended, self.rest = (self.rest + data).split(b"\n")
        answers = []
        for line in ended:
            if not self.is_over:
                answers.append(self.answer(line.removesuffix(b"\r")))
        return b"".join(answers)

    def answer(self, line):
        words = [word for word in re.split(b"[ \t]", line) if word]
        if len(line) > MOST_LINE:
            return lined([SYNTAX])
        found = self.does(words[0].upper(), words[1:]) if words else UNKNOWN
        # one line is told without its end
        return found if found.endswith(b"\r\n") else lined([found])

    def does(self, verb, words):
        if verb in PARTS:
            return SYNTAX if len(words) > 1 else self.shows(PARTS[verb], *words)
        does = {b"CAPABILITIES": self.capabilities, b"MODE": self.mode, b"HELP": lambda: block(HELP), b"QUIT": self.quit, b"LIST": self.list,
                b"GROUP": self.choose, b"LISTGROUP": self.listgroup, b"NEXT": lambda: self.step(1), b"LAST": lambda: self.step(-1), b"OVER": self.over,
                b"XOVER": self.over, b"DATE": lambda: CLOCK, b"NEWGROUPS": self.newgroups, b"POST": lambda: b"440 No posting"}
        most = {b"CAPABILITIES": (0, 1), b"MODE": (1, 1), b"LIST": (0, 2), b"GROUP": (1, 1), b"LISTGROUP": (0, 2), b"OVER": (0, 1), b"XOVER": (0, 1),
                b"NEWGROUPS": (2, 3)}.get(verb, (0, 0))
        if verb not in does:
            return UNKNOWN
        return does[verb](*words) if most[0] <= len(words) <= most[1] else SYNTAX

    def capabilities(self, keyword=b""):
        del keyword
        return block(CAPABILITIES)

    def mode(self, word):
        return b"201 No posting" if word.upper() == b"READER" else SYNTAX

    def quit(self):
        self.is_over = True
        return b"205 Bye"

    def list(self, kind=b"ACTIVE", wildmat=None):
        kind, groups = kind.upper(), [group for group in self.groups.values() if wildmat is None or takes(wildmat, group.name)]
        if kind == b"ACTIVE":
            return block([b"215 Groups", *(b"%s %d %d n" % (it.name, it.high, it.low) for it in groups if it.next <= GREATEST)])
        if kind == b"NEWSGROUPS":
            return block([b"215 Groups", *(it.name + b"\t" + jam.shown(it.area) for it in groups)])
        if kind == b"OVERVIEW.FMT" and wildmat is None:
            return block(FIELDS)
        return NOT_KEPT if kind in OTHER_LISTS else SYNTAX

    def named(self, name):
        """The group of this name, where there is one that can be chosen."""
        return next((it for it in self.groups.values() if it.name == name and it.next <= GREATEST), None)

    def chosen(self, group):
        """Chooses a group."""
        self.group, self.current = group, min(group.visible, default=None)
        return b"211 %d %d %d %s" % (len(group.visible), group.low, group.high, group.name)

    def choose(self, name):
        group = self.named(name)
        return self.chosen(group) if group else NO_SUCH_GROUP

    def listgroup(self, name=None, span=b"1-"):
        numbers, group = range_of(span), self.group if name is None else self.named(name)
        if numbers is None:
            return SYNTAX
        if group is None:
            return NO_GROUP if name is None else NO_SUCH_GROUP
        return block([self.chosen(group), *(b"%d" % number for number in group.between(numbers))])

    def shows(self, part, word=None):
        if word is None:
            if self.group is None:
                return NO_GROUP
            return NO_CURRENT if self.current not in self.group.visible else self.group.shows(part, self.current, self.current)
        if word.startswith(b"<"):
            return self.shows_named(part, word) if len(word) > 1 and word.endswith(b">") else SYNTAX
        if not word.isdigit():
            return SYNTAX
        if self.group is None:
            return NO_GROUP
        if int(word) not in self.group.visible or int(word) > GREATEST:
            return NO_NUMBER
        self.current = int(word)
        return self.group.shows(part, self.current, self.current)

    def shows_named(self, part, word):
        found = re.fullmatch(rb"<(0|[1-9]\d*)\.(0|[1-9]\d*)@jam\.invalid>", word)
        group = self.groups.get(int(found[1])) if found else None
        return group.shows(part, int(found[2]), 0) if group and int(found[2]) in group.visible else NO_ARTICLE

    def step(self, way):
        """The next article, or the one before."""
        if self.group is None:
            return NO_GROUP
        if self.current is None:
            return NO_CURRENT
        further = [number for number in self.group.visible if (number - self.current) * way > 0]
        if not further:
            return b"421 No next article" if way > 0 else b"422 No previous article"
        self.current = min(further, key=lambda number: number * way)
        return self.group.shows(PARTS[b"STAT"], self.current, self.current)

    def over(self, word=None):
        if word is not None and len(word) > 1 and word.startswith(b"<") and word.endswith(b">"):
            return NOT_KEPT
        span = None if word is None else range_of(word)
        if word is not None and span is None:
            return SYNTAX
        if self.group is None:
            return NO_GROUP
        if word is None and self.current not in self.group.visible:
            return NO_CURRENT
        numbers = [self.current] if word is None else self.group.between(span)
        return block([b"224 Overview", *map(self.group.overview, numbers)]) if numbers else NO_NUMBER

    def newgroups(self, day, moment, zone=b"GMT"):
        is_so = re.fullmatch(rb"\d{6}(\d\d)?", day) and re.fullmatch(rb"\d{6}", moment) and zone.upper() == b"GMT"
        return block([b"231 New groups"]) if is_so else SYNTAX
