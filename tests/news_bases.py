"""The bases that news is read from where it is tried: what they hold is what a news reader might be shown wrongly."""
import jam
from news_plain import NODISP

LOCAL = 0x00800001
# what nobody may be shown by news stands in each text and each name of it
HIDDEN = b"hidden"
LONG = b"a line of many bytes that goes on " * 40
# bytes of IBM437 that are no UTF-8, and text that is
GERMAN, RUSSIAN = b"J\x81rgen M\x94ller", "Привет, мир: о чём здесь пишут".encode()
FIRST = 5


def message(number, sender, receiver, subject, text, attribute=0, parent=0, answers=None, written=None):
    """A message with its id, where it has these names, and the link and the id of what it answers."""
    fields = [(kind, data) for kind, data in ((2, sender), (3, receiver)) if data is not None] + [(4, msgid(number))]
    fields += [(5, msgid(answers))] if answers else []
    fields = jam.subfields(*fields, *([(6, subject)] if subject is not None else []))
    head = jam.head_of(fields, msgid_crc=jam.crc(msgid(number)), reply_crc=jam.crc(msgid(answers)) if answers else jam.EMPTY, number=number,
                       attribute=LOCAL | attribute, reply_to=parent, written=10**9 + 86_400 * number if written is None else written)
    return jam.Message(head, fields, text, jam.crc(receiver or b""))


def msgid(number):
    return b"2:5020/1042 01%06x" % number


def base_of(messages, first=1, more=0):
    """A base with these messages by their numbers, from the first on, and so many numbers without one behind."""
    slots = [messages.get(number) for number in range(first, max(messages, default=first - 1) + 1 + more)]
    return jam.Base(jam.fixed_header(first, live=sum(it is not None and it.is_live() for it in slots)), slots, b"")


def gaps():
    """Numbers without a message at the beginning, in the middle and at the end; messages that are killed, private or not to be shown, whoever's they are;
    names, subjects and texts of all kinds."""
    hidden = [(jam.DELETED, b"Ada", b"All"), (jam.PRIVATE, b"Ada", b"Grace"), (NODISP, b"Ada", b"All"), (jam.PRIVATE, b"News", b"Ada"),
              (jam.PRIVATE, b"Ada", b"News"), (jam.PRIVATE, b"", b""), (jam.PRIVATE, None, None), (jam.PRIVATE | NODISP, b"Ada", b"News"),
              (jam.DELETED | jam.PRIVATE, b"Ada", b"News")]
    seen = [
        (b"Test", b"Hello", b"abc", b"Good\r"),
        (b"Ada", b"All", b"An empty text", b""),
        (b"Grace", b"Ada", b"Re: An empty text", b"\r"),
        (b"Ada", b"All", b"Stops", b".\r..\r.line\r. \rno. stop.\r\r.\r"),
        (b"Ada", b"All", b"Line feeds", b"one\r\ntwo\n\r\nthree\n"),
        (b"Ada", b"All", b"Control\tbytes \x00\x1b[2J\x7f", b"\x00\t\x1b[2J\x7f\r"),
        (b'A "quoted" \\ name', b"All", b'A "quoted" \\ subject', b"No end"),
        (GERMAN, GERMAN, GERMAN, b"Gr\x81\xe1e\r"),
        ("Jürgen Möller".encode(), "Jürgen Möller".encode(), "Grüße".encode(), "Grüße\r".encode()),
        (RUSSIAN[:36], RUSSIAN[:36], RUSSIAN * 2, RUSSIAN * 9 + b"\r"),
        (RUSSIAN, b"All", b"x" + RUSSIAN, b"in letters of ASCII\r"),
        (b"Ada", GERMAN, RUSSIAN, GERMAN * 30 + b"\r"),
        (b"\x80" * 100, b"\xff" * 100, b"\xbf" * 100, b"\xc3\x28\r"),
        (b"\xc3\xa9\x00\"\\\x7f", b"\x00\xc3\xa9", b"\t\xc3\xa9\r\n", b"\xc0\x80\r"),
        (b"x" * 36, b"y" * 36, b"z" * 72, LONG + b"\r"),
        (b"x" * 300, b"y" * 300, b"z" * 300, (LONG + b"\r") * 3),
        (None, None, None, b"No names\r"),
        (b"", b"", b"", b"Empty names\r"),
        (b" ", b" ", b" <1.5@jam.invalid> ", b"Spaces\r  \r"),
        (b"Ada", b"All", b"=?UTF-8?B?R3LDvMOfZQ==?=", b"A word that is encoded already\r"),
        (b"Ada", b"All", b"\xe2\x82\xac" * 24, b"\xf0\x9f\x98\x80" * 40 + b"\r"),
    ]
    messages, number = {}, FIRST + 2
    for at, one in enumerate(seen):
        messages[number] = message(number, *one)
        number += 1
        if at % 2:
            attribute, *names = hidden[at // 2 % len(hidden)]
            messages[number] = message(number, *names, HIDDEN, HIDDEN + b"\r", attribute)
            number += 2
    visible = [number for number, one in messages.items() if one.first(6) != HIDDEN]
    secret = next(number for number, one in messages.items() if one.head["attribute"] & jam.PRIVATE)
    killed = next(number for number, one in messages.items() if not one.is_live())
    # by its id, by its link, by both, which differ, by a link to what is hidden, and with dates at the ends of time
    for answers, parent in ((visible[0], visible[0]), (visible[1], 0), (None, visible[2]), (visible[3], visible[4]), (visible[0], secret), (None, secret),
                            (None, killed), (killed, 0), (None, 4_000_000_000)):
        messages[number] = message(number, b"Edsger", b"All", b"Re: %d" % number, b"An answer\r", parent=parent, answers=answers)
        number += 1
    for written in (0, 1, 951_782_399, 951_782_400, 2**31, 2**32 - 1):
        messages[number] = message(number, b"Tony", b"All", b"At %d" % written, b"A date\r", written=written)
        number += 1
    return base_of(messages, FIRST, 3)


def cut():
    """Subjects and names of as many bytes as are kept, or one more or less, whose last character of UTF-8 is cut, or is none."""
    subjects = [("x" * n + sign * 40).encode()[:most] for sign in "é€😀" for n in range(4) for most in (71, 72, 73)]
    subjects += [b"x" * n + b"\xff" * (72 - n) for n in (68, 69, 70, 71)]
    subjects += [b"\xff" + "é".encode() * 35 + b"\xc3", b"x" * 71 + b"\xe9", b"x" * 72 + b"\xc3"]
    names = [("y" * n + sign * 20).encode()[:most] for sign in "é€😀" for n in range(4) for most in (35, 36, 37)]
    names += [b"y" * 33 + b"\xff" * 3, b"y" * 35 + b"\xe9"]
    return base_of({number: message(number, names[number % len(names)], names[-number % len(names)], subject, b"Text\r")
                    for number, subject in enumerate(subjects, 1)})


def long_list(count=250, is_mixed=True):
    """As many articles as are told at once, or more, with some killed or private among them, of which one in three answers another."""
    messages = {}
    for number in range(1, count + 1):
        attribute = is_mixed * (jam.DELETED if number % 7 == 0 else jam.PRIVATE if number % 11 == 0 else 0)
        texts = (HIDDEN, b"All", HIDDEN, HIDDEN) if attribute else (b"Ada", b"All", b"Article %d" % number, b"Text %d\r" % number)
        messages[number] = message(number, *texts, attribute, parent=0 if number % 3 else number // 3)
    return base_of(messages)


def at_number(first, count):
    numbers = range(first, first + count)
    return base_of({number: message(number, b"Ada", b"All", b"Of a great number", b"Text\r", written=10**9) for number in numbers}, first)


def all_hidden():
    return base_of({number: message(number, b"Ada", b"Grace", HIDDEN, HIDDEN, jam.PRIVATE) for number in (3, 4)}, 3)


# the areas of the board that is tried: name, base, and the levels of who reads and of the sysop
AREAS = [(b"with gaps", "gaps", 10, 200), (b"Nothing here", "empty", 0, 255), (b"above", "above", 11, 200), (b"long", "long", 10, 11),
         (b"its own sysop", "tended", 0, 10), (b"late", "late", 0, 255), (b"too late", "last", 0, 255), (b"private", "private", 0, 255),
         (b"a piece", "piece", 10, 200), (b"two pieces", "pieces", 10, 200), (b"cut", "cut", 10, 200)]


def bases():
    """The bases of these areas, by their names."""
    return {"gaps": gaps(), "empty": base_of({}), "above": jam.one_message(), "long": long_list(), "tended": jam.one_message(),
            "late": at_number(2_147_483_645, 2), "last": at_number(2_147_483_645, 3), "private": all_hidden(), "piece": long_list(100, False),
            "pieces": long_list(200, False), "cut": cut()}


def examples():
    """A base for the examples of RFC 3977, with the numbers, the dates and the first article of its section 6."""
    first, later = 907_648_720, 907_648_725
    found = [(0, b"Demo User", b"All", b"I am just a test article", b"This is just a test article.\r", 0, None, first),
             (1, b"Demo User", b"Demo User", b"Another test article", b"This line begins with no stop.\r.This one does.\r.\r..\r\r", 0, 0, later),
             (2, b"Ada", b"Demo User", HIDDEN, HIDDEN, jam.PRIVATE, None, later),
             (3, "Jürgen".encode(), b"All", "Grüße".encode(), "Schöne Grüße\r".encode(), 0, None, later),
             (4, b"J\x81rgen", b"Demo User", b"Re: Another test article", b"Gr\x81\xe1e\r", 0, 1, later),
             (5, b"Demo User", b"All", b"An empty text", b"", 0, None, later),
             (6, b"Demo User", b"All", HIDDEN, HIDDEN, jam.DELETED, None, later),
             (2088, b"Demo User", b"All", b"The last", b"The last one\r", 0, None, later)]
    number = 3_000_234
    return base_of({number + at: message(number + at, *names, attribute, 0 if parent is None else number + parent, written=written)
                    for at, *names, attribute, parent, written in found}, number)


# the areas of the board of the examples
EXAMPLES = [(b"Testing things", "examples", 10, 200), (b"Nothing here", "empty", 10, 200), (b"above", "above", 11, 200)]


def example_bases():
    return {"examples": examples(), "empty": base_of({}), "above": jam.one_message()}
