"""Reads and writes the files of a base by the tables of the JAM proposal ("Header file", "Message header", "Index file", "Lastread file"), tests them as
docs/FORMATS.md says, each test in its order, and does what waits in the journal. Plain and slow, and with nothing of the program: what the scripts here
compare it with.
"""
import os
import re
import shutil
import struct
import zlib

DELETED = 0x80000000
PRIVATE = 4
EMPTY = 0xFFFFFFFF
# the files of a base, and with them those that the board has beside: the journal numbers them so
FILES = ("jhr", "jdt", "jdx", "jlr")
ALL_FILES = FILES + ("jnl", "ndt")
JHR, JDT, JDX, JLR = range(4)
FIELDS = ("reserved subfields read msgid_crc reply_crc reply_to reply_first reply_next written received processed number "
          "attribute attribute2 offset length password cost").split()
LINKS = ("reply_to", "reply_first", "reply_next")
CEILINGS = (536_870_912, 1_073_741_824, 8_000_000, 1_040_000)
MOST_SLOTS, MOST_SUBFIELD_BYTES, MOST_TEXT_BYTES = 1_000_000, 262_144, 1_048_576
# how a check ends where nothing waits in the journal
CLOSED = b"recovered closed\n"
# the first and the last bytes of a record in each version of the journal, how many bytes a place or a length has, and how much a file may hold by it
HEADS, ENDS, WIDTHS = {1: b"JBJ1", 2: b"JBJ2"}, {1: b"JBJE", 2: b"JBJF"}, {1: 4, 2: 8}
RECORD_CEILINGS = {1: (134_217_728, 67_108_864, 520_000, 1_040_000), 2: CEILINGS}


def crc(name):
    """The CRC of a name by the JAM proposal: that of zlib without its last complement, over lower-case letters."""
    return zlib.crc32(name.lower()) ^ 0xFFFFFFFF


def ulong(data, at):
    return struct.unpack_from("<I", data, at)[0]


def fixed_header(number=1, counter=0, live=0, created=10**9):
    """The fixed header of a base from this number on."""
    return b"JAM\0" + struct.pack("<5I", created, counter, live, EMPTY, number) + bytes(1000)


def subfields(*fields):
    """Subfields of a kind, an upper half and data each; a pair has the upper half 0."""
    return b"".join(struct.pack("<HHI", field[0], field[1] if len(field) > 2 else 0, len(field[-1])) + field[-1] for field in fields)


def named(sender, receiver, subject, *more):
    return subfields((2, sender), (3, receiver), (6, subject), *more)


def head_of(fields, **values):
    """The fields of a header with these subfields behind it."""
    return dict.fromkeys(FIELDS, 0) | {"subfields": len(fields), "reply_crc": EMPTY, "password": EMPTY} | values


def header_bytes(head, fields):
    return b"JAM\0\1\0" + struct.pack("<H17I", *(head[field] for field in FIELDS)) + fields


def header(fields, **values):
    """A header with these subfields behind it, as bytes."""
    return header_bytes(head_of(fields, **values), fields)


def head_at(headers, at):
    """The fields of the header at this place."""
    return dict(zip(FIELDS, struct.unpack_from("<H17I", headers, at + 6)))


def mark(name, user, last, high):
    """What is read by the user of this name and number, as .JLR has it."""
    return struct.pack("<4I", crc(name), user, last, high)


class Message:
    """A header with its subfields and its text, and the UserCRC of its index record."""

    def __init__(self, head, fields, text, owner):
        self.head, self.fields, self.text, self.owner = head, fields, text, owner

    def first(self, kind):
        """The data of the first subfield of this kind, or None."""
        at = 0
        while at < len(self.fields):
            found, _, size = struct.unpack_from("<HHI", self.fields, at)
            if found == kind:
                return self.fields[at + 8:at + 8 + size]
            at += 8 + size
        return None

    def is_live(self):
        return not self.head["attribute"] & DELETED


class Base:
    """What the four files of a base hold: a message or None for each number from the base number on."""

    def __init__(self, fixed, slots, marks):
        self.fixed, self.slots, self.marks = fixed, slots, marks

    @property
    def number(self):
        return ulong(self.fixed, 20)

    def live(self):
        return {self.number + n: m for n, m in enumerate(self.slots) if m is not None and m.is_live()}


def one_message(**values):
    """A base with one message, from Test to Hello, whose header has these values."""
    fields = subfields((2, b"Test"), (3, b"Hello"), (4, b"2:5020/1042 01000001"), (6, b"abc"))
    head = head_of(fields, **{"msgid_crc": crc(b"2:5020/1042 01000001"), "written": 10**9, "number": 1, "attribute": 0x00800001, **values})
    return Base(fixed_header(counter=1, live=1), [Message(head, fields, b"Good\r", crc(b"Hello"))], b"")


def path_of(folder, name, extension):
    """The path of a file of the base, whose extensions are in upper case where its header file's is, else in lower case."""
    is_upper = os.path.exists(f"{folder}/{name}.JHR")
    return f"{folder}/{name}.{extension.upper() if is_upper else extension}"


def read_files(folder, name):
    """The bytes of each file of the base, by its extension in lower case; none where it is not there."""
    found = {}
    for extension in FILES + ("jnl",):
        path = path_of(folder, name, extension)
        found[extension] = open(path, "rb").read() if os.path.exists(path) else b""
    return found


def read(folder, name):
    """The base in these files, and how many bytes of .JHR and .JDT no message has."""
    return base_in(read_files(folder, name))


def base_in(files):
    """The same of files that hold together, by their bytes."""
    headers, texts = files["jhr"], files["jdt"]
    slots, used, text_bytes = [], 1024, 0
    for owner, at in struct.iter_unpack("<II", files["jdx"]):
        if at == EMPTY:
            slots.append(None)
            continue
        assert headers[at:at + 6] == b"JAM\0\1\0", len(slots)
        head = head_at(headers, at)
        fields = headers[at + 76:at + 76 + head["subfields"]]
        text = texts[head["offset"]:head["offset"] + head["length"]]
        slots.append(Message(head, fields, text, owner))
        used += 76 + len(fields)
        text_bytes += len(text)
    return Base(headers[:1024], slots, files["jlr"]), len(headers) - used, len(texts) - text_bytes


def files_of(base, draw=None):
    """The bytes of each file of the base, one message behind another, or in a drawn order with dead bytes between."""
    headers, texts, index = base.fixed, b"", [struct.pack("<II", EMPTY, EMPTY)] * len(base.slots)
    places = [n for n, message in enumerate(base.slots) if message is not None]
    if draw:
        draw.shuffle(places)
    for n in places:
        message = base.slots[n]
        if draw:
            headers += draw.randbytes(draw.randrange(0, 90))
            texts += draw.randbytes(draw.randrange(0, 90))
        message.head["offset"], message.head["length"] = len(texts), len(message.text)
        index[n] = struct.pack("<II", message.owner, len(headers))
        headers += header_bytes(message.head, message.fields)
        texts += message.text
    return dict(zip(FILES, (headers, texts, b"".join(index), base.marks)))


def write_files(folder, name, files, spelled=str.lower):
    """Writes these bytes as files of the base, with extensions so spelled."""
    for extension, data in files.items():
        with open(f"{folder}/{name}.{spelled(extension)}", "wb") as file:
            file.write(data)


def write(folder, name, base, draw=None):
    """Writes the files of the base, with extensions in lower case."""
    write_files(folder, name, files_of(base, draw))


def write_only(folder, **bases):
    """Writes these bases, by their names, into a folder that has nothing else."""
    shutil.rmtree(folder, ignore_errors=True)
    os.mkdir(folder)
    for name, base in bases.items():
        write(folder, name, base)


def linked(parents):
    """The three links of each live message, by the numbers of their parents: 0 is none."""
    replies = {}
    for number, parent in sorted(parents.items()):
        replies.setdefault(parent, []).append(number)
    behind = {number: after for parent, found in replies.items() if parent for number, after in zip(found, found[1:])}
    return {number: (parent, replies.get(number, [0])[0], behind.get(number, 0)) for number, parent in parents.items()}


def links_of(base):
    """The three link fields that each live message has in a linked base."""
    live = base.live()
    parents, first = {}, {}
    for n, message in sorted(live.items()):
        wanted, kept = message.first(5), message.head["reply_to"]
        # an id of its own may not stand yet, so that the parent has a lower number
        parents[n] = (kept if kept in live and kept < n else 0) if wanted is None else first.get(wanted, 0)
        first.setdefault(message.first(4), n)
    return linked(parents)


def held_links(base):
    return {n: tuple(message.head[link] for link in LINKS) for n, message in base.live().items()}


def has_id(message):
    """Whether the text of the first MSGID is an address, a space and eight hexadecimal digits (FTS-0009)."""
    text = message.first(4)
    return text is not None and re.fullmatch(rb'([^ "][^ ]*|"([^"]|"")+") [0-9A-Fa-f]{8}', text) is not None


def shown(text):
    return bytes(63 if byte < 32 or byte == 127 else byte for byte in text or b"")


def listing(base):
    return b"".join(b"%8d  %s > %s  %s\n" % (n, *(shown(m.first(kind)) for kind in (2, 3, 6))) for n, m in sorted(base.live().items()))


def figures(base):
    live, slots = base.live(), base.slots
    is_linked = b"yes" if held_links(base) == links_of(base) else b"no"
    return (b"base %d\nnext %d\nlive %d\nkilled %d\nempty %d\nmsgids %d\nlinked %s\n"
            % (base.number, base.number + len(slots), len(live), sum(m is not None for m in slots) - len(live),
               slots.count(None), sum(has_id(m) for m in live.values()), is_linked))


def checked(base):
    """What a check prints of a base in whose journal nothing waits."""
    return figures(base) + CLOSED


class Refused(Exception):
    """The files fail a test: the line that names it, with its number and place."""

    @property
    def line(self):
        return b"fault %s\n" % self.args[0].encode()


def number_in(data):
    return int.from_bytes(data, "little")


class Record:
    """The record of a change, read field by field from byte 16 of the journal on, by the journal's version."""

    def __init__(self, files):
        self.files, self.journal, self.at = files, files["jnl"], 16
        self.version = version_of(self.journal)

    def field(self, size):
        """The next field, of so many bytes."""
        self.breaks(self.at + size > len(self.journal))
        return self.journal[self.at:self.at + size]

    def breaks(self, is_broken):
        """The field that begins here is cut off or breaks a rule."""
        if is_broken:
            raise Refused(f"3.14 BadJournal {self.at}")

    def counted(self, most=EMPTY):
        """The next field, which is a count, and goes behind it."""
        count = number_in(self.field(4))
        self.breaks(count > most)
        self.at += 4
        return count

    def changes(self):
        """The new lengths by file, and the pieces as file, place and bytes."""
        self.breaks(self.field(4) != HEADS[self.version])
        self.at += 4
        if self.version == 2:
            # the number of the change, whatever it is
            self.at += len(self.field(8))
        lengths, least, size = {}, 0, 4 + WIDTHS[self.version]
        for _ in range(self.counted(4)):
            field = self.field(size)
            file, length = field[0], number_in(field[4:])
            self.breaks(not least <= file < 4 or field[1:4] != bytes(3) or length > RECORD_CEILINGS[self.version][file])
            lengths[FILES[file]], least = length, file + 1
            self.at += size
        pieces = [self.piece(lengths) for _ in range(self.counted())]
        self.breaks(self.field(4) != ENDS[self.version])
        return lengths, pieces

    def piece(self, lengths):
        width = WIDTHS[self.version]
        front = 4 + 2 * width
        head = self.field(front)
        kind, file, source, last = head[:4]
        place, size = number_in(head[4:4 + width]), number_in(head[4 + width:])
        self.breaks(kind > 1 or file > 3 or last != 0 or (file, source) != (1, 5) and kind == 1 or source != 0 and kind == 0)
        whole = self.field(front + (size if kind == 0 else width))
        self.breaks(place + size > lengths.get(FILES[file], len(self.files[FILES[file]])))
        data = whole[front:]
        if kind == 1:
            start = number_in(data)
            self.breaks(start + size > len(self.files["ndt"]))
            data = self.files["ndt"][start:start + size]
        self.at += len(whole)
        return FILES[file], place, data


def version_of(journal):
    """The version of a journal, which is the first where none was written."""
    return 2 if journal[1:2] == b"\2" else 1


def is_open(journal):
    """Whether the gate is open, by the value that it has then in the journal's version."""
    return len(journal) > 16 and journal[0] == version_of(journal)


def recovered(journal):
    """The line by which a check of a base that opens ends, where this is its journal: the version, and the number of the change, of which a record of the
    first version has none."""
    if not is_open(journal):
        return CLOSED
    version = version_of(journal)
    return b"recovered %d %d\n" % (version, number_in(journal[20:28]) if version == 2 else 0)


def replayed(files):
    """The files after what waits in the journal was done."""
    if not is_open(files["jnl"]):
        return files
    lengths, pieces = Record(files).changes()
    now = {extension: bytearray(data) for extension, data in files.items()}
    for extension, length in lengths.items():
        now[extension] = now[extension][:length] + bytes(max(0, length - len(now[extension])))
    for extension, place, data in pieces:
        now[extension][place:place + len(data)] = data
    now["jnl"][0] = 0
    return {extension: bytes(data) for extension, data in now.items()}


def journal_of(pieces, lengths=(), change=None):
    """A journal whose gate is open: of the second version where its change has a number. Its record gives these files, by their numbers, new lengths,
    and writes these pieces: the number of a file, a place in it and the bytes, or for these the place in .NDT from which they are copied and their
    count."""
    version = 1 if change is None else 2
    wide = "<4BII" if version == 1 else "<4BQQ"
    record = HEADS[version] + (b"" if version == 1 else struct.pack("<Q", change)) + struct.pack("<I", len(lengths))
    record += b"".join(struct.pack(wide[:-1], file, 0, 0, 0, length) for file, length in lengths) + struct.pack("<I", len(pieces))
    for file, place, data in pieces:
        if isinstance(data, bytes):
            record += struct.pack(wide, 0, file, 0, 0, place, len(data)) + data
        else:
            record += struct.pack(wide + wide[-1], 1, file, ALL_FILES.index("ndt"), 0, place, data[1], data[0])
    return bytes((version, 0 if version == 1 else 2)) + bytes(14) + record + ENDS[version]


def test(files):
    """Tests the files of a base: first as a whole, then each header, then whether two of them share a byte."""
    headers, index, marks = files["jhr"], files["jdx"], files["jlr"]
    number = ulong(headers.ljust(24, b"\0"), 20)
    for line, is_wrong in (("3.1 ShortHeader", len(headers) < 1024), ("3.2 BadSignature", headers[:4] != b"JAM\0"), ("3.3 BaseZero", number == 0),
                           ("3.4 IndexLength", len(index) % 8), ("3.5 LastreadLength", len(marks) % 16 or len(marks) > CEILINGS[3]),
                           ("3.6 TooManySlots", len(index) // 8 > MOST_SLOTS), ("3.7 NumberRange", number + len(index) // 8 > 0xFFFFFFFF)):
        if is_wrong:
            raise Refused(line)
    slots = enumerate(struct.iter_unpack("<II", index), number)
    extents = [(number, at, end_of(files, number, at)) for number, (_, at) in slots if at != EMPTY]
    for b, (second, start, end) in enumerate(extents):
        for first, low, high in extents[:b]:
            if start < high and low < end:
                raise Refused(f"3.13 HeadersOverlap {first} {second}")


def end_of(files, number, at):
    """Where the header at this place ends, with its subfields where it is live."""
    headers, texts = files["jhr"], min(len(files["jdt"]), CEILINGS[1])
    most = min(len(headers), CEILINGS[0])
    if at < 1024 or at + 76 > most:
        raise Refused(f"3.8 HeaderPlace {number}")
    if headers[at:at + 4] != b"JAM\0":
        raise Refused(f"3.9 HeaderSignature {number}")
    if headers[at + 4:at + 6] != b"\1\0":
        raise Refused(f"3.10 HeaderRevision {number}")
    head = head_at(headers, at)
    if head["attribute"] & DELETED:
        return at + 76
    end = at + 76 + head["subfields"]
    if head["subfields"] > MOST_SUBFIELD_BYTES or end > most:
        raise Refused(f"3.8 HeaderPlace {number}")
    place = at + 76
    while place < end:
        if place + 8 > end or place + 8 + ulong(headers, place + 4) > end:
            raise Refused(f"3.11 Subfields {number} {place - at - 76}")
        place += 8 + ulong(headers, place + 4)
    if head["length"] > MOST_TEXT_BYTES or head["length"] and head["offset"] + head["length"] > texts:
        raise Refused(f"3.12 TextPlace {number}")
    return end


def told(files):
    """What a list and a check print of these files, the status of both, and the files then."""
    now = files
    try:
        now = replayed(files)
        test(now)
        base, _, _ = base_in(now)
        return listing(base), figures(base), 0, now
    except Refused as refused:
        return refused.line, refused.line, 3, now
