"""The bases that are damaged and tended: of one message, and of ten of all kinds with empty slots, its headers in no order with dead bytes between, at rest
and with a change that waits in the journal.
"""
import struct

from jam import DELETED, EMPTY, crc, files_of, fixed_header, header, journal_of, named, one_message, subfields


def msgid(number):
    return 4, b"2:5020/1042 %08x" % number


def messages():
    """The slots of the base by their numbers: a header with its subfields, or None. The texts have 3,100 bytes."""
    dead = named(b"Gone", b"All", b"killed")
    odd = subfields((3, b"All \xc3\xa9\x07"), (2, b"Ada\x1b[m"), (2, b"not she"), (2000, 7, b""), (6, b"\x7f caf\xe9 \xff"), (6, b"second"))
    many = named(b"Grace", b"Hedy", b"many kinds", msgid(11), *((kind, kind, bytes(kind % 5)) for kind in range(7, 21)))
    return {
        7: header(named(b"Ada", b"All", b"first", msgid(7)), number=7, length=2900, reply_first=8, attribute=0x01000001, written=10**9),
        8: header(named(b"Hedy", b"Ada", b"Re: first", msgid(8), (5, msgid(7)[1])), number=8, offset=2900, length=60, reply_to=7, reply_next=12),
        9: None,
        10: header(dead, number=10, attribute=DELETED | 1, length=99_999),
        11: header(many, number=999, offset=10, length=900, reply_first=13, reserved=3),
        12: header(named(b"Tony", b"Ada", b"Re: first", msgid(12), (5, msgid(7)[1])), number=12, offset=2960, length=40, reply_to=7,
                   reply_next=20),
        13: header(named(b"Hedy", b"Grace", b"by number"), number=13, offset=3000, length=100, reply_to=11),
        14: None,
        15: header(b"no subfields", number=15, attribute=DELETED, subfields=EMPTY),
        16: header(subfields((4, b'"a ""node""" 0000abCD')), number=16, offset=EMPTY),
        17: None,
        18: header(odd, number=18, offset=3100, attribute=0x7FFFFFFF),
        19: None,
        20: header(named(b"Ada", b"All", b"again", msgid(7), (5, msgid(7)[1])), number=20, offset=0, length=3100, reply_to=7),
    }


def whole_base(draw):
    """The files of the base, with a closed journal."""
    slots = messages()
    lowest = min(slots)
    places, headers = {}, fixed_header(lowest, 40, 8)[:24] + draw.randbytes(1000)
    for number in draw.sample(sorted(slots), len(slots)):
        if slots[number] is not None:
            headers += draw.randbytes(draw.randrange(0, 20))
            places[number] = len(headers)
            headers += slots[number]
    headers += draw.randbytes(9)
    index = b"".join(struct.pack("<II", draw.randrange(2**32), places.get(number, EMPTY)) for number in sorted(slots))
    marks = draw.randbytes(48)
    return {"jhr": headers, "jdt": draw.randbytes(3107), "jdx": index, "jlr": marks, "jnl": bytes(16), "ndt": b""}, places


def waiting_base(draw, change=None):
    """The same with a change that waits in the journal: an answer is posted, a message killed, another linked, texts are moved. Where the change has a
    number, the journal is of the second version."""
    files, places = whole_base(draw)
    answer = header(named(b"Sysop", b"Hedy", b"Re: first", msgid(21), (5, msgid(8)[1])), number=21, offset=3107, length=50, reply_to=8)
    entry = struct.pack("<II", crc(b"Hedy"), len(files["jhr"]))
    lengths = enumerate((len(files["jhr"]) + len(answer), 3157, len(files["jdx"]) + 8, 32))
    pieces = [
        (0, len(files["jhr"]), answer), (2, len(files["jdx"]), entry), (1, 3107, (9, 50)), (1, 3000, b"moved"),
        (0, places[8] + 28, struct.pack("<I", 21)), (0, places[16] + 52, struct.pack("<I", DELETED)),
        (3, 16, bytes(16)), (0, 8, struct.pack("<II", 41, 8)),
    ]
    return files | {"jnl": journal_of(pieces, list(lengths), change) + b"old bytes", "ndt": draw.randbytes(70)}


def small_base():
    """The files of a base with one message."""
    return files_of(one_message()) | {"jnl": b"", "ndt": b""}
