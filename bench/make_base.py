#!/usr/bin/env python3
"""Writes a compact JAM base of so many messages.

usage: make_base.py DIR NAME COUNT [used]

Each message has a sender, a receiver, a MSGID, a subject and a text of 120 to 219 bytes. The headers stand one behind
another from the fixed header on (JAM, "Header file", "Message header", "Index file"). Of a used base every third message
answers one of the hundred before it by its MSGID, no reply is linked, and every tenth message is killed.
"""
import struct
import sys
import zlib


def jam_crc(data):
    """The CRC of JAM: CRC-32 without its final complement, over the bytes in lower case."""
    return zlib.crc32(data.lower()) ^ 0xFFFFFFFF


def subfield(kind, data):
    return struct.pack("<HHI", kind, 0, len(data)) + data


def answered(n):
    """The number of the message that this one of a used base answers, or 0."""
    return max(1, n - 1 - n * 7 % 100) if n > 1 and n % 3 == 0 else 0


def write(folder, name, count, is_used, times=1, wide=0):
    """The files of the base; each text is so many times as long, and each header has a kludge of so many bytes, where that is not 0. What is
    written is not held in memory: a child of this process is measured with all that this one has."""
    names = [b"Ada Lovelace", b"Grace Hopper", b"Edsger Dijkstra", b"Barbara Liskov", b"Tony Hoare"]
    crcs, kludge, at, text_at = list(map(jam_crc, names)), subfield(2000, bytes(wide)) if wide else b"", 1024, 0
    headers, texts, index, _ = files = [open(f"{folder}/{name}.{ending}", "wb") for ending in ("JHR", "JDT", "JDX", "JLR")]
    headers.write(b"JAM\0" + struct.pack("<5I", 1_000_000_000, count, count, 0xFFFFFFFF, 1) + bytes(1000))
    for n in range(1, count + 1):
        msgid = b"2:5020/1042 %08x" % n
        reply_id = b"2:5020/1042 %08x" % answered(n) if is_used and answered(n) else None
        fields = b"".join([subfield(2, names[n % 5]), subfield(3, names[(n + 1) % 5]), subfield(4, msgid),
                           subfield(5, reply_id) if reply_id else b"", subfield(6, b"Message %d of the base" % n), kludge])
        reply_crc = jam_crc(reply_id) if reply_id else 0xFFFFFFFF
        attribute = 0x80800001 if is_used and n % 10 == 0 else 0x00800001
        text = (b"The text of message %d. " % n * 10 * times)[:(120 + n % 100) * times]
        head = b"JAM\0" + struct.pack("<HHIIIIIIIIIIIIIIIII", 1, 0, len(fields), 0, jam_crc(msgid), reply_crc, 0, 0, 0,
                                      1_000_000_000 + n, 0, 0, n, attribute, 0, text_at, len(text), 0xFFFFFFFF, 0)
        headers.write(head + fields)
        texts.write(text)
        index.write(struct.pack("<II", crcs[(n + 1) % 5], at))
        at += len(head) + len(fields)
        text_at += len(text)
    for file in files:
        file.close()


if __name__ == "__main__":
    if len(sys.argv) not in (4, 5) or sys.argv[4:] not in ([], ["used"]):
        sys.exit(__doc__)
    write(sys.argv[1], sys.argv[2], int(sys.argv[3]), sys.argv[4:] == ["used"])
