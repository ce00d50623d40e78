"""What a file is in AppleSingle, AppleDouble, MacBinary III and BinHex 4.0, and as a resource fork alone: written and read by a small model.

It is written from the published formats alone, and shares nothing with the program.
"""
import binascii
import struct
from dataclasses import dataclass, replace

from model.container import COMMENT, DIGITS, decoded, mac_binary_version
from model.messages import message

# seconds from the beginning of 1904 to that of 2000
TO_2000 = 3029529600
UNKNOWN = -0x80000000


@dataclass(frozen=True)
class Contents:
    """A file out of any container; what isn't known is empty or zero."""

    name: bytes = b""
    kind: bytes = bytes(4)
    creator: bytes = bytes(4)
    flags: int = 0
    created: int = 0
    modified: int = 0
    comment: bytes = b""
    data: bytes = b""
    resource: bytes = b""


def held(kind, it):
    """What a container holds of a file."""
    if kind == "raw":
        return Contents(resource=it.resource)
    if kind == "appledouble":
        return replace(it, data=b"")
    if kind == "binhex":
        return replace(it, created=0, modified=0, comment=b"")
    return it


def lost(kind, it):
    """The words for what a container doesn't hold of a file, but for the data fork."""
    words = []
    if kind == "raw" and it.name:
        words.append(message("its name"))
    if kind == "raw" and (any(it.kind) or any(it.creator) or it.flags):
        words.append(message("its type"))
    if kind in ("raw", "binhex") and (it.created or it.modified):
        words.append(message("its dates"))
    if kind in ("raw", "binhex") and it.comment:
        words.append(message("its comment"))
    return words


# written


def apple(magic, it, ids):
    """AppleSingle or AppleDouble of version 2 with these entries, in this order."""
    dates = [UNKNOWN if date == 0 else date - TO_2000 for date in (it.created, it.modified)]
    parts = {
        1: it.data,
        2: it.resource,
        3: it.name,
        4: it.comment,
        8: struct.pack(">iiii", *dates, UNKNOWN, UNKNOWN),
        9: it.kind + it.creator + struct.pack(">H", it.flags) + bytes(22),
    }
    at, places = 26 + 12 * len(ids), b""
    for ident in ids:
        places += struct.pack(">III", ident, at, len(parts[ident]))
        at += len(parts[ident])
    return struct.pack(">II16xH", magic, 0x20000, len(ids)) + places + b"".join(parts[ident] for ident in ids)


def mac_binary(it):
    """MacBinary III."""
    head = struct.pack(">BB63s4s4sB9xIIIIHB4s16xBB", 0, len(it.name), it.name, it.kind, it.creator, it.flags >> 8, len(it.data), len(it.resource), it.created, it.modified, len(it.comment), it.flags & 255, b"mBIN", 130, 129)
    head += struct.pack(">H2x", binascii.crc_hqx(head, 0))
    return head + b"".join(part + bytes(-len(part) % 128) for part in (it.data, it.resource, it.comment))


def bin_hex(it):
    """A BinHex text without runs."""
    head = bytes([len(it.name)]) + it.name + b"\0" + it.kind + it.creator + struct.pack(">HII", it.flags, len(it.data), len(it.resource))
    whole = b"".join(part + struct.pack(">H", binascii.crc_hqx(part, 0)) for part in (head, it.data, it.resource)).replace(b"\x90", b"\x90\0")
    bits = "".join(f"{byte:08b}" for byte in whole)
    bits += "0" * (-len(bits) % 6)
    digits = bytes(DIGITS)
    text = b":" + bytes(digits[int(bits[at : at + 6], 2)] for at in range(0, len(bits), 6)) + b":"
    return b"(This file must be converted with BinHex 4.0)\n\n" + b"".join(text[at : at + 64] + b"\n" for at in range(0, len(text), 64))


WRITERS = {
    "raw": lambda it: it.resource,
    "appledouble": lambda it: apple(0x51607, it, [9, 8, 3, 4, 2]),
    "applesingle": lambda it: apple(0x51600, it, [3, 2, 9, 4, 1, 8]),
    "macbinary": mac_binary,
    "binhex": bin_hex,
}


def as_copied(it):
    """AppleDouble as a Macintosh's own copying writes it: what the Finder knows and the resource fork, and then what else says something."""
    more = {3: it.name, 4: it.comment, 8: it.created or it.modified}
    return apple(0x51607, it, [9, 2, *(ident for ident, says in more.items() if says)])


# read


def of_apple(file):
    """What the entries say; the first of each id counts."""
    assert file[4:8] == b"\0\2\0\0"
    parts = {}
    for at in range(26, 26 + 12 * struct.unpack(">H", file[24:26])[0], 12):
        ident, start, length = struct.unpack(">III", file[at : at + 12])
        assert start + length <= len(file)
        parts.setdefault(ident, file[start : start + length])
    dates = [0 if date == UNKNOWN else date + TO_2000 for date in struct.unpack(">ii", parts.get(8, struct.pack(">ii", UNKNOWN, UNKNOWN))[:8])]
    finder = parts[9]
    return Contents(parts.get(3, b""), finder[:4], finder[4:8], struct.unpack(">H", finder[8:10])[0], *dates, parts.get(4, b""), parts.get(1, b""), parts.get(2, b""))


def of_mac_binary(file):
    """What the header says, and the three parts after it."""
    assert mac_binary_version(file) == 3 and binascii.crc_hqx(file[:124], 0) == struct.unpack(">H", file[124:126])[0] and len(file) % 128 == 0
    data, resource, created, modified, comment = struct.unpack(">IIIIH", file[83:101])
    at, parts = 128, []
    for length in (data, resource, comment):
        parts.append(file[at : at + length])
        assert len(parts[-1]) == length
        at += -(-length // 128) * 128
    assert at == len(file)
    return Contents(file[2 : 2 + file[1]], file[65:69], file[69:73], file[73] << 8 | file[101], created, modified, parts[2], parts[0], parts[1])


def of_bin_hex(file):
    """What the text stands for: lines of at most 64 characters, and three CRCs that are right."""
    assert COMMENT.match(file) and max(map(len, file.split(b"\n"))) == 64
    values, fault = decoded(file, file.index(b"\n:") + 2)
    assert not fault
    at, parts = 0, []
    lengths = [values[0] + 20]
    while lengths:
        length = lengths.pop(0)
        parts.append(values[at : at + length])
        assert binascii.crc_hqx(parts[-1], 0) == struct.unpack(">H", values[at + length : at + length + 2])[0]
        at += length + 2
        if len(parts) == 1:
            lengths = list(struct.unpack(">II", parts[0][-8:]))
    assert at == len(values)
    head = parts[0]
    name, rest = head[1 : 1 + head[0]], head[2 + head[0] :]
    return Contents(name, rest[:4], rest[4:8], struct.unpack(">H", rest[8:10])[0], 0, 0, b"", parts[1], parts[2])


READERS = {
    "raw": lambda file: Contents(resource=file),
    "appledouble": of_apple,
    "applesingle": of_apple,
    "macbinary": of_mac_binary,
    "binhex": of_bin_hex,
}
