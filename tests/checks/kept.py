"""Checks that resfork finds a resource fork in whatever it is kept in.

Random forks of tests/checks/forks.py are put in AppleSingle, AppleDouble, MacBinary I, II and III and BinHex, which are made here from
their published formats. Of each, the list and what `info` says are compared with the model; then each is cut short, and
refused. Before them come files that hold no fork, and a damaged fork in each, of which the message is compared.
"""
import binascii
import os
import random
import struct
import tempfile

from checks.fork_questions import Difference
from checks.forks import Choices, compare, run
from model.fork import NoFork, column, listing, quoted, read_fork, types
from model.messages import message

NAME, KIND, CREATOR, DATA = b"Caf\x8e", b"APPL", b"a\xa9b ", bytes(range(200))
DIGITS = b"!\"#$%&'()*+,-012345689@ABCDEFGHIJKLMNPQRSTUVXYZ[`abcdefhijklmpqr"


def apple(magic, parts):
    """AppleSingle or AppleDouble of these entries, each an id and its bytes."""
    head = struct.pack(">II16xH", magic, 0x20000, len(parts))
    at = len(head) + 12 * len(parts)
    entries = b""
    for kind, part in parts:
        entries += struct.pack(">III", kind, at, len(part))
        at += len(part)
    return head + entries + b"".join(part for _, part in parts)


def finder_info():
    return KIND + CREATOR + bytes(24)


def apple_single(fork):
    return apple(0x51600, [(1, DATA), (3, NAME), (9, finder_info()), (2, fork)])


def apple_double(fork):
    return apple(0x51607, [(3, NAME), (9, finder_info()), (2, fork)])


def filled(part):
    """A part, with zeros up to a multiple of 128 bytes."""
    return part + bytes(-len(part) % 128)


def mac_binary(version, fork):
    head = bytearray(128)
    head[1 : 2 + len(NAME)] = bytes([len(NAME)]) + NAME
    head[65:73] = KIND + CREATOR
    head[83:91] = struct.pack(">II", len(DATA), len(fork))
    if version == 3:
        head[102:106] = b"mBIN"
    if version > 1:
        head[122:124] = bytes([127 + version, 129])
        head[124:126] = struct.pack(">H", binascii.crc_hqx(bytes(head[:124]), 0))
    return bytes(head) + filled(DATA) + filled(fork)


def bin_hex(fork):
    return bin_hex_of(DATA, fork)


def bin_hex_of(data, fork):
    head = bytes([len(NAME)]) + NAME + b"\0" + KIND + CREATOR + struct.pack(">HII", 0, len(data), len(fork))
    whole = b"".join(part + struct.pack(">H", binascii.crc_hqx(part, 0)) for part in (head, data, fork))
    runs = whole.replace(b"\x90", b"\x90\0")
    bits = "".join(f"{byte:08b}" for byte in runs)
    bits += "0" * (-len(bits) % 6)
    text = b":" + bytes(DIGITS[int(bits[at : at + 6], 2)] for at in range(0, len(bits), 6)) + b":"
    lines = b"\r".join(text[at : at + 64] for at in range(0, len(text), 64))
    return b"(This file must be converted with BinHex 4.0)\r\r" + lines + b"\r"


# what a fork is kept in, what that is called, and how many bytes of data fork it has
KEPT = [
    (apple_single, message("applesingle"), len(DATA)),
    (apple_double, message("appledouble"), 0),
    (lambda fork: mac_binary(1, fork), message("macbinary I"), len(DATA)),
    (lambda fork: mac_binary(2, fork), message("macbinary II"), len(DATA)),
    (lambda fork: mac_binary(3, fork), message("macbinary"), len(DATA)),
    (bin_hex, message("binhex"), len(DATA)),
]


def about(kept_as, data, fork, rows):
    """What `info` says."""
    map_at = struct.unpack(">I", fork[4:8])[0]
    attributes = struct.unpack(">H", fork[map_at + 22 : map_at + 24])[0]
    lines = [f"kept as: {kept_as}", f"name: {quoted(chr(34), NAME)}", f"type: {column(KIND)}", f"creator: {column(CREATOR)}"]
    lines += [f"data fork: {data} bytes", f"resource fork: {len(fork)} bytes", f"map attributes: {attributes}", f"resources: {len(rows)}"]
    return "".join(f"{line}\n" for line in lines) + types(rows)


def write(path, text):
    with open(path, "wb") as file:
        file.write(text)


def try_fork(program, path, fork, rows, choices):
    """Compares what is said of a fork in each of these, whole and cut short."""
    for keep, kept_as, data in KEPT:
        text = keep(fork)
        write(path, text)
        compare(f"ls of {kept_as}", run(program, ["ls", path]), 0, listing(rows).encode(), "")
        compare(f"info of {kept_as}", run(program, ["info", path]), 0, about(kept_as, data, fork, rows).encode(), "")
        # within the fork, of which MacBinary fills up the end
        write(path, text[: len(text) - 130 - choices.randrange(len(fork) - 20) if len(fork) > 150 else 40])
        status, output, told = run(program, ["ls", path])
        if (status, output) != (3, b"") or not told.startswith(f"{path}: "):
            raise Difference(f"{kept_as} cut short: status {status}, it wrote {output!r} and told {told!r}")


# a fork of one resource: the data at $100, whose length is too big by far for the two bytes after it, and the map at $106
DAMAGED = bytes.fromhex(
    f"00000100 00000106 00000006 00000032 {bytes(240).hex()} 00FFFFFF 4869"
    "00000100 00000106 00000006 00000032 00000000 0000 0000 001C 0032 0000 54455854 0000 000A 0080 FFFF 00 000000 00000000"
)
FAULT = message("datum", "'TEXT'", 128, 16777215, 2, "000100", "00012C") + "\n"
LEFT = f"  {message('readable', message('tally', 0, 1))}\n"


def try_damaged(program, path):
    """Compares what is said of a damaged fork, alone and in each of these."""
    write(path, DAMAGED)
    for words in (["ls", path], ["get", path, "TEXT", "128"], ["info", path]):
        compare(f"{words[0]} of a damaged fork", run(program, words), 3, b"", f"{path}: {FAULT}{LEFT}")
    for keep, kept_as, _ in KEPT:
        write(path, keep(DAMAGED))
        told = f"{path}: {FAULT}  {message('within', kept_as)}\n{LEFT}"
        compare(f"ls of {kept_as} with a damaged fork", run(program, ["ls", path]), 3, b"", told)


# files that hold no resource fork, with words of what is said
NONE = [
    ("a text", b"no fork at all, but a text of more than sixteen bytes", message("unknown")),
    ("AppleDouble without one", apple(0x51607, [(9, finder_info())]), message("absent")),
    ("MacBinary without one", mac_binary(2, b""), message("absent")),
    ("BinHex without one", bin_hex(b""), message("absent")),
    ("a zip archive", b"PK\x03\x04" + bytes(60), message("archive", message("zip"), message("unzip").removesuffix("FILE"))),
    ("a gzip file", b"\x1f\x8b\x08" + bytes(60), message("archive", message("gzip"), message("gunzip").removesuffix("FILE"))),
]


def main(program, count=60):
    """Tries the files without a fork, and so many random forks."""
    tried = 0
    with tempfile.TemporaryDirectory() as folder:
        path = os.path.join(folder, "file")
        what = "a file without a fork"
        try:
            for what, text, told in NONE:
                write(path, text)
                compare("ls", run(program, ["ls", path]), 3, b"", told)
            what = "a damaged fork"
            try_damaged(program, path)
            for number in range(1, 1 + count):
                fork, what = Choices(number).fork(), f"fork {number}"
                try:
                    rows = read_fork(fork)
                except NoFork:
                    continue
                try_fork(program, path, fork, rows, random.Random(number))
                tried += 1
        except Difference as difference:
            print(f"{what}: {difference}")
            return 1
    print(f"{tried} forks, each kept in {len(KEPT)} ways, and {len(NONE)} files without one")
    return 0 if tried else 1

