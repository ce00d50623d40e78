#!/usr/bin/env python3
"""Compares mh_look of a shared library with zones as Inside Macintosh draws them: two that were laid out by hand, one in each mode, sound and with
each field damaged, with what is expected written beside; and 20,000 random ones, most of them damaged, as an independent reader has them
(tests/model/any_zone.py).

Words: the library, and how many random zones if not so many.
"""
import collections
import ctypes
import os
import random
import sys

sys.path.append(os.path.join(os.path.dirname(os.path.dirname(os.path.abspath(__file__))), "model"))
import any_zone as zones  # noqa: E402

BAD_NUMBER, DAMAGED = -1006, -116
BASE = 0x2000

# by hand: the header with bkLim, hFstFree and fields that a guest wrote; a block of four master pointers; a handle's block of 5 bytes with 3
# over; a pointer's of 12; a free one; and the trailer. The free master pointers are the third, the second and the fourth.
ZONE_24 = bytes.fromhex(
    "00002080 DEADBEEF 00002044 00000010 00001234 0004 0000 0001 0001 0002 0002 0000 0004 00000000 00005678 00000000 00002070"
    "40000018 00002000 C0002054 00002048 00002040 00000000"
    "83000010 0000003C 68656C6C 6F000000"
    "40000014 00002000 70707070 70707070 70707070"
    "00000010 FFFFFFFF FFFFFFFF FFFFFFFF"
    "0000000C 00000000 00000000"
)
BLOCKS_24 = [
    (0x2034, 24, zones.MH_PTR, 0x203C, 16, 0),
    (0x204C, 16, zones.MH_REL, 0x203C, 5, 0xC0),
    (0x205C, 20, zones.MH_PTR, 0x2064, 12, 0),
    (0x2070, 16, zones.MH_FREE, 0, 0, 0),
]
ZONE_32 = bytes.fromhex(
    "00002090 DEADBEEF 00002048 00000014 00001234 0004 0000 0001 0001 0002 0002 0000 0004 00000000 00005678 00000000 0000207C"
    "40000000 0000001C 00002000 0000205C 0000204C 00002044 00000000"
    "80C00003 00000014 00000040 68656C6C 6F000000"
    "40000000 00000018 00002000 70707070 70707070 70707070"
    "00000000 00000014 FFFFFFFF FFFFFFFF FFFFFFFF"
    "00000000 00000010 00000000 00000000"
)
BLOCKS_32 = [
    (0x2034, 28, zones.MH_PTR, 0x2040, 16, 0),
    (0x2050, 20, zones.MH_REL, 0x2040, 5, 0xC0),
    (0x2064, 24, zones.MH_PTR, 0x2070, 12, 0),
    (0x207C, 20, zones.MH_FREE, 0, 0, 0),
]
# a mode, an offset, the bytes that are put there, how many blocks are found then, and the fault
DAMAGES = [
    (24, 0, "00001FFE", 0, (zones.LOW_LIMIT, 0x2000, 0x1FFE, 0x2034)),
    (24, 0, "00003000", 0, (zones.HIGH_LIMIT, 0x2000, 0x3000, 0x208C)),
    (24, 0, "FF002080", 4, None),
    (24, 4, "FFFFFFFF", 4, None),
    (24, 12, "FFFFFFFF FFFFFFFF FFFF FFFF FFFF FFFF FFFF FFFF FFFF FFFF FFFFFFFF FFFFFFFF FFFFFFFF FFFFFFFF", 4, None),
    (24, 8, "00000000", 4, None),
    (24, 8, "00002080", 4, (zones.BAD_FREE, 0x2008, 0x2080, 0)),
    (24, 8, "FF000004", 4, (zones.BAD_FREE, 0x2008, 4, 0)),
    (24, 0x40, "01002030", 4, (zones.BAD_FREE, 0x2040, 0x2030, 0)),
    (24, 0x48, "01002044", 4, (zones.ENDLESS_FREE, 0x2008, 32, 31)),
    (24, 0x4D, "000004", 1, (zones.OVERLAPS, 0x204C, 4, 11)),
    (24, 0x4D, "00000A", 1, (zones.OVERLAPS, 0x204C, 10, 11)),
    (24, 0x4D, "000000", 1, (zones.OVERLAPS, 0x204C, 0, 11)),
    (24, 0x71, "000020", 3, (zones.LEAVES_ZONE, 0x2070, 32, 16)),
    (24, 0, "00002084", 4, (zones.CUT_HEADER, 0x2080, 4, 8)),
    (24, 0x5D, "000015", 2, (zones.ODD_SIZE, 0x205C, 21, 20)),
    (24, 0x5C, "C0", 2, (zones.BAD_TAG, 0x205C, 3, 2)),
    (24, 0x60, "00002004", 2, (zones.BAD_ZONE, 0x2060, 0x2004, 0x2000)),
    (24, 0x60, "FF002000", 4, None),
    (24, 0x50, "00000030", 1, (zones.BAD_HANDLE, 0x2050, 0x30, 0x34)),
    (24, 0x50, "0000007D", 1, (zones.BAD_HANDLE, 0x2050, 0x7D, 0x7C)),
    (24, 0x50, "00000040", 1, (zones.BAD_MASTER, 0x2040, 0x2048, 0x2054)),
    (24, 0x3C, "C0002058", 1, (zones.BAD_MASTER, 0x203C, 0x2058, 0x2054)),
    (24, 0x3C, "C0002054", 4, None),
    (24, 0x74, "00000000", 4, None),
    (24, 0x80, "80000000", 4, None),
    (32, 0, "00002033", 0, (zones.LOW_LIMIT, 0x2000, 0x2033, 0x2034)),
    (32, 0, "FF002090", 0, (zones.HIGH_LIMIT, 0x2000, 0xFF002090, 0x20A0)),
    (32, 8, "00002049", 4, None),
    (32, 8, "FF002048", 4, (zones.BAD_FREE, 0x2008, 0xFF002048, 0)),
    (32, 0x4C, "00002049", 4, (zones.ENDLESS_FREE, 0x2008, 36, 35)),
    (32, 0x53, "09", 1, (zones.OVERLAPS, 0x2050, 20, 21)),
    (32, 0x54, "0000000E", 1, (zones.OVERLAPS, 0x2050, 14, 15)),
    (32, 0x80, "00000016", 3, (zones.LEAVES_ZONE, 0x207C, 22, 20)),
    (32, 0, "00002094", 4, (zones.CUT_HEADER, 0x2090, 4, 12)),
    (32, 0x68, "00000017", 2, (zones.ODD_SIZE, 0x2064, 23, 22)),
    (32, 0x64, "FF", 2, (zones.BAD_TAG, 0x2064, 3, 2)),
    (32, 0x6C, "FF002000", 2, (zones.BAD_ZONE, 0x206C, 0xFF002000, 0x2000)),
    (32, 0x58, "00000008", 1, (zones.BAD_HANDLE, 0x2058, 8, 0x34)),
    (32, 0x40, "C000205C", 1, (zones.BAD_MASTER, 0x2040, 0xC000205C, 0x205C)),
]


class MhBlock(ctypes.Structure):
    _fields_ = [(name, ctypes.c_uint32) for name in zones.Block._fields]


class MhWrong(ctypes.Structure):
    _fields_ = [(name, ctypes.c_uint32) for name in ("problem", "place", "found", "wanted")]


class Library:
    """The function of the library."""

    def __init__(self, path):
        self.look = ctypes.CDLL(path).mh_look
        self.look.restype = ctypes.c_int16
        self.look.argtypes = [ctypes.c_char_p, ctypes.c_size_t, ctypes.c_uint32, ctypes.c_uint32, ctypes.c_void_p, ctypes.c_size_t]
        self.look.argtypes += [ctypes.c_void_p, ctypes.c_void_p]

    def found(self, base, memory, mode, room):
        """The blocks in the rows, how many there are, the fault or None, and the code. Rows and a fault that aren't written stay 7."""
        rows = (MhBlock * (room + 1))(*[MhBlock(*[7] * 6)] * (room + 1))
        count, wrong = ctypes.c_size_t(7), MhWrong(7, 7, 7, 7)
        code = self.look(memory, len(memory), base, mode, rows, room, ctypes.byref(count), ctypes.byref(wrong))
        fault = tuple(getattr(wrong, name) for name, _ in MhWrong._fields_)
        return [tuple(getattr(row, name) for name, _ in MhBlock._fields_) for row in rows], count.value, fault, code


def differs(library, base, memory, mode, room, blocks, fault):
    """Whether the library finds something else than these."""
    rows, count, wrong, code = library.found(base, memory, mode, room)
    shown = [tuple(block) for block in blocks[:room]]
    wanted = shown + [(7,) * 6] * (room + 1 - len(shown))
    return (rows, count, wrong, code) != (wanted, len(blocks), fault or (7,) * 4, DAMAGED if fault else 0)


def changed(rng, base, memory):
    """A zone with some bytes that are others, or with fewer."""
    memory = bytearray(memory)
    for _ in range(rng.randrange(1, 4)):
        at = rng.randrange(len(memory))
        how = rng.randrange(5)
        if how == 0:
            memory[at] = rng.randrange(256)
        elif how == 1:
            memory[at] ^= 1 << rng.randrange(8)
        elif how == 2 and at > 40:
            del memory[at:]
        else:
            word = base + rng.randrange(len(memory) + 8) if how == 3 else rng.randrange(64)
            memory[at & ~3 : (at & ~3) + 4] = (word & 0xFFFF_FFFF).to_bytes(4, "big")
    return bytes(memory)


def rows(library):
    """How many rows of the tables differ."""
    wrong = 0
    kept = {24: (ZONE_24, BLOCKS_24), 32: (ZONE_32, BLOCKS_32)}
    for mode, offset, text, count, fault in [(24, 0, "", 4, None), (32, 0, "", 4, None), *DAMAGES]:
        zone, blocks = kept[mode]
        put = bytes.fromhex(text)
        memory = zone[:offset] + put + zone[offset + len(put) :]
        for room in (0, 2, 9):
            if differs(library, BASE, memory, mode, room, blocks[:count], fault):
                wrong += 1
                print(f"mode {mode}, {text} at {offset:#x}, {room} rows: {library.found(BASE, memory, mode, room)}, and not {count}, {fault}")
    for length in range(len(ZONE_24)):
        fault = (zones.SHORT_ZONE, BASE, length, 52) if length < 52 else (zones.HIGH_LIMIT, BASE, 0x2080, BASE + length)
        blocks = BLOCKS_24 if length >= 0x80 else []
        wrong += differs(library, BASE, ZONE_24[:length], 24, 9, blocks, None if blocks else fault)
    for mode in (0, 16, 25, 64):
        rows_now, count, fault, code = library.found(BASE, ZONE_24, mode, 3)
        wrong += (set(rows_now), count, fault, code) != ({(7,) * 6}, 7, (7,) * 4, BAD_NUMBER)
    return wrong


def main(path, number=20000):
    library = Library(path)
    wrong, rng, problems = rows(library), random.Random(84), collections.Counter()
    for at in range(number):
        mode = rng.choice([24, 32])
        base, memory, seen = zones.made(rng, mode)
        if zones.read(base, memory, mode) != seen:
            wrong += 1
            print(f"the reader sees another zone than was made, {at}")
        if at % 4:
            memory = changed(rng, base, memory)
        seen = zones.read(base, memory, mode)
        problems[seen.fault and seen.fault[0]] += 1
        if differs(library, base, memory, mode, rng.choice([0, 3, 64]), seen.blocks, seen.fault):
            wrong += 1
            print(f"zone {at}, mode {mode}, base {base:#x}: {library.found(base, memory, mode, 64)[1:]}, and not {len(seen.blocks)}, {seen.fault}")
    if number >= 20000 and len(problems) < 14:
        wrong += 1
        print(f"not all kinds of faults came: {problems}")
    print(f"{number} zones and {len(DAMAGES)} damages: {wrong} differ")
    return 1 if wrong else 0


if __name__ == "__main__":
    sys.exit(main(sys.argv[1], *map(int, sys.argv[2:])))
