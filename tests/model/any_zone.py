"""Zones as Inside Macintosh: Memory draws them, built and read here from the book's layout alone, apart from the library: of any moreMast, with
slack in blocks, free master pointers in any order, a trailer or none, and the guest's own fields.
"""
from typing import NamedTuple

HEADER = 52
HEAD = {24: 8, 32: 12}
# bits 7 and 6 of a tag
FREE, FIXED, RELOCATABLE = range(3)
# what is wrong, by its number in macheap.h
SHORT_ZONE, LOW_LIMIT, HIGH_LIMIT, CUT_HEADER, OVERLAPS, LEAVES_ZONE, ODD_SIZE, BAD_TAG, BAD_ZONE, BAD_HANDLE, BAD_MASTER, BAD_FREE, ENDLESS_FREE = range(1, 14)
# the kinds of blocks in macheap.h
MH_FREE, MH_MASTER, MH_PTR, MH_REL = range(4)


class Block(NamedTuple):
    """A block as macheap.h has it."""

    address: int
    size: int
    kind: int
    owner: int
    length: int
    flags: int


class Seen(NamedTuple):
    """What there is in a zone: blocks, free master pointers, the trailer's size, and (problem, place, found, wanted) or None."""

    blocks: list
    free: list
    trailer: int
    fault: tuple


def head_bytes(mode, tag, flags, slack, size, word):
    """A block's header."""
    if mode == 24:
        return bytes([tag << 6 | slack]) + size.to_bytes(3, "big") + word.to_bytes(4, "big")
    return bytes([tag << 6, flags, 0, slack]) + size.to_bytes(4, "big") + word.to_bytes(4, "big")


def made(rng, mode):
    """A zone that is sound: where it begins, its bytes, and what there is in it."""
    head, top = HEAD[mode], 0xF0_0000 if mode == 24 else 0xF000_0000
    base = rng.randrange(0x1000, top) & ~3
    counts = [rng.randrange(1, 12) for _ in range(rng.randrange(1, 4))]
    wanted = rng.randrange(sum(counts) + 1)
    parts = [("masters", count) for count in counts] + [("handle", rng.randrange(40)) for _ in range(wanted)]
    parts += [(rng.choice(["free", "pointer"]), rng.randrange(60)) for _ in range(rng.randrange(8))]
    rng.shuffle(parts)
    at, laid, slots = HEADER, [], []
    for kind, number in parts:
        length = 4 * number if kind == "masters" else number
        slack = 0 if kind == "free" else rng.randrange(16 if mode == 24 else 40)
        # a block's size is even
        if (length + slack) % 2:
            slack += 1 if slack < 15 else -1
        if kind == "free":
            length, slack = length + length % 2, 0
        if kind == "masters":
            slots += range(at + head, at + head + length, 4)
        laid.append((kind, at, length, slack))
        at += head + length + slack
    rng.shuffle(slots)
    end, memory = at, bytearray(rng.randbytes(at))
    blocks = []
    for kind, at, length, slack in laid:
        size, flags, owner, tag = head + length + slack, 0, base + at + head, FIXED
        shown, word = MH_PTR, base
        if kind == "handle":
            slot = slots.pop()
            flags, owner, tag, shown, word = rng.randrange(8) << 5, base + slot, RELOCATABLE, MH_REL, slot
            memory[slot : slot + 4] = (base + at + head | (flags << 24 if mode == 24 else 0)).to_bytes(4, "big")
        elif kind == "free":
            tag, shown, owner, length, word = FREE, MH_FREE, 0, 0, rng.randrange(1 << 32)
        memory[at : at + head] = head_bytes(mode, tag, flags, slack, size, word)
        blocks.append(Block(base + at, size, shown, owner, length, flags))
    free, said = [base + slot for slot in slots], 8
    memory[8:12] = bytes(4)
    for address in free:
        # this heap sets a bit in a free master pointer, and a Macintosh doesn't
        mark = rng.choice([0, 0x0100_0000 if mode == 24 else 1]) if said != 8 else 0
        memory[said : said + 4] = (address | mark).to_bytes(4, "big")
        said = address - base
        memory[said : said + 4] = bytes(4)
    memory[0:4] = (base + end).to_bytes(4, "big")
    trailer = rng.choice([0, 12 if mode == 24 else 16])
    if trailer:
        memory += head_bytes(mode, FREE, 0, 0, trailer, 0) + bytes(trailer - head)
    memory += bytes([0xFF]) * rng.randrange(20)
    return base, bytes(memory), Seen(blocks, free, trailer, None)


def number(memory, at, count=4):
    return int.from_bytes(memory[at : at + count], "big")


def read(base, memory, mode):
    """What there is in a zone, as the book has it."""
    mask = 0xFF_FFFF if mode == 24 else 0xFFFF_FFFF
    head = HEAD[mode]
    if len(memory) < HEADER:
        return Seen([], [], 0, (SHORT_ZONE, base, len(memory), HEADER))
    limit = number(memory, 0) & mask
    if limit < base + HEADER:
        return Seen([], [], 0, (LOW_LIMIT, base, limit, min(base + HEADER, 0xFFFF_FFFF)))
    if limit > base + len(memory):
        return Seen([], [], 0, (HIGH_LIMIT, base, limit, base + len(memory)))
    end = limit - base
    seen = Seen([], [], trailer_of(memory, end, mode), None)
    at = HEADER
    while at < end:
        block, fault = block_of(base, memory, mode, end, at)
        if fault:
            return seen._replace(fault=fault)
        seen.blocks.append(block)
        at += block.size
    said, free = 8, []
    while True:
        if len(free) == end // 4:
            return seen._replace(free=free, fault=(ENDLESS_FREE, base + 8, end // 4, end // 4 - 1))
        address = number(memory, said) & mask & ~1
        if address == 0:
            return seen._replace(free=free)
        if not HEADER <= address - base <= end - 4:
            return seen._replace(free=free, fault=(BAD_FREE, base + said, address, 0))
        free.append(address)
        said = address - base


def trailer_of(memory, end, mode):
    """The size of a free block of 16 bytes at most after the last one, or 0."""
    if len(memory) < end + HEAD[mode] or memory[end] >> 6 != FREE:
        return 0
    size = number(memory, end + 1, 3) if mode == 24 else number(memory, end + 4)
    return size if HEAD[mode] <= size <= min(16, len(memory) - end) else 0


def block_of(base, memory, mode, end, at):
    """A block, or what is wrong with it."""
    head, place = HEAD[mode], base + at
    if end - at < head:
        return None, (CUT_HEADER, place, end - at, head)
    tag = memory[at] >> 6
    slack, size = (memory[at] & 15, number(memory, at + 1, 3)) if mode == 24 else (memory[at + 3], number(memory, at + 4))
    if tag == FREE:
        slack = 0
    word = number(memory, at + head - 4)
    if size < head + slack:
        return None, (OVERLAPS, place, size, head + slack)
    if size > end - at:
        return None, (LEAVES_ZONE, place, size, end - at)
    if size & 1:
        return None, (ODD_SIZE, place, size, size - 1)
    contents, length = place + head, size - head - slack
    if tag == FREE:
        return Block(place, size, MH_FREE, 0, 0, 0), None
    if tag == FIXED:
        zone = word & 0xFF_FFFF if mode == 24 else word
        if zone != base:
            return None, (BAD_ZONE, contents - 4, zone, base)
        # bit 4 marks the master blocks of this heap
        own = memory[at] & 16
        return Block(place, size, MH_MASTER if own else MH_PTR, 0 if own else contents, length, 0), None
    if tag != RELOCATABLE:
        return None, (BAD_TAG, place, 3, 2)
    if word < HEADER or word > end - 4:
        return None, (BAD_HANDLE, contents - 4, word, HEADER if word < HEADER else end - 4)
    master = number(memory, word)
    address = master & 0xFF_FFFF if mode == 24 else master
    if address != contents:
        return None, (BAD_MASTER, base + word, address, contents)
    flags = (master >> 24 if mode == 24 else memory[at + 1]) & 0xE0
    return Block(place, size, MH_REL, base + word, length, flags), None
