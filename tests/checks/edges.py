"""Checks a macheap program against the model where blocks begin at the edges of what its index sums up.

The index keeps a bit for each four bytes of a zone, 64 of them in a word, and sums for each 256 bytes, over groups of these, and so on. In each
script blocks begin at all multiples of 256, 1,024, 4,096 or 16,384 bytes, or four bytes before or after them, and some are longer than a group of
sums. Then the small ones at the edges are locked, freed and asked for again, one after the other, and random calls follow.
"""
import itertools
import random

from checks.random_lines import Chooser, play

SIZE, BASE = 65536, 0x100000
UNITS, SHIFTS, RANDOM_LINES = (256, 1024, 4096, 16384), (-4, 0, 4), 100


def end_of_used(zone):
    """Where the first free block begins, if there is one."""
    return next((at for at, block in zone.placed() if block.owner == "free"), None)


def layout(zone, make, unit, shift, dice):
    """Calls that make small blocks which begin at each edge, and larger ones between them: pointers, or handles after their master blocks."""
    for _ in range(2 * SIZE // unit // 64 if make == "NewHandle" else 0):
        yield "MoreMasters", []
    for edge in range(unit, SIZE, unit):
        at = end_of_used(zone)
        between = BASE + edge + shift - at if at else 0
        if between >= zone.least:
            yield make, [between - zone.head]
        if end_of_used(zone) == BASE + edge + shift:
            yield make, [dice.choice([4, 8, 16, 20])]


def freed(zone, unit, shift, dice):
    """Calls that free the blocks at the edges and ask for as much room, or for four bytes more."""
    starts = [at for at, block in zone.placed() if block.owner in zone.live and (at - BASE - shift) % unit == 0]
    dice.shuffle(starts)
    for start in starts:
        block = next((block for at, block in zone.placed() if at == start), None)
        if block is None or block.owner not in zone.live:
            continue
        owner, length = zone.live[block.owner], block.size - zone.head
        if owner.is_handle:
            yield dice.choice(["HLock", "HPurge", "HNoPurge"]), [block.owner]
        yield "MaxBlock", []
        yield "DisposeHandle" if owner.is_handle else "DisposePtr", [block.owner]
        for call in ("MaxBlock", "PurgeSpace", "FreeMem"):
            yield call, []
        for more in dice.sample([0, 4, -4], 2):
            yield dice.choice(["NewPtr", "NewHandle", "ReserveMem"]), [max(0, length + more)]


def script(make, unit, shift, seed):
    """The calls of a script, as a function of the model's zone."""

    def calls(zone):
        dice = random.Random(seed)
        yield from layout(zone, make, unit, shift, dice)
        yield from freed(zone, unit, shift, dice)
        yield "CompactMem", [8388608]
        chooser = Chooser(seed, zone, SIZE)
        yield from (chooser.line() for _ in range(RANDOM_LINES))

    return calls


def main(program):
    results = []
    for mode, limit, make, unit, shift in itertools.product((24, 32), (SIZE, 2 * SIZE), ("NewPtr", "NewHandle"), UNITS, SHIFTS):
        seed = unit + shift + mode + limit
        calls = script(make, unit, shift, seed)
        results.append(play(program, f"of edges at {unit} {shift:+}", (mode, SIZE, limit, BASE), calls, random.Random(seed)))
    print(f"scripts of edges: {results.count(True)} as the model has them, {results.count(False)} not")
    return 0 if all(results) else 1
