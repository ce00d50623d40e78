#!/usr/bin/env python3
"""Looks for slow scripts at random: search.py PROGRAM SECONDS [SEED].

PROGRAM is a macheap. One of the hostile zones and files below is made, and then one to eight random calls on it are repeated, some hundred
times, at times with answers of the grow-zone procedure. What the later ones of these lines take is reckoned up to a script of 65,536
lines; where that is more than two seconds, the whole script is run, and where it does take so long, it is shown with its seconds of
processor time and the bytes that it printed. A line may take long for what it prints, writes to a file or moves: so each that is shown is
to be looked at. It ends after so many seconds.
"""
import os
import random
import sys
import tempfile
import time

from hostile import ALL_TYPES, ALMOST, APART, FULL, LARGE, NAMED, ONE_EACH, SHARED, SOME_TYPES, TYPES, UNEVEN, WEIGHTY, added_to, all_loaded, cut, named, run, small_gaps

LIMIT = 2.0
# the calls are repeated so often first, and then so often more; less often where they write files
FIRST = 300
MORE = 900
LAST = 65536


class State:
    """A zone and files: the forks, the lines that make it, names of handles and pointers in it, and types and ids in its files."""

    def __init__(self, name, forks, lines, blocks, pointers=(), kinds=("TEXT",), ids=(0, 1, 100)):
        self.name, self.forks, self.lines = name, forks, lines
        self.blocks, self.pointers = list(blocks), list(pointers) or ["$00100000"]
        self.kinds, self.ids = kinds, ids


def spread(count, prefix="h"):
    """Some of so many names: the first, the last and some between."""
    return [f"{prefix}{it:X}" for it in sorted({0, 1, 2, count // 3, count // 2, count // 2 + 1, count - 2, count - 1})]


def holes(count, size):
    """Every second of so many blocks is free."""
    return named(count, size) + [f"DisposeHandle h{it:X}" for it in range(1, count, 2)]


def marked(count, size, call, step):
    return named(count, size) + [f"{call} h{it:X}" for it in range(0, count, step)]


EVEN = [f"h{it:X}" for it in (0, 2, 4, 4000, 4002, 9996, 9998)]
LENT = ["p=NewPtr 4", "Lend p"] * 7

STATES = [
    State("20,000 blocks", [], named(20000, 8), spread(20000)),
    State("20,000 blocks, master blocks first", [], ["MoreMasters"] * 313 + named(20000, 8), spread(20000)),
    State("32,000 blocks of no bytes", [], named(32000, 0), spread(32000)),
    State("20,000 blocks, each second free", [], holes(20000, 8), EVEN),
    State("16,000 purgeable blocks", [], marked(16000, 8, "HPurge", 1), spread(16000)),
    State("16,000 blocks, each third purgeable", [], marked(16000, 8, "HPurge", 3), spread(16000)),
    State("16,000 blocks, each third locked", [], marked(16000, 8, "HLock", 3), spread(16000)),
    State("16,000 blocks, each 40th locked", [], marked(16000, 8, "HLock", 40), spread(16000)),
    State("16,000 empty handles", [], named(16000, 0) + [f"EmptyHandle h{it:X}" for it in range(16000)], spread(16000)),
    State("10,000 small gaps between pointers", [], small_gaps(10000) + ["h=NewHandle 8", "g=NewHandle 40", "p=NewPtr 8"], ["h", "g"], ["p"]),
    State("40 large blocks", [], named(40, 20000), spread(40)),
    State("7 blocks are lent", [], named(10000, 8) + LENT, spread(10000), ["p"]),
    State("8,192 references to one datum, in eight files", [SHARED] * 8, [f"OpenResFile {it}" for it in range(2, 9)] + ["SetResLoad 0"] + named(100, 8), spread(100), ids=(-4096, 0, 4095, 5000)),
    State("5,450 resources with handles", [WEIGHTY], all_loaded("", []) + ["g=NewHandle 8", "i=GetResource 'TEXT' 7"], ["h", "g", "i"], ids=(0, 1, 2000, 5449)),
    State("5,450 changed resources", [WEIGHTY], all_loaded("\nChangedResource h", []) + ["g=NewHandle 8", "i=GetResource 'TEXT' 7"], ["h", "g", "i"], ids=(0, 1, 2000, 5449)),
    State("5,450 resources, of which some are lent", [WEIGHTY], all_loaded("", LENT + ["Lend h"]) + ["g=NewHandle 8", "i=GetResource 'TEXT' 7"], ["h", "g", "i"], ["p"], ids=(0, 1, 2000, 5449)),
    State("5,457 resources that were added", [LARGE], added_to([]), spread(5457), ids=(0, 1, 2, 2000, 5457)),
    State("8,191 types", [ALL_TYPES], ["SetResLoad 0", "h=GetResource '0000' 1", "g=GetResource '1ffe' 1"], ["h", "g"], kinds=("0000", "1000", "1ffe", "ZZZZ"), ids=(1, 2)),
    State("3,270 types and those of another file", [SOME_TYPES, ALL_TYPES], ["SetResLoad 0", "OpenResFile 2", "h=GetResource '0000' 1", "g=NewHandle 4"], ["h", "g"], kinds=("0000", "0100", "0cc5", "ZZZZ"), ids=(1, 2)),
    State("65,000 types without resources", [TYPES], ["h=NewHandle 8"], ["h"]),
    State("names of 65,536 bytes", [NAMED], ["SetResLoad 0", "h=GetResource 'TEXT' 3", "g=GetResource 'TEXT' 300", "i=NewHandle 8"], ["h", "g", "i"], ids=(3, 300, 5449, 5450)),
    State("5,457 resources", [ALMOST, FULL], ["h=NewHandle 8", "OpenResFile 2", "UseResFile 1", "g=GetResource 'TEXT' 3"], ["h", "g"], ids=(3, 300, 5456, 5457)),
    State("3,000 types of one resource", [ONE_EACH, UNEVEN], ["h=NewHandle 8", "g=GetResource '2999' 1", "OpenResFile 2", "UseResFile 1"], ["h", "g"], kinds=("0000", "2999", "1500", "TEXT"), ids=(1, 2)),
    State("5,458 resources that stand apart", [APART, WEIGHTY], ["OpenResFile 2", "h=GetResource 'TEXT' 3", "g=NewHandle 8"], ["h", "g"], ids=(0, 3, 5457)),
]

SIZES = (0, 1, 8, 12, 16, 24, 40, 100, 500, 4000, 32764, 32768, 60000, 300000, 700000, 900000, 2000000)
OF_HANDLE = "DisposeHandle GetHandleSize HLock HUnlock HPurge HNoPurge HSetRBit HClrRBit HGetState EmptyHandle MoveHHi HLockHi HandToHand Deref Lend Return HomeResFile LoadResource ReleaseResource DetachResource RemoveResource ChangedResource WriteResource GetResAttrs GetResInfo SizeResource".split()
OF_HANDLE_AND_SIZE = "SetHandleSize ReallocateHandle".split()
OF_SIZE = "NewHandle NewPtr CompactMem PurgeMem ReserveMem".split()
PLAIN = "NewEmptyHandle MaxMem MoreMasters MaxApplZone FreeMem MaxBlock PurgeSpace MemError CurResFile CountTypes ResError UpdateResFile CloseResFile".split()


def call(state, rng):
    """A random call on what the state has."""
    block, other, pointer = rng.choice(state.blocks + ["x"]), rng.choice(state.blocks), rng.choice(state.pointers + ["y"])
    size, kind, number = rng.choice(SIZES), rng.choice(state.kinds), rng.choice(state.ids)
    pick = rng.randrange(9)
    if pick < 3:
        return f"{rng.choice(OF_HANDLE)} {block}"
    if pick == 3:
        return f"{rng.choice(OF_HANDLE_AND_SIZE)} {block} {size}"
    if pick == 4:
        return rng.choice(["x=", "x=", ""]) + f"NewHandle {size}" if rng.random() < 0.4 else f"{rng.choice(OF_SIZE)} {size}"
    if pick == 5:
        return rng.choice(PLAIN)
    if pick == 6:
        return rng.choice([f"y=NewPtr {size}", f"DisposePtr {pointer}", f"SetPtrSize {pointer} {size}", f"PtrToHand {pointer} 4", f"PtrAndHand {pointer} {block} 4", f"HandAndHand {other} {block}", f"BlockMove {block} 0 {other} 0 4", f"RecoverHandle {pointer}", "gz 1", f"gz 1 DisposeHandle {block}"])
    if pick == 7:
        return rng.choice([f"GetResource '{kind}' {number}", f"Get1Resource '{kind}' {number}", f"GetIndResource '{kind}' {abs(number) + 1}", f"UniqueID '{kind}'", f"CountResources '{kind}'", f"GetIndType {abs(number) + 1}"])
    return rng.choice([f"AddResource {block} '{kind}' {number}", f"AddResource {block} '{kind}' {number} \"name\"", f"SetResAttrs {block} {rng.choice((0, 8, 32))}", f"SetResLoad {rng.randrange(2)}", f"UseResFile {rng.randrange(1, 9)}", f"OpenResFile {rng.randrange(1, 9)}", f"CloseResFile {rng.randrange(1, 9)}", f"UpdateResFile {rng.randrange(1, 9)}", f"x=GetResource '{kind}' {number}"])


ANSWERS = "DisposeHandle EmptyHandle EmptyHandle".split()


def answered(state, rng):
    """A request that fails, before it answers of up to eight calls each."""
    lines = []
    for _ in range(rng.choice((1, 1, 2, 4))):
        lines.append("gz 1 " + ";".join(f"{rng.choice(ANSWERS)} {rng.choice(state.blocks)}" for _ in range(rng.choice((1, 4, 8, 8)))))
    return lines + ["NewHandle 900000"]


def calls_on(state, rng):
    """What is repeated: random calls, at times with answers among them."""
    calls = [call(state, rng) for _ in range(rng.choice((1, 1, 2, 2, 3, 4, 8)))]
    return answered(state, rng) + calls if rng.random() < 0.2 else calls


def seconds_of(program, folder, state, lines):
    script = cut("\n".join(lines).split("\n"))
    status, used, _most, size, begin = run(program, folder, state.forks, script)
    return used.ru_utime + used.ru_stime, size, status, begin


def tried(program, folder, state, calls):
    """Tries calls: what is said of them, if they are slow."""
    setup = ["x=NewHandle 8", "y=NewPtr 8"] + state.lines
    few = 10 if any("ResFile" in it or "WriteResource" in it for it in calls) else 1
    first, more = FIRST // few, MORE // few
    one = seconds_of(program, folder, state, setup + (calls * first)[:first])[0]
    two = seconds_of(program, folder, state, setup + (calls * (first + more))[: first + more])[0]
    each = (two - one) / more
    if one + each * (LAST - len(setup)) <= LIMIT:
        return None
    took, size, status, begin = seconds_of(program, folder, state, setup + (calls * LAST)[:LAST])
    if took <= LIMIT and status == 0:
        return None
    ended = "" if status == 0 else f"  ENDED WITH {status} {begin!r}"
    return f"{took:7.2f} s {size:10} bytes printed  {state.name}: {'; '.join(calls)}{ended}"


def main(program, seconds, seed):
    rng = random.Random(seed)
    count = 0
    end = time.monotonic() + seconds
    with tempfile.TemporaryDirectory() as folder:
        while time.monotonic() < end:
            state = rng.choice(STATES)
            calls = calls_on(state, rng)
            told = tried(program, folder, state, calls)
            count += 1
            if told:
                print(told, flush=True)
    print(f"{count} tried")


if __name__ == "__main__":
    if len(sys.argv) not in (3, 4) or not os.access(sys.argv[1], os.X_OK):
        sys.exit(__doc__)
    main(os.path.realpath(sys.argv[1]), float(sys.argv[2]), int(sys.argv[3]) if len(sys.argv) == 4 else 1)
