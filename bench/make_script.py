#!/usr/bin/env python3
"""Writes a script of so many lines: make_script.py KIND LINES.

A script has at most 1,048,576 bytes, so 65,536 lines have 16 bytes each at most. KIND is

  handles   NewHandle 0 and DisposeHandle in turn
  bytes     a Poke of one byte and a Peek of 100 bytes in turn
  pokes     a Poke of 100 bytes and a Peek of them in turn (for 16,384 lines at most)
  comments  seven comments and blank lines, and then a Peek of 4 bytes
  notes     comments and blank lines alone
  digits    Peeks of 4,000 zero bytes, which print as hexadecimal digits (in a zone of 8,192 bytes)
  plain     Peeks of 4,000 bytes that print as they are (in a zone of 8,192 bytes)
  hexes     Pokes of 100 bytes in hexadecimal digits (for 4,096 lines at most)
  sixty     60 live handles of all sizes up to 4,000 bytes: one after the other is disposed of and made anew with
            another size, then a Poke and a Peek of it (for 32,768 lines at most, in a zone of 262,144 bytes)

make_script.py names COUNT CALLS writes so many lines that assign a variable each, and then so many GetPtrSize of one of them at
random.

make_script.py pointers LIVE CALLS writes so many NewPtr 8, and then so many calls: DisposePtr of a pointer at a random place
and NewPtr 8 in turn.

These are for a zone of 1,048,576 bytes, and the last CALLS lines are what is to be timed:
  holes COUNT CALLS    so many free blocks of 16 bytes between pointers, and then NewPtr 100 and DisposePtr in turn
  behind COUNT CALLS   a pointer of COUNT bytes, and then NewPtr 8 and DisposePtr after it in turn
  freed COUNT CALLS    CALLS pointers after COUNT free bytes, of which each is disposed of, the last one first
  sizes COUNT CALLS    a handle of COUNT bytes gets half of them and all of them in turn
  inside COUNT CALLS   GetHandleSize of a number inside a pointer's COUNT bytes
  slid COUNT CALLS     so many handles nearly fill the zone, and their one gap slides up and down in turn
  gathered COUNT CALLS so many handles in one gap; then turns of two DisposeHandle and a NewHandle that needs both their blocks, so that
                       the gap is arranged (three lines in a turn)
  parted COUNT CALLS   so many handles, every sixth locked and every third of the others disposed of, and then a NewHandle for each gap
                       that needs both of its free blocks
  purged COUNT CALLS   so many purgeable handles, and then a NewHandle that needs the blocks of all but the last
  crowded COUNT CALLS  so many handles and pointers nearly fill the zone; then calls that keep it so: they make, dispose of, resize,
                       lock, unlock and mark as purgeable
  appended COUNT CALLS HandAndHand of so many bytes to a handle that has none, and SetHandleSize to 0 in turn
  copied COUNT CALLS   PtrToHand of so many bytes, and DisposeHandle in turn
"""
import random
import string
import sys

TURNS = {
    "handles": ([], ["h = NewHandle 0", "DisposeHandle h"]),
    "bytes": (["h = NewHandle 100"], ['Poke h 99 "x"', "Peek h 0 100"]),
    "pokes": (["h = NewHandle 100"], ['Poke h 0 "' + "x" * 100 + '"', "Peek h 0 100"]),
    "comments": (
        ["h = NewHandle 4"],
        ["# a comment", "", "   # and one", "\t", "# and another", "", "", "Peek h 0 4"],
    ),
    "notes": ([], ["# a comment", "", "   # and one", "\t"]),
    "digits": (["h = NewHandle 4000"], ["Peek h 0 4000"]),
    "plain": (["h = NewHandle 4000", 'Poke h 0 "' + "plain " * 666 + 'text"'], ["Peek h 0 4000"]),
    "hexes": (["h = NewHandle 100"], ['Poke h 0 $"' + "0a" * 100 + '"']),
}


def sixty(count):
    """So many lines that keep 60 handles."""
    lines = [f"h{i} = NewHandle {i * 68 % 4001}" for i in range(60)]
    turn = 0
    while len(lines) < count:
        name, size = f"h{turn * 7 % 60}", 1 + turn * 1237 % 4000
        lines += [f"DisposeHandle {name}", f"{name} = NewHandle {size}", f'Poke {name} {size - 1} "x"', f"Peek {name} 0 1"]
        turn += 1
    return lines[:count]


def name_of(number):
    """A name of three letters and digits at most."""
    letters = string.ascii_letters
    rest = letters + string.digits
    return letters[number % 52] + rest[number // 52 % 62] + rest[number // 52 // 62]


def pointers(live, calls):
    """So many live pointers, and then so many calls that dispose of one and make it anew."""
    random.seed(live)
    lines = [f"{name_of(i)} = NewPtr 8" for i in range(live)]
    for _ in range(calls // 2):
        name = name_of(random.randrange(live))
        lines += [f"DisposePtr {name}", f"{name} = NewPtr 8"]
    return lines


def names(count, calls):
    """So many variables, and then so many uses of one of them, which names no pointer."""
    random.seed(count)
    lines = ["z = NewEmptyHandle"] + [f"{name_of(i)} = GetPtrSize 1" for i in range(count)]
    return lines + [f"GetPtrSize {name_of(random.randrange(count))}" for _ in range(calls)]


def holes(count, calls):
    """So many holes between pointers, and then calls that find the free block after them all."""
    lines = [f"{name_of(i)} = NewPtr 8" for i in range(2 * count)] + [f"DisposePtr {name_of(2 * i)}" for i in range(count)]
    return lines + ["p = NewPtr 100", "DisposePtr p"] * (calls // 2)


def behind(count, calls):
    """Pointers after a large one."""
    return [f"b = NewPtr {count}"] + ["p = NewPtr 8", "DisposePtr p"] * (calls // 2)


def freed(count, calls):
    """Pointers disposed of after many free bytes."""
    made = [f"{name_of(i)} = NewPtr 8" for i in range(calls)]
    return [f"a_b = NewPtr {count}"] + made + ["DisposePtr a_b"] + [f"DisposePtr {name_of(i)}" for i in reversed(range(calls))]


def sizes(count, calls):
    """A handle whose size is changed."""
    return [f"h = NewHandle {count}"] + [f"SetHandleSize h {count // 2}", f"SetHandleSize h {count}"] * (calls // 2)


def inside(count, calls):
    """Numbers inside a block, which name nothing."""
    return [f"b = NewPtr {count}"] + [f"GetHandleSize ${0x100400 + 4 * (i % 1000) + count // 2:x}" for i in range(calls)]


ZONE, MASTER_BLOCK = 1_048_576 - 52, 264


def room_beside(handles):
    """What so many handles leave of the zone for blocks."""
    return ZONE - MASTER_BLOCK * (handles // 64 + 1)


def slid(count, calls):
    """One gap that slides up and down."""
    size = room_beside(count) // count // 4 * 4 - 8
    made = [f"{name_of(i)} = NewHandle {size - 20 * (i == 0)}" for i in range(count)]
    return made + ["ReserveMem 0", "CompactMem 8388608"] * (calls // 2)


def in_one_gap(count):
    """So many handles of 36 bytes, and one after them that leaves no free byte."""
    made = [f"{name_of(i)} = NewHandle 36" for i in range(count)]
    return made + [f"NewHandle {room_beside(count + 1) - 44 * count - 8}"]


def gathered(count, calls):
    """Blocks that are brought together for a larger one."""
    random.seed(count)
    lines, left = in_one_gap(count), list(range(count))
    random.shuffle(left)
    for _ in range(calls // 3):
        lines += [f"DisposeHandle {name_of(left.pop())}", f"DisposeHandle {name_of(left.pop())}", "NewHandle 80"]
    return lines


def parted(count, calls):
    """Small gaps, each with two holes."""
    lines = in_one_gap(count)
    lines += [f"HLock {name_of(i)}" for i in range(5, count, 6)] + [f"DisposeHandle {name_of(i)}" for i in range(0, count, 3)]
    return lines + ["NewHandle 80"] * calls


def purged(count, calls):
    """Many blocks that make way for one."""
    random.seed(count)
    made = [f"{name_of(i)} = NewHandle {random.randrange(8, 41)}" for i in range(count)]
    return made + [f"HPurge {name_of(i)}" for i in range(count)] + [f"NewHandle {room_beside(count + 1) - 120}"] * calls


def crowded(count, calls):
    """A zone that stays nearly full of blocks of all kinds."""
    random.seed(count)
    mean = ZONE // count - 16
    size = lambda: random.randrange(mean // 2, mean * 3 // 2)
    pointers = set(random.sample(range(count), count // 5))
    make = lambda i: f"{name_of(i)} = {'NewPtr' if i in pointers else 'NewHandle'} {size()}"
    lines, handles, gone = [make(i) for i in range(count)], [i for i in range(count) if i not in pointers], []
    for _ in range(calls):
        call = random.choice(["make", "make", "dispose", "dispose", "SetHandleSize", "HLock", "HUnlock", "HUnlock", "HPurge"])
        i = random.choice(handles if call[0] in "HS" else range(count))
        if call == "make" and gone:
            lines.append(make(gone.pop(random.randrange(len(gone)))))
        elif call in ("make", "dispose"):
            lines.append(f"{'DisposePtr' if i in pointers else 'DisposeHandle'} {name_of(i)}")
            gone.append(i)
        else:
            lines.append(f"{call} {name_of(i)}" + (f" {size()}" if call[0] == "S" else ""))
    return lines


def appended(count, calls):
    """Bytes that are appended to none."""
    return [f"a = NewHandle {count}", "b = NewHandle 0"] + ["HandAndHand a b", "SetHandleSize b 0"] * (calls // 2)


def copied(count, calls):
    """Copies of a pointer's bytes."""
    return [f"p = NewPtr {count}"] + [f"h = PtrToHand p {count}", "DisposeHandle h"] * (calls // 2)


TWO = {"pointers": pointers, "names": names, "holes": holes, "behind": behind, "freed": freed, "sizes": sizes, "inside": inside}
TWO |= {it.__name__: it for it in (slid, gathered, parted, purged, crowded, appended, copied)}


def main():
    kind, count = sys.argv[1], int(sys.argv[2])
    if kind == "sixty":
        lines = sixty(count)
    elif kind in TWO:
        lines = TWO[kind](count, int(sys.argv[3]))
    else:
        first, turn = TURNS[kind]
        lines = first + [turn[i % len(turn)] for i in range(count - len(first))]
    text = "".join(line + "\n" for line in lines)
    assert len(text) <= 1_048_576, "the script is too long"
    sys.stdout.write(text)


main()
