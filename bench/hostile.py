#!/usr/bin/env python3
"""Times the worst scripts and resource files that we could think of: hostile.py PROGRAM [WORD].

PROGRAM is a macheap, as `rt run` in crates/macheap builds it. Each script has as many lines as a script may have, or bytes, and runs over the
largest zone. What is shown of each: seconds of processor time, of those the seconds in the system (reading, writing, syncing), the most
memory in MB, and the bytes that were printed. With WORD only those run whose name has it. A run ends after 120 seconds.
"""
import os
import resource
import struct
import subprocess
import sys
import tempfile
import time

ZONE = 1048576
LINES = 65536
BYTES = 1048576


def cut(lines):
    """The script of these lines, as far as a script may go."""
    text = "\n".join(lines[:LINES])
    return text[: text.rindex("\n", 0, BYTES)] if len(text) > BYTES else text


def handles(count, size):
    return [f"NewHandle {size}"] * count


def named(count, size, prefix="h"):
    return [f"{prefix}{it:X}=NewHandle {size}" for it in range(count)]


def fork_of(rows, data):
    """A fork with these rows (type, id, name or None, place of the datum), those of a type together, over these data."""
    kinds = {}
    for kind, number, name, place in rows:
        kinds.setdefault(kind, []).append((number, name, place))
    references = names = entries = b""
    at = 2 + 8 * len(kinds)
    for kind, those in kinds.items():
        entries += struct.pack(">4s2H", kind, (len(those) - 1) & 0xFFFF, at + len(references))
        for number, name, place in those:
            references += struct.pack(">hH", number, 0xFFFF if name is None else len(names)) + place.to_bytes(4, "big") + bytes(4)
            if name is not None:
                names += bytes([len(name)]) + name
    names_at = min(28 + at + len(references), 65535)
    the_map = bytes(24) + struct.pack(">3H", 28, names_at, (len(kinds) - 1) & 0xFFFF) + entries + references + names
    header = struct.pack(">4I", 256, 256 + len(data), len(data), len(the_map))
    return header + bytes(240) + data + the_map


def empty_types(count):
    """A fork of so many types without references: the count of each is $FFFF, which stands for none."""
    entries = b"".join(struct.pack(">I2H", it, 0xFFFF, 0) for it in range(count))
    the_map = bytes(24) + struct.pack(">3H", 28, min(30 + len(entries), 65535), count - 1) + entries
    header = struct.pack(">4I", 256, 256, 0, len(the_map))
    return header + bytes(240) + the_map


def shared_types(count):
    """A fork of so many types, whose only resource is the same reference."""
    at = 2 + 8 * count
    entries = b"".join(struct.pack(">4s2H", b"%04x" % it, 0, at) for it in range(count))
    the_map = bytes(24) + struct.pack(">3H", 28, min(28 + at + 12, 65535), count - 1) + entries + struct.pack(">hH", 1, 0xFFFF) + bytes(8)
    return struct.pack(">4I", 256, 260, 4, len(the_map)) + bytes(244) + the_map


def one_name(count):
    """A fork of so many resources, all of which have the name that is first."""
    the_fork = bytearray(fork_of([(b"TEXT", it, b"n" * 255 if it == 0 else None, 0) for it in range(count)], bytes(4)))
    for it in range(count):
        at = 256 + 4 + 28 + 10 + 12 * it + 2
        the_fork[at : at + 2] = bytes(2)
    return bytes(the_fork)


def names_within_names(count):
    """A fork of so many resources with names of 255 bytes, each of which begins a byte after the one before."""
    the_fork = bytearray(fork_of([(b"TEXT", it, None, 0) for it in range(count)], bytes(4)) + b"\xff" * (count + 255))
    for it in range(count):
        at = 256 + 4 + 28 + 10 + 12 * it + 2
        the_fork[at : at + 2] = struct.pack(">H", it)
    the_fork[12:16] = struct.pack(">I", len(the_fork) - 260)
    return bytes(the_fork)


SHARED = fork_of([(b"TEXT", it, None, 0) for it in range(-4096, 4096)], struct.pack(">I", 496) + bytes(496))
WIDE = fork_of([(b"TEXT", it, None, 1004 * it) for it in range(4000)], b"".join(struct.pack(">I", 1000) + bytes(1000) for _ in range(4000)))
TYPES = empty_types(65000)
# the last of its 8,192 data lies outside, which shows when all others have been looked at
LATE = fork_of([(b"TEXT", it, None, 0) for it in range(8191)] + [(b"TEXT", 8191, None, 1000)], struct.pack(">I", 496) + bytes(496))
FULL = fork_of([(b"TEXT", it, None, 0) for it in range(5458)], bytes(4))
ALMOST = fork_of([(b"TEXT", it, None, 0) for it in range(5457)], bytes(4))
APART = fork_of([(b"TEXT", it, None, 4 * it) for it in range(5458)], bytes(4 * 5458))
# the first 4,000 have no bytes, and the others refer to the same
UNEVEN = fork_of([(b"TEXT", it, None, 0 if it < 4000 else 4) for it in range(5450)], bytes(4) + struct.pack(">I", 2800) + bytes(2800))
# its 5,400 resources have one name of 255 bytes
LONG_NAMES = one_name(5400)
OVERLAPPING = names_within_names(5400)
ONE_BYTE_EACH = fork_of([(b"TEXT", it, None, 5 * it) for it in range(5458)], struct.pack(">IB", 1, 0) * 5458)
# as many types as there may be, which share one reference
ALL_TYPES = shared_types(8191)
SOME_TYPES = shared_types(3270)
# their data take almost as many bytes as a fork may have, though they are there once
WEIGHTY = fork_of([(b"TEXT", it, None, 0) for it in range(5450)], struct.pack(">I", 760) + bytes(760))
ONE_EACH = fork_of([(b"%04d" % it, 1, None, 0) for it in range(3000)], bytes(4))
# with 5,457 resources of eight bytes beside it the fork has one byte more than a fork may have
LARGE = fork_of([(b"TEXT", 0, None, 0)], struct.pack(">I", 4063027) + bytes(4063027))
# its names take more bytes than the offset of a name may be, but the last one begins where it may
NAMED = fork_of([(b"TEXT", it, b"n" * 255 if it < 256 else None, 0) for it in range(5450)], struct.pack(">I", 744) + bytes(744))


def purged_each_time():
    """All handles may be purged, and each request purges all of them and fails; then one is filled again."""
    lines = named(2000, 480)
    lines += [f"HPurge h{it:X}" for it in range(2000)]
    for _ in range(40):
        lines += ["NewHandle 900000"] + [f"ReallocateHandle h{it:X} 480" for it in range(2000)]
    return lines


def purged_by_turns():
    lines = named(20000, 8) + [f"HPurge h{it:X}" for it in range(20000)]
    return lines + ["PurgeMem 2000000", "MaxMem", "NewHandle 600000"] * 9000


def slides(flags):
    """The lowest block becomes smaller, and all others move down; then it grows, and they move up. Some may be purged."""
    lines = ["a=NewHandle 400"] + named(2000, 492) + flags
    return lines + ["SetHandleSize a 8", "CompactMem 1000000", "SetHandleSize a 400"] * LINES


def small_gaps(count):
    """So many gaps of 16 bytes between blocks that can't move."""
    return [line for it in range(count) for line in ("NewPtr 8", f"q{it:X}=NewPtr 8")] + [f"DisposePtr q{it:X}" for it in range(count)]


def fixed_between():
    """Blocks that can't move are between small gaps, and no gap has room."""
    return small_gaps(7000) + ["NewHandle 900000"] * LINES


def gaps_with_a_handle(count):
    """So many gaps with a handle and a free block above it, each below a locked handle. MoveHHi of the handle puts its gap out of order."""
    lines = [line for it in range(count) for line in (f"h{it:X}=NewHandle 40", f"q{it:X}=NewHandle 40", "k=NewHandle 40", "HLock k")]
    return lines + [f"DisposeHandle q{it:X}" for it in range(count)]


def written():
    """All that is kept beside a zone is written once: a handle at its high end has a length, and large free blocks were in all of it."""
    low = ["p=NewPtr 1000000", "MoreMasters", "a=NewHandle 8", "DisposePtr p"]
    low += [line for it in range(245) for line in (f"q{it:X}=NewPtr 2000", f"r{it:X}=NewPtr 2000")]
    return low + [f"DisposePtr {it}{at:X}" for it in "rq" for at in range(245)]


def all_kept(lines, last=()):
    """As many lines as a script may have, where all is written that is kept beside a zone, and others after them."""
    front, room = written(), BYTES - 1
    room -= sum(len(line) + 1 for line in (*front, *last))
    count = min(LINES - len(front) - len(last), len(lines) * room // (sum(map(len, lines)) + len(lines)))
    return front + (lines * count)[:count] + list(last)


# a block of 1 MB, all of which is shown at once
SHOWN = ["b=NewHandle 1000000", "Peek b 0 1000000"]


def above_gaps(count):
    """A block that can't move comes and goes above gaps that are too small for it."""
    return small_gaps(count) + ["a=NewPtr 100", "DisposePtr a"] * LINES


def two_halves(lines, request):
    """20,000 blocks in two gaps of 300,000 free bytes or more, in which no request for 400,000 bytes fits though as many are free."""
    low = ["MoreMasters"] * 313 + ["h=NewHandle 8"] + handles(10000, 8) + ["s=NewHandle 300000", "k=NewHandle 8", "HLock k"]
    return low + handles(9990, 8) + ["DisposeHandle s"] + lines + request * LINES


def below_others(lines, request):
    """The lowest of 20,000 handles, with which something was done, and a request at each line."""
    return ["h=NewHandle 8"] + lines + handles(20000, 8) + request * LINES


def above_others(request):
    """The lowest and the highest of 20,002 handles, above which all other bytes are free, and requests."""
    return ["MoreMasters"] * 313 + ["g=NewHandle 8"] + handles(20000, 8) + ["h=NewHandle 8"] + request * LINES


def below_free_blocks(lines, request):
    """10,000 free blocks in the gap of the lowest handle, and a request for more bytes than its gap has, though as many are free."""
    low = ["MoreMasters"] * 313 + ["h=NewHandle 8"] + [line for it in range(10000) for line in ("NewHandle 8", f"q{it:X}=NewHandle 8")] + ["s=NewHandle 300000", "k=NewHandle 8", "HLock k", "DisposeHandle s"]
    return low + [f"DisposeHandle q{it:X}" for it in range(10000)] + lines + request * LINES


def locked_by_turns(request):
    """Requests over a gap with 10,000 free blocks, in whose middle a handle is: where it is locked it cuts the gap in two."""
    lines = [line for it in range(10000) for line in ("h=NewHandle 8" if it == 5000 else "NewHandle 8", f"q{it:X}=NewHandle 8")]
    lines += [f"DisposeHandle q{it:X}" for it in range(10000)]
    return lines + request * LINES


def answers():
    """Each request asks 16 times, and each answer disposes of eight handles."""
    lines, number = named(16000, 8), 0
    while len("\n".join(lines)) < BYTES - 3500:
        for _ in range(16):
            lines.append("gz 1 " + ";".join(f"DisposeHandle h{it % 16000:X}" for it in range(number, number + 8)))
            number += 8
        lines.append("NewHandle 900000")
    return lines


def few_answers(request):
    return ["h=NewHandle 8"] + handles(16000, 8) + (["gz 1"] * 16 + [request]) * LINES


def everything_kept():
    """Eight files are open, answers are kept for later, and the last line writes 4 MB."""
    lines = ["h=GetResource 'TEXT' 3999", "ChangedResource h"] + [f"OpenResFile {it}" for it in range(2, 9)]
    return lines + ["gz 1"] * (LINES - len(lines) - 1) + ["UpdateResFile 1"]


def added_with_names(files):
    """As many resources with names as a script has room for, which are added to so many files."""
    lines = [f"OpenResFile {it}" for it in range(2, files + 1)]
    for number in range(1, files + 1):
        lines += [f"UseResFile {number}"] + [line for it in range(5457) for line in ("h=NewHandle 0", f"AddResource h 'TEXT' {it} \"n\"")]
    return lines


def all_loaded(change, lines):
    """All resources of a file have handles, and were changed or not; the last is lent, and seven pointers."""
    lines = ["SetResLoad 0"] + [f"h=GetIndResource 'TEXT' {it + 1}" + change for it in range(5449)] + ["SetResLoad 1", "h=GetResource 'TEXT' 5449" + change, "HLock h"] + lines
    return "\n".join(lines).split("\n")


def added_to(lines):
    """5,457 resources that are added to a file, in an order by which handles of different master blocks are side by side."""
    return named(5457, 8) + [f"AddResource h{it * 2503 % 5457:X} 'TEXT' {it + 1}" for it in range(5457)] + lines


LOANS = ["p=NewPtr 4", "Lend p"] * 7 + ["Lend h"]
TOO_BIG = ["h=GetResource 'TEXT' 5", "SetHandleSize h 500000", "ChangedResource h"]

# name, the forks and the script
RUNS = [
    ("20,000 blocks, and requests that fail", [], handles(20000, 8) + ["NewHandle 900000"] * LINES),
    ("20,000 blocks in two gaps, and requests that fail", [], two_halves([], ["NewHandle 400000"])),
    ("20,000 blocks in two gaps, and pointers that fail", [], two_halves([], ["NewPtr 400000"])),
    ("20,000 blocks in two gaps, one purgeable and locked", [], two_halves(["HPurge h", "HLock h"], ["NewHandle 400000"])),
    ("20,000 blocks in two gaps, a purgeable one is to grow", [], two_halves(["HPurge h"], ["SetHandleSize h 400000"])),
    ("20,000 blocks in two gaps, a purgeable one is to be reallocated", [], two_halves(["HPurge h"], ["ReallocateHandle h 400000"])),
    ("20,000 blocks, and holes that don't fit together", [], named(18000, 8) + [f"HLock h{it:X}" for it in range(0, 18000, 2)] + [f"DisposeHandle h{it:X}" for it in range(1, 18000, 2)] + ["NewHandle 900000"] * LINES),
    ("7,000 small gaps between pointers", [], fixed_between()),
    ("all handles purged, again and again", [], purged_each_time()),
    ("20,000 purgeable handles, PurgeMem and MaxMem", [], purged_by_turns()),
    ("1 MB that moves at two lines of three", [], slides([])),
    ("1 MB that moves at two lines of three, and every tenth block may be purged", [], slides([f"HPurge h{it:X}" for it in range(0, 2000, 10)])),
    ("7,000 small gaps, and a pointer above them", [], above_gaps(7000)),
    ("10,000 small gaps, and a pointer above them", [], above_gaps(10000)),
    ("a locked purgeable handle among 20,000", [], below_others(["HPurge h", "HLock h"], ["NewHandle 900000"])),
    ("the lowest handle, purgeable, is to grow", [], below_others(["HPurge h"], ["SetHandleSize h 900000"])),
    ("the lowest handle is to grow", [], below_others([], ["SetHandleSize h 900000"])),
    ("a handle among 10,000 free blocks is to grow", [], below_free_blocks([], ["SetHandleSize h 600000"])),
    ("a handle among 10,000 free blocks is to be reallocated", [], below_free_blocks([], ["ReallocateHandle h 600000"])),
    ("a locked handle below 10,000 free blocks is to grow", [], below_free_blocks(["HLock h"], ["SetHandleSize h 600000"])),
    ("a locked handle is to grow, and one below it is purgeable", [], ["MoreMasters"] * 313 + ["g=NewHandle 8", "HPurge g"] + below_others(["HLock h"], ["SetHandleSize h 900000"])),
    ("a locked handle is to grow, one below it is purgeable, and flags are set", [], ["MoreMasters"] * 313 + ["g=NewHandle 8", "HPurge g"] + below_others(["HLock h"], ["HNoPurge h", "SetHandleSize h 900000"])),
    ("two locked handles are to grow, and one below them is purgeable", [], ["MoreMasters"] * 313 + ["g=NewHandle 8", "HPurge g", "h=NewHandle 8", "HLock h"] + handles(10000, 8) + ["i=NewHandle 8", "HLock i"] + handles(10000, 8) + ["SetHandleSize i 900000", "SetHandleSize h 900000"] * LINES),
    ("the lowest handle is to be reallocated", [], below_others([], ["ReallocateHandle h 900000"])),
    ("bytes are to be added to the lowest handle", [], below_others(["b=NewHandle 500000"], ["HandAndHand b h"])),
    ("bytes of a purgeable handle are to be added to another", [], below_others(["b=NewHandle 500000", "HPurge b", "HPurge h"], ["HandAndHand b h"])),
    ("the lowest handle, purged and filled again", [], below_others([], ["HPurge h", "NewHandle 900000", "ReallocateHandle h 8"])),
    ("the lowest handle, purged and filled again among 10,000 free blocks", [], below_free_blocks([], ["HPurge h", "NewHandle 600000", "ReallocateHandle h 8"])),
    ("the lowest handle, purged by PurgeMem and filled again", [], below_others([], ["HPurge h", "PurgeMem 2000000", "ReallocateHandle h 8"])),
    ("the highest handle, purged and filled again", [], above_others(["HPurge h", "NewHandle 900000", "ReallocateHandle h 8"])),
    ("the lowest and the highest handle, purged and filled again", [], above_others(["HPurge h", "HPurge g", "NewHandle 900000", "ReallocateHandle g 8", "ReallocateHandle h 8"])),
    ("a handle, purged for another that is to grow, and filled again", [], above_others(["HPurge g", "SetHandleSize h 900000", "ReallocateHandle g 8"])),
    ("the highest handle makes way and comes back", [], above_others(["HPurge h", "x=NewHandle 645604", "DisposeHandle x", "ReallocateHandle h 8"])),
    ("HLockHi among 20,000 blocks", [], below_others([], ["HLockHi h", "HUnlock h"])),
    ("10,000 free blocks in a gap that a lock cuts in two", [], locked_by_turns(["HLock h", "NewHandle 760000", "HUnlock h"])),
    ("10,000 free blocks in a gap that a lock cuts in two, and pointers", [], locked_by_turns(["HLock h", "NewPtr 760000", "HUnlock h"])),
    ("10,000 free blocks in a gap that a lock cuts in two, and smaller requests", [], locked_by_turns(["HLock h", "NewPtr 32764", "HUnlock h"])),
    ("MaxBlock and PurgeSpace among 20,000 blocks", [], handles(20000, 8) + ["MaxBlock", "PurgeSpace"] * LINES),
    ("MaxBlock among 20,000 blocks, free ones at both ends", [], ["h=NewHandle 8"] + handles(20000, 8) + ["DisposeHandle h"] + ["MaxBlock"] * LINES),
    ("PurgeSpace among 20,000 blocks, the highest purgeable", [], handles(20000, 8) + ["h=NewHandle 8", "HPurge h"] + ["PurgeSpace"] * LINES),
    ("MaxBlock and PurgeSpace among 20,000 blocks, one purgeable, and a lock that comes and goes", [], below_others(["HPurge h"], ["HLock h", "MaxBlock", "PurgeSpace", "HUnlock h", "PurgeSpace", "MaxBlock"])),
    ("PurgeSpace among 32,000 blocks of no bytes, and a flag that is set", [], ["h=NewHandle 8"] + handles(32000, 0) + ["HPurge h", "PurgeSpace"] * LINES),
    ("MaxBlock among 10,000 free blocks, and a lock that comes and goes", [], locked_by_turns(["HLock h", "MaxBlock", "HUnlock h", "MaxBlock"])),
    ("PurgeSpace among 10,000 free blocks, and a flag that is set", [], locked_by_turns(["HPurge h", "PurgeSpace"])),
    ("PurgeSpace among 32,000 blocks of no bytes, and a block that comes and goes", [], ["h=NewHandle 8", "HPurge h"] + handles(32000, 0) + ["x=NewHandle 0", "PurgeSpace", "DisposeHandle x", "PurgeSpace"] * LINES),
    ("MaxBlock among 10,000 free blocks, and a block that comes and goes", [], locked_by_turns(["x=NewHandle 8", "MaxBlock", "DisposeHandle x", "MaxBlock"])),
    ("PurgeSpace among 10,000 free blocks, and a block that moves", [], below_free_blocks(["HPurge h"], ["ReallocateHandle h 40", "PurgeSpace", "ReallocateHandle h 8", "PurgeSpace"])),
    ("CompactMem among 20,000 blocks", [], handles(20000, 8) + ["CompactMem 1000000"] * LINES),
    ("MaxMem among 10,000 small gaps, and a handle that MoveHHi moves", [], small_gaps(10000) + ["h=NewHandle 40"] + ["MoveHHi h", "MaxMem"] * LINES),
    ("MaxMem among 10,000 small gaps, and 256 handles that MoveHHi moves", [], small_gaps(10000) + gaps_with_a_handle(256) + ([f"MoveHHi h{it:X}" for it in range(256)] + ["MaxMem"]) * LINES),
    ("MaxMem among 10,000 small gaps, and 257 handles that MoveHHi moves", [], small_gaps(10000) + gaps_with_a_handle(257) + ([f"MoveHHi h{it:X}" for it in range(257)] + ["MaxMem"]) * LINES),
    ("MaxMem among 27,000 pointers, and a handle that MoveHHi moves", [], ["NewPtr 0"] * 27000 + ["h=NewHandle 40"] + ["MoveHHi h", "MaxMem"] * LINES),
    ("MaxMem among 27,000 pointers, and 257 handles that MoveHHi moves", [], ["NewPtr 0"] * 27000 + gaps_with_a_handle(257) + ([f"MoveHHi h{it:X}" for it in range(257)] + ["MaxMem"]) * LINES),
    ("MaxMem among 10,000 small gaps, and a handle that is emptied and filled again", [], small_gaps(10000) + gaps_with_a_handle(1) + ["q0=NewHandle 40"] + ["EmptyHandle h0", "MaxMem", "ReallocateHandle h0 40", "MaxMem"] * LINES),
    ("MaxMem among 5,000 gaps that get out of order in turn", [], gaps_with_a_handle(5000) + [line for it in range(5000) for line in (f"MoveHHi h{it:X}", "MaxMem")] * 8),
    ("CompactMem among 5,000 gaps, each of which is out of order", [], gaps_with_a_handle(5000) + ([f"MoveHHi h{it:X}" for it in range(5000)] + ["CompactMem 1000000"]) * 8),
    ("MaxMem among 10,000 small gaps", [], small_gaps(10000) + ["MaxMem"] * LINES),
    ("CompactMem among 16,000 blocks, each third locked", [], named(16000, 8) + [f"HLock h{it:X}" for it in range(0, 16000, 3)] + ["CompactMem 900000"] * LINES),
    ("RecoverHandle among 20,000 blocks", [], named(20000, 8) + ["a=Deref h4E1F"] + ["RecoverHandle a"] * LINES),
    ("a last handle that grows and shrinks", [], named(20000, 8) + ["SetHandleSize h1 300", "SetHandleSize h1 8"] * LINES),
    ("the first handle reallocated", [], named(20000, 8) + ["ReallocateHandle h1 300", "ReallocateHandle h1 8"] * LINES),
    ("MoveHHi of two handles by turns", [], ["a=NewHandle 8", "b=NewHandle 8"] + ["MoveHHi a", "MoveHHi b"] * LINES),
    ("MoveHHi and CompactMem by turns", [], ["a=NewHandle 8"] + ["MoveHHi a", "CompactMem 1048576"] * LINES),
    ("MoveHHi among 20,000 blocks", [], named(20000, 8) + [f"MoveHHi h{it:X}" for it in range(20000)] * 3),
    ("16 answers of eight calls at each request", [], answers()),
    ("16 answers without calls at each request", [], few_answers("NewHandle 900000")),
    ("16 answers, and the lowest handle is to grow", [], few_answers("SetHandleSize h 900000")),
    ("65,000 types without resources", [TYPES], ["CountTypes", "GetIndType 64999", "UniqueID 'TEXT'", "GetResource 'TEXT' 1"] * LINES),
    ("8,192 references to one datum, listed", [SHARED], ["SetResLoad 0"] + ["GetIndResource 'TEXT' 8192", "GetResource 'TEXT' 5000", "CountResources 'TEXT'", "CountTypes"] * LINES),
    ("8,192 references, ids looked for", [SHARED], ["UniqueID 'TEXT'"] * LINES),
    ("8,192 references, loaded and purged", [SHARED], [f"h=GetIndResource 'TEXT' {it % 8192 + 1}\nHPurge h" for it in range(32000)]),
    ("eight files of 8,192 resources", [SHARED] * 8, [f"OpenResFile {it}" for it in range(2, 9)] + ["GetResource 'TEXT' 5000"] * LINES),
    ("eight files of 8,192 resources, and a handle of none", [SHARED] * 8, [f"OpenResFile {it}" for it in range(2, 9)] + ["h=NewHandle 4"] + ["GetResInfo h"] * LINES),
    ("eight files of 8,192 resources, and handles that come and go", [SHARED] * 8, [f"OpenResFile {it}" for it in range(2, 9)] + ["h=NewHandle 4", "DisposeHandle h"] * LINES),
    # (each opening reads how many bytes each resource has; each closing and each update writes the whole file, and reads what it keeps of each: time by the lines)
    ("a fork of 8,192 resources that is refused at 200 lines", [b"", LATE], ["OpenResFile 2"] * 200),
    ("a fork of 5,458 resources that is opened and closed at 4,000 lines", [b"", APART], ["OpenResFile 2", "CloseResFile 2"] * 2000),
    ("updates of 5,458 resources of one byte at 200 lines", [ONE_BYTE_EACH], ["UpdateResFile"] * 200),
    ("3,000 types of one resource", [ONE_EACH], ["CountTypes", "GetIndType 3000", "GetResource '2999' 1", "CountResources '2999'"] * LINES),
    ("8,191 types, counted", [ALL_TYPES], ["CountTypes"] * LINES),
    ("8,191 types, the last one asked for", [ALL_TYPES], ["GetIndType 8191"] * LINES),
    ("8,191 types, the resource of the last one asked for", [ALL_TYPES], ["SetResLoad 0"] + ["GetIndResource '1ffe' 1"] * LINES),
    ("8,191 types, and a resource that is one too many", [ALL_TYPES], ["h=NewHandle 8"] + ["AddResource h 'ZZZZ' 1"] * LINES),
    ("a resource that is added to the first of 3,270 types and removed", [SOME_TYPES], ["h=NewHandle 8"] + ["AddResource h '0000' 1", "RemoveResource h"] * LINES),
    ("a resource that is added as the last of 3,271 types and removed", [SOME_TYPES], ["h=NewHandle 8"] + ["AddResource h 'ZZZZ' 1", "RemoveResource h"] * LINES),
    ("an update that is too big", [WEIGHTY], TOO_BIG + ["UpdateResFile"] * LINES),
    ("a file that can't be closed since it is too big", [WEIGHTY], TOO_BIG + ["CloseResFile"] * LINES),
    ("an update of one resource that is too big", [WEIGHTY], TOO_BIG + ["WriteResource h"] * LINES),
    ("an update that is too big, with names", [NAMED], TOO_BIG + ["UpdateResFile"] * LINES),
    ("an update that is too big, with a handle for each resource, of which the last is lent", [WEIGHTY], all_loaded("", LOANS) + TOO_BIG + ["UpdateResFile"] * LINES),
    # (the zone is asked for the bytes of each changed resource)
    ("an update that is too big by a byte, and 5,457 changed resources", [LARGE], added_to(["UpdateResFile"] * LINES)),
    ("an update that is too big by a byte, and 5,457 changed resources, one of which grows and shrinks", [LARGE], added_to(["SetHandleSize h0 9", "UpdateResFile", "SetHandleSize h0 8", "UpdateResFile"] * LINES)),
    ("a file that is too big to be closed, and 5,457 changed resources", [LARGE], added_to(["CloseResFile"] * LINES)),
    ("an update that is too big, and 4,000 changed resources", [UNEVEN], "\n".join(["SetResLoad 0"] + [f"h=GetIndResource 'TEXT' {it + 1}\nChangedResource h" for it in range(4000)] + ["SetResLoad 1", "h=GetResource 'TEXT' 5449"] + TOO_BIG[1:]).split("\n") + ["UpdateResFile"] * LINES),
    ("a file with 5,450 handles that can't be closed since the last is lent", [WEIGHTY], all_loaded("", LOANS) + ["CloseResFile"] * LINES),
    ("a file with 5,450 changed resources that can't be updated since the last is lent", [WEIGHTY], all_loaded("\nChangedResource h", LOANS) + ["UpdateResFile"] * LINES),
    ("updates of 4 MB", [WIDE], ["h=GetResource 'TEXT' 3999"] + ["ChangedResource h", "UpdateResFile"] * 20),
    ("resources added and removed", [b""], named(5458, 8) + [f"AddResource h{it:X} 'TEXT' {it}" for it in range(5458)] + [f"RemoveResource h{it:X}" for it in range(5458)] + [f"AddResource h{it:X} 'TEXT' {it}" for it in range(5458)] + ["DisposeHandle h%X" % it for it in range(5458)]),
    ("a resource that is one too many for its file", [FULL], ["h=NewHandle 8"] + ["AddResource h 'TEXT' 1"] * LINES),
    ("a resource that is added and removed among 5,457", [ALMOST], ["h=NewHandle 8"] + ["AddResource h 'TEXT' 1", "RemoveResource h"] * LINES),
    ("1 MB of zeros at each line", [], ["h=NewHandle 1000000"] + ["ReallocateHandle h 1000000"] * LINES),
    ("1 MB that is copied at each line", [], ["h=NewHandle 1000000"] + ["BlockMove h 0 h 8 999992"] * LINES),
    ("65,000 answers, eight files, and an update of 4 MB", [WIDE] + [SHARED] * 7, everything_kept()),
    ("65,536 answers", [], ["gz 1"] * LINES),
    ("8,000 answers of eight calls", [], ["gz 1 " + ";".join(["DisposePtr 1"] * 8)] * LINES),
    ("eight files of 5,400 resources of one name", [LONG_NAMES] * 8, [f"OpenResFile {it}" for it in range(2, 9)] + ["GetResource 'TEXT' 5000"] * LINES),
    ("eight files of 5,400 resources of one name, which is told", [LONG_NAMES] * 8, [f"OpenResFile {it}" for it in range(2, 9)] + ["h=GetResource 'TEXT' 5000"] + ["GetResInfo h"] * LINES),
    ("eight files of 5,400 resources, whose names begin in one another", [OVERLAPPING] * 8, [f"OpenResFile {it}" for it in range(2, 9)] + ["GetResource 'TEXT' 5000"] * LINES),
    ("resources with names that are added to five files", [b""] * 5, added_with_names(5)),
    # (no line of a script says anything after its 26th token)
    ("1 MB of marks in one line", [], ["=" * (BYTES - 1)]),
    ("answers of one call, and all written that is kept beside a zone", [], all_kept(["gz 1 DisposePtr a"])),
    ("answers of one call, all written, and 1 MB shown", [], all_kept(["gz 1 DisposePtr a"], SHOWN)),
    ("answers of no call, all written, and 1 MB shown", [], all_kept(["gz 1"], SHOWN)),
    ("calls of five operands, and all written that is kept beside a zone", [], all_kept(["BlockMove a 0 a 0 0"])),
    ("calls of five operands, all written, and 1 MB shown", [], all_kept(["BlockMove 0 0 0 0 0"], SHOWN)),
    ("calls with bytes, and all written that is kept beside a zone", [], all_kept(['Poke 0 0 $"00"'])),
    ("calls with bytes, all written, and 1 MB shown", [], all_kept(['Poke 0 0 "123"'], SHOWN)),
    ("calls with more bytes, all written, and 1 MB shown", [], all_kept(['Poke 0 0 $"' + "0" * 80 + '"'], SHOWN)),
    ("names, and all written that is kept beside a zone", [], written() + [f"n{it:X}=NewPtr 0" for it in range(LINES)]),
    ("names, all written, and 1 MB shown", [], written() + [f"n{it:X}=MaxMem" for it in range(LINES - len(written()) - 2)] + SHOWN),
    ("named pointers, all written, and a map of 62,000 blocks", [], written() + [f"n{it:X}=NewPtr 0" for it in range(LINES - len(written()) - 1)] + ["ZoneMap"]),
    ("1 MB that is lent and shown, and all written", [], all_kept(['Poke 0 0 "123"'], ["b=NewPtr 1000000", "Lend b", "LentPeek b 0 1000000"])),
    ("65,536 names", [], [f"v{it:X}=NewHandle 4" for it in range(LINES)]),
    ("bytes printed", [], ["h=NewHandle 100000"] + ["Peek h 0 4000"] * LINES),
]


def peak(pid):
    """The most memory that a process has had, in KB. (What the system counts of a child begins with the memory of its parent.)"""
    try:
        with open(f"/proc/{pid}/status") as file:
            return next((int(line.split()[1]) for line in file if line.startswith("VmHWM")), 0)
    except (FileNotFoundError, ProcessLookupError):
        return 0


def limited():
    resource.setrlimit(resource.RLIMIT_CPU, (120, 120))


def run(program, folder, forks, script):
    words = [program, "--zone", str(ZONE)]
    for it, data in enumerate(forks):
        path = os.path.join(folder, f"fork{it}")
        with open(path, "wb") as file:
            file.write(data)
        words += ["--fork", path]
    with tempfile.TemporaryFile() as given, tempfile.TemporaryFile() as output:
        given.write(script.encode())
        given.seek(0)
        child = subprocess.Popen(words, stdin=given, stdout=output, preexec_fn=limited)
        most, status = 0, None
        while status is None:
            most = max(most, peak(child.pid))
            time.sleep(0.001)
            pid, ended, used = os.wait4(child.pid, os.WNOHANG)
            status = ended if pid else None
        size = output.seek(0, 2)
        output.seek(0)
        begin = output.read(60)
    return status, used, most, size, begin


def main(program, word):
    with tempfile.TemporaryDirectory() as folder:
        for name, forks, lines in RUNS:
            if word not in name:
                continue
            script = cut("\n".join(lines).split("\n"))
            status, used, most, size, begin = run(program, folder, forks, script)
            told = "" if status == 0 else f"  ENDED WITH {status} {begin!r}"
            seconds = used.ru_utime + used.ru_stime
            count = script.count("\n")
            print(f"{seconds:7.2f} s {used.ru_stime:6.2f} system {most / 1024:6.1f} MB {size:10} bytes printed {count:6} lines  {name}{told}", flush=True)


if __name__ == "__main__":
    if len(sys.argv) not in (2, 3) or not os.access(sys.argv[1], os.X_OK):
        sys.exit(__doc__)
    main(os.path.realpath(sys.argv[1]), sys.argv[2] if len(sys.argv) == 3 else "")
