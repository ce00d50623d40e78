"""Checks what a macheap program prints and leaves on its resource files, on the rows below, on the calls of
tests/cases/refusals.txt and on the operands of tests/cases/operands.txt.

A row has the bytes of its files, a script whose lines are parted by ` / `, with the program's options before a colon where it has some, the
lines that are printed, where `..` stands for lines that aren't compared, and the bytes that the files have then. After them come files that
another program has locked, and files that have several names.
"""
import fcntl
import os
import random
import subprocess
import tempfile
import time

from checks.runs import FAULT, are_wanted, calls_of, lines_of, numbered, read, unescaped
from model.fork import MOST_BYTES
from model.toolbox import File, Row
from model.zone import shown

PROBES = "ZoneMap / CountResources 'TEXT' / CountTypes / GetResAttrs h / CurResFile"


def fork_of(data, rest):
    """The fork with this data, and after it the map that has this after its copy of the header."""
    data, rest = bytes.fromhex(data), bytes.fromhex(rest)
    header = b"".join(it.to_bytes(4, "big") for it in (256, 256 + len(data), len(data), 16 + len(rest)))
    return header + bytes(240) + data + header + rest


# forks of no resource, and of 'TEXT' 128 with the bytes "Hi", with a byte of zero, with none, and with a name
NONE = fork_of("", "00000000 0000 0000 001C 001E FFFF")
ONE = "00000000 0000 0000 001C 0032 0000 54455854 0000 000A 0080 FFFF 00 000000 00000000"
HI, ZERO, BARE = fork_of("00000002 4869", ONE), fork_of("00000001 00", ONE), fork_of("00000000", ONE)
NAMED = fork_of("00000002 4869", ONE.replace("FFFF", "0000") + "01 6E")
# the first of these with its map first
HI_MAP_FIRST = bytes.fromhex("00000132 00000100 00000006 00000032") + bytes(240) + HI[262:] + HI[256:262]
# "Hi" with 'TEXT' 5 after its resource, of three bytes of zero
HI_AND_ZEROS = fork_of(
    "00000002 4869 00000003 000000",
    "00000000 0000 0000 001C 003E 0000 54455854 0001 000A 0080 FFFF 00 000000 00000000 0005 FFFF 00 000006 00000000",
)
# two resources 'TEXT' 5 of a byte, "a" and "b" or zeros, and "a" and "xyz"
TWO = "00000000 0000 0000 001C 003E 0000 54455854 0001 000A 0005 FFFF 00 000000 00000000 0005 FFFF 00 000005 00000000"
AB, TWO_ZEROS = fork_of("00000001 61 00000001 62", TWO), fork_of("00000001 00 00000001 00", TWO)
A_XYZ = fork_of("00000001 61 00000003 78797A", TWO)


def many(count):
    """The fork of so many resources 'TEXT' without names whose bytes are one empty datum."""
    references = b"".join(bytes.fromhex("0005 FFFF 00 000000 00000000") for _ in range(count))
    the_map = bytes.fromhex("00000000 0000 0000 001C") + min(40 + 12 * count, 65535).to_bytes(2, "big")
    the_map += bytes.fromhex("0000 54455854") + (count - 1).to_bytes(2, "big") + bytes.fromhex("000A") + references
    header = b"".join(it.to_bytes(4, "big") for it in (256, 260, 4, 16 + len(the_map)))
    return header + bytes(240) + bytes(4) + header + the_map


# the files of the refusals
FORKS = {"HI": HI, "TOO_MANY": many(5459)}


ROWS = [
    # an update writes a fork also of no resources
    ([b""], "UpdateResFile", "1 UpdateResFile 0", [NONE]),
    ([b""], "h = NewHandle 2 / Poke h 0 \"Hi\" / AddResource h 'TEXT' 128 / UpdateResFile", "1 NewHandle $0010003C 0 / 2 Poke 0 / 3 AddResource 0 / 4 UpdateResFile 0", [HI]),
    # a purged resource is loaded from the disk again, once there is room
    (
        [HI],
        "h = GetResource 'TEXT' 128 / HPurge h / p = NewHandle 3764 / GetHandleSize h / LoadResource h / DisposeHandle p / LoadResource h / Peek h 0 2",
        '1 GetResource $0010003C 0 / 2 HPurge 0 / 3 NewHandle $00100040 0 / 4 GetHandleSize -109 / 5 LoadResource -108 / 6 DisposeHandle 0 / 7 LoadResource 0 / 8 Peek "Hi" 0',
        [HI],
    ),
    # an edit that wasn't marked is lost; a changed resource that was emptied is written without bytes
    (
        [HI],
        "h = GetResource 'TEXT' 128 / Poke h 0 \"No\" / EmptyHandle h / LoadResource h / Peek h 0 2 / ChangedResource h / EmptyHandle h / UpdateResFile / SizeResource h",
        '1 GetResource $0010003C 0 / 2 Poke 0 / 3 EmptyHandle 0 / 4 LoadResource 0 / 5 Peek "Hi" 0 / 6 ChangedResource 0 / 7 EmptyHandle 0 / 8 UpdateResFile 0 / 9 SizeResource 0 0',
        [BARE],
    ),
    # two resources of one type and id: the first is found, and both are written
    (
        [b""],
        "a = NewHandle 1 / b = NewHandle 1 / AddResource a 'TEXT' 5 / AddResource b 'TEXT' 5 / GetResource 'TEXT' 5 / CountResources 'TEXT' / UpdateResFile",
        "1 NewHandle $0010003C 0 / 2 NewHandle $00100040 0 / 3 AddResource 0 / 4 AddResource 0 / 5 GetResource $0010003C 0 / 6 CountResources 2 0 / 7 UpdateResFile 0",
        [TWO_ZEROS],
    ),
    # forks that can't be read, and one whose map is first
    ([HI[:-1]], "GetResource 'TEXT' 128", "0 OpenResFile -199 / 1 GetResource -193", [HI[:-1]]),
    ([HI[:10]], "", "0 OpenResFile -39", [HI[:10]]),
    ([HI_MAP_FIRST], "h = GetResource 'TEXT' 128 / Peek h 0 2", '1 GetResource $0010003C 0 / 2 Peek "Hi" 0', [HI_MAP_FIRST]),
    # a changed resource isn't detached
    (
        [HI],
        "h = GetResource 'TEXT' 128 / ChangedResource h / DetachResource h / UpdateResFile / DetachResource h / k = GetResource 'TEXT' 128 / Peek k 0 2",
        '1 GetResource $0010003C 0 / 2 ChangedResource 0 / 3 DetachResource -198 / 4 UpdateResFile 0 / 5 DetachResource 0 / 6 GetResource $00100040 0 / 7 Peek "Hi" 0',
        [HI],
    ),
    # refusals, a protected resource, and a file that is closed
    (
        [b""],
        "h = NewHandle 1 / LoadResource h / AddResource h 'TEXT' 1 / AddResource h 'TEXT' 2 / SetResAttrs h 8 / GetResAttrs h / ChangedResource h / RemoveResource h / SetResAttrs h 0 / RemoveResource h / CloseResFile / GetResource 'TEXT' 1",
        "1 NewHandle $0010003C 0 / 2 LoadResource -192 / 3 AddResource 0 / 4 AddResource -194 / 5 SetResAttrs 0 / 6 GetResAttrs 10 0 / 7 ChangedResource -198 / 8 RemoveResource -196 / 9 SetResAttrs 0 / 10 RemoveResource 0 / 11 CloseResFile 0 / 12 GetResource -193",
        [NONE],
    ),
    # a resource that isn't loaded until LoadResource does
    (
        [HI],
        "SetResLoad 0 / h = GetResource 'TEXT' 128 / GetHandleSize h / LoadResource h / GetHandleSize h / GetResInfo h / GetIndResource 'TEXT' 1 / GetIndResource 'TEXT' 2",
        "1 SetResLoad 0 / 2 GetResource $0010003C 0 / 3 GetHandleSize -109 / 4 LoadResource 0 / 5 GetHandleSize 2 0 / 6 GetResInfo 128 'TEXT' none 0 / 7 GetIndResource $0010003C 0 / 8 GetIndResource -192",
        [HI],
    ),
    # what is said of a resource, and one that is written alone
    (
        [b""],
        "h = NewHandle 2 / Poke h 0 \"Hi\" / AddResource h 'TEXT' 128 \"n\" / UniqueID 'TEXT' / CountTypes / GetIndType 1 / GetIndType 2 / ReleaseResource h / WriteResource h / GetResInfo h / SizeResource h / ReleaseResource h / GetHandleSize h / ResError / k = GetResource 'TEXT' 128 / Peek k 0 2",
        "1 NewHandle $0010003C 0 / 2 Poke 0 / 3 AddResource 0 / 4 UniqueID 129 0 / 5 CountTypes 1 0 / 6 GetIndType 'TEXT' 0 / 7 GetIndType -192 / 8 ReleaseResource 0 / 9 WriteResource 0 / 10 GetResInfo 128 'TEXT' \"n\" 0 / 11 SizeResource 2 0 / 12 ReleaseResource 0 / 13 GetHandleSize -111 / 14 ResError 0 0 / 15 GetResource $0010003C 0 / 16 Peek \"Hi\" 0",
        [NAMED],
    ),
    # a handle that is disposed of is forgotten
    (
        [HI],
        "h = GetResource 'TEXT' 128 / DisposeHandle h / LoadResource h / k = GetResource 'TEXT' 128 / HGetState k",
        "1 GetResource $0010003C 0 / 2 DisposeHandle 0 / 3 LoadResource -192 / 4 GetResource $0010003C 0 / 5 HGetState 32 0",
        [HI],
    ),
    # more resources than a written fork can have
    (
        [many(5459)],
        "CountResources 'TEXT' / UpdateResFile / CountResources 'TEXT'",
        "1 CountResources 5459 0 / 2 UpdateResFile -34 / 3 CountResources 5459 0",
        [many(5459)],
    ),
    # the handle that is loaded is protected, and an answer makes room
    (
        [HI],
        "h = GetResource 'TEXT' 128 / EmptyHandle h / p = NewHandle 3772 / gz 1 DisposeHandle h; DisposeHandle p / LoadResource h / Peek h 0 2",
        '1 GetResource $0010003C 0 / 2 EmptyHandle 0 / 3 NewHandle $00100040 0 / 5 LoadResource 0 /   gz 12 1 / 6 Peek "Hi" 0',
        [HI],
    ),
    # a change is written, and the others keep their bytes
    (
        [AB],
        "h = GetIndResource 'TEXT' 2 / SetHandleSize h 3 / Poke h 0 \"xyz\" / ChangedResource h / k = GetIndResource 'TEXT' 1 / Poke k 0 \"-\" / UpdateResFile",
        "1 GetIndResource $0010003C 0 / 2 SetHandleSize 0 / 3 Poke 0 / 4 ChangedResource 0 / 5 GetIndResource $00100040 0 / 6 Poke 0 / 7 UpdateResFile 0",
        [A_XYZ],
    ),
    # two files: resources are looked for from the current one back
    (
        [HI, b""],
        "OpenResFile 2 / CurResFile / h = GetResource 'TEXT' 128 / Get1Resource 'TEXT' 128 / HomeResFile h / n = NewHandle 1 / AddResource n 'TEXT' 128 / Get1Resource 'TEXT' 128 / GetResource 'TEXT' 128 / UseResFile 1 / GetResource 'TEXT' 128 / UpdateResFile 2 / CloseResFile 2 / CurResFile / OpenResFile 3 / UseResFile 2",
        "1 OpenResFile 2 0 / 2 CurResFile 2 0 / 3 GetResource $0010003C 0 / 4 Get1Resource -192 / 5 HomeResFile 1 0 / 6 NewHandle $00100040 0 / 7 AddResource 0 / 8 Get1Resource $00100040 0 / 9 GetResource $00100040 0 / 10 UseResFile 0 / 11 GetResource $0010003C 0 / 12 UpdateResFile 0 / 13 CloseResFile 0 / 14 CurResFile 1 0 / 15 OpenResFile -43 / 16 UseResFile -193",
        [HI, ZERO],
    ),
    # a second file that is none: the first stays the current one
    *(
        (
            [HI, HI[:length]],
            "OpenResFile 2 / ResError / CurResFile / UseResFile 2 / GetResource 'TEXT' 128",
            f"1 OpenResFile {code} / 2 ResError {code} 0 / 3 CurResFile 1 0 / 4 UseResFile -193 / 5 GetResource $0010003C 0",
            [HI, HI[:length]],
        )
        for length, code in ((1, -39), (15, -39), (16, -199), (311, -199))
    ),
    # calls that need no open file
    (
        [HI],
        "CloseResFile / CurResFile / SetResLoad 0 / OpenResFile 1 / CurResFile / OpenResFile 1 / h = GetResource 'TEXT' 128 / GetHandleSize h",
        "1 CloseResFile 0 / 2 CurResFile 0 0 / 3 SetResLoad 0 / 4 OpenResFile 1 0 / 5 CurResFile 1 0 / 6 OpenResFile 1 0 / 7 GetResource $0010003C 0 / 8 GetHandleSize -109",
        [HI],
    ),
    # other calls work on lent blocks; an update writes what its lent handles don't change, and the file is closed once all are returned
    (
        [HI],
        "h = GetResource 'TEXT' 128 / HLock h / Lend h / a = NewHandle 3 / AddResource a 'TEXT' 5 / HLock a / Lend a / GetResource 'TEXT' 128 / LoadResource h / WriteResource h / ReleaseResource a / Return a / UpdateResFile / CloseResFile / Return h / CloseResFile",
        "1 GetResource $0010003C 0 / 2 HLock 0 / 3 Lend 0 / 4 NewHandle $00100040 0 / 5 AddResource 0 / 6 HLock 0 / 7 Lend 0 / 8 GetResource $0010003C 0 / 9 LoadResource 0 / 10 WriteResource 0 / 11 ReleaseResource 0 / 12 Return 0 / 13 UpdateResFile 0 / 14 CloseResFile -117 / 15 Return 0 / 16 CloseResFile 0",
        [HI_AND_ZEROS],
    ),
    # a lent handle is reported, marked, taken out and added again; it is written once it is returned
    (
        [HI],
        "h = GetResource 'TEXT' 128 / HLock h / Lend h / SizeResource h / GetResInfo h / HomeResFile h / ChangedResource h / SetResAttrs h 16 / GetResAttrs h / UpdateResFile / RemoveResource h / CountResources 'TEXT' / AddResource h 'TEXT' 128 / WriteResource h / Return h / WriteResource h / GetResAttrs h / HGetState h",
        "1 GetResource $0010003C 0 / 2 HLock 0 / 3 Lend 0 / 4 SizeResource 2 0 / 5 GetResInfo 128 'TEXT' none 0 / 6 HomeResFile 1 0 / 7 ChangedResource 0 / 8 SetResAttrs 0 / 9 GetResAttrs 18 0 / 10 UpdateResFile -117 / 11 RemoveResource 0 / 12 CountResources 0 0 / 13 AddResource 0 / 14 WriteResource -117 / 15 Return 0 / 16 WriteResource 0 / 17 GetResAttrs 0 0 / 18 HGetState 160 0",
        [HI],
    ),
    # a lent handle is detached, and outlives its file
    (
        [HI],
        "h = GetResource 'TEXT' 128 / HLock h / Lend h / DetachResource h / CloseResFile / LentPeek h 0 2 / Return h / HGetState h",
        '1 GetResource $0010003C 0 / 2 HLock 0 / 3 Lend 0 / 4 DetachResource 0 / 5 CloseResFile 0 / 6 LentPeek "Hi" 0 / 7 Return 0 / 8 HGetState 128 0',
        [HI],
    ),
]


class Words:
    """The rows of a text, `A1` for the id 1 of the type 'AAAA'. The bytes of each are a tag that distinguishes it from all others."""

    def __init__(self, text, file=1):
        self.words, self.file = text.split(), file

    def tag(self, index):
        return f"{self.file}.{index}"

    def fork(self):
        """The fork that has these rows, in the order of the text."""
        rows = [Row(word[0].encode() * 4, int(word[1:]), None, 0, self.tag(index).encode()) for index, word in enumerate(self.words)]
        return File(1, rows).fork(lambda row: row.disk)

    def added(self):
        """The lines that add these rows in turn."""
        for index, word in enumerate(self.words):
            yield f"h{index} = NewHandle 3"
            yield f'Poke h{index} 0 "{self.tag(index)}"'
            yield f"AddResource h{index} {of_word(word)}"


def of_word(word):
    """The operands for a row."""
    return f"'{word[0] * 4}' {word[1:]}"


def looked_up(lines, call, tag, number, code=-192):
    """Adds a look-up, and the lines that it has to print: the tag of the resource that is found, and its file, or the code."""
    handle = f"f{len(lines)}"
    said = [f"{handle} = {call}", f"Peek {handle} 0 3", f"HomeResFile {handle}"] if tag else [call]
    name, at = call.split(" ")[0], len(lines) + 1
    lines += said
    if not tag:
        return [f"{at} {name} {code}"]
    return ["..", f'{at + 1} Peek "{tag}" 0', f"{at + 2} HomeResFile {number} 0"]


# three open files, of which the third is the current one
THREE = [Words("A1 A2", 1), Words("A1 B1", 2), Words("B1 C1", 3)]
# the current file, a resource, its tag from there on, and its tag in that file alone
SEARCHES = [
    (3, "A1", "2.0", None),
    (3, "A2", "1.1", None),
    (3, "B1", "3.0", "3.0"),
    (3, "C1", "3.1", "3.1"),
    (3, "C2", None, None),
    (2, "A1", "2.0", "2.0"),
    (2, "B1", "2.1", "2.1"),
    (2, "C1", None, None),
    (1, "A1", "1.0", "1.0"),
    (1, "B1", None, None),
]
# the current file, one that is closed, and the one that is current then: the last of the others where it was closed itself
CLOSED = [(3, 3, 2), (1, 1, 3), (2, 2, 3), (2, 3, 2), (2, 1, 2), (3, 4, 3)]


def searched():
    """A search goes from the current file to the earliest."""
    lines, printed = ["OpenResFile 2", "OpenResFile 3", "CurResFile"], ["1 OpenResFile 2 0", "2 OpenResFile 3 0", "3 CurResFile 3 0"]
    for current, word, tag, here in SEARCHES:
        lines += [f"UseResFile {current}", "CurResFile"]
        printed += [f"{len(lines) - 1} UseResFile 0", f"{len(lines)} CurResFile {current} 0"]
        printed += looked_up(lines, f"GetResource {of_word(word)}", tag, tag and tag[0])
        printed += looked_up(lines, f"Get1Resource {of_word(word)}", here, here and here[0])
    return lines, printed


def closed(current, number, then):
    """The last file is current where the current one is closed."""
    code = 0 if number < 4 else -193
    lines = ["OpenResFile 2", "OpenResFile 3", f"UseResFile {current}", f"CloseResFile {number}", "CurResFile", f"UseResFile {number}", f"UseResFile {then}"]
    return lines, ["..", f"4 CloseResFile {code}", f"5 CurResFile {then} 0", "6 UseResFile -193", "7 UseResFile 0"]


def all_closed():
    """Without a file none is current, and none is closed twice."""
    lines, printed = ["OpenResFile 2", "OpenResFile 3"], [".."]
    for number in (3, 1, 2):
        at = len(lines)
        lines += [f"UseResFile {number}", f"CloseResFile {number}", f"CloseResFile {number}"]
        printed += [f"{at + 1} UseResFile 0", f"{at + 2} CloseResFile 0", f"{at + 3} CloseResFile -193"]
    lines += ["CurResFile", "GetResource 'AAAA' 1", "Get1Resource 'AAAA' 1"]
    return lines, [*printed, "12 CurResFile 0 0", "13 GetResource -193", "14 Get1Resource -193"]


def found_by_handles():
    """A row is found by its handle whichever file is current, until the handle is disposed of."""
    lines, printed = ["OpenResFile 2", "OpenResFile 3", "n = NewHandle 1"], [".."]
    found = [("a", 1, "A1", 1), ("b", 1, "A2", 1), ("c", 2, "A1", 2), ("d", 3, "B1", 3)]
    for handle, file, word, _ in found:
        lines += [f"UseResFile {file}", f"{handle} = Get1Resource {of_word(word)}"]
    lines += ["UseResFile 2", "HomeResFile n"]
    printed.append(f"{len(lines)} HomeResFile -192")
    for handle, _, _, home in found:
        lines += [f"HomeResFile {handle}", f"DisposeHandle {handle}", f"HomeResFile {handle}"]
        at = len(lines)
        printed += [f"{at - 2} HomeResFile {home} 0", f"{at - 1} DisposeHandle 0", f"{at} HomeResFile -192"]
    return lines, printed


def chains():
    """Rows of the chain of open files."""
    forks = [it.fork() for it in THREE]
    for lines, printed in [searched(), *(closed(*it) for it in CLOSED), all_closed(), found_by_handles()]:
        yield forks, " / ".join(lines), " / ".join(printed), forks
    # a row is changed, taken out and added in its file alone
    script = "OpenResFile 2 / OpenResFile 3 / UseResFile 2 / b = GetResource 'BBBB' 1 / HomeResFile b / SetResAttrs b 16 / GetResAttrs b / ChangedResource b"
    script += " / a = GetResource 'AAAA' 1 / RemoveResource a / n = NewHandle 3 / Poke n 0 \"new\" / AddResource n 'BBBB' 9 / CountTypes / CountResources 'BBBB'"
    script += " / GetIndResource 'BBBB' 3 / UseResFile 4 / UpdateResFile 1 / UpdateResFile 2 / UpdateResFile 3"
    printed = ".. / 5 HomeResFile 2 0 / 6 SetResAttrs 0 / 7 GetResAttrs 16 0 / 8 ChangedResource 0 / .. / 10 RemoveResource 0 / .. / 13 AddResource 0"
    printed += " / 14 CountTypes 1 0 / 15 CountResources 2 0 / 16 GetIndResource -192 / 17 UseResFile -193 / .. / 20 UpdateResFile 0"
    rows = [Row(b"BBBB", 1, None, 16, b"2.1"), Row(b"BBBB", 9, None, 0, b"new")]
    yield forks, script, printed, [forks[0], File(2, rows).fork(lambda row: row.disk), forks[2]]


def of_eight(lines, current, opened):
    """Adds the look-ups from this current file on, where these are open in turn, and gives what they print."""
    printed = []
    upto = opened[: opened.index(current) + 1]
    for ident in range(1, 9):
        found = f"{ident}.1" if ident in upto else None
        printed += looked_up(lines, f"GetResource 'BBBB' {ident}", found, ident)
        printed += looked_up(lines, f"Get1Resource 'BBBB' {ident}", found if ident == current else None, ident)
    return printed + looked_up(lines, "GetResource 'AAAA' 1", f"{current}.0", current)


def eight():
    """Eight files are open at once, each with a resource 'AAAA' 1 and one of its own. A change is written to its file alone."""
    words = [Words(f"A1 B{number}", number) for number in range(1, 9)]
    forks = [it.fork() for it in words]
    opened = [1, 5, 2, 8, 3, 7, 4, 6]
    lines = [f"OpenResFile {number}" for number in opened[1:]]
    printed = [f"{at} OpenResFile {number} 0" for at, number in enumerate(opened[1:], 1)]
    printed += of_eight(lines, 6, opened)
    for current in (8, 1, 4):
        lines.append(f"UseResFile {current}")
        printed += [f"{len(lines)} UseResFile 0", *of_eight(lines, current, opened)]
    # file 3 gets a resource, and is closed; the file that was opened last is the current one then
    lines += ["UseResFile 3", "n = NewHandle 3", 'Poke n 0 "new"', "AddResource n 'BBBB' 9", "CloseResFile", "CurResFile", "OpenResFile 9"]
    at = len(lines)
    printed += ["..", f"{at - 2} CloseResFile 0", f"{at - 1} CurResFile 6 0", f"{at} OpenResFile -43"]
    opened.remove(3)
    lines += ["CloseResFile 6", "CurResFile"]
    printed += [f"{at + 1} CloseResFile 0", f"{at + 2} CurResFile 4 0", *of_eight(lines, 4, opened[:-1])]
    rows = [Row(b"AAAA", 1, None, 0, b"3.0"), Row(b"BBBB", 3, None, 0, b"3.1"), Row(b"BBBB", 9, None, 0, b"new")]
    return forks, " / ".join(lines), " / ".join(printed), [*forks[:2], File(3, rows).fork(lambda row: row.disk), *forks[3:]]


def ends_of(data):
    """The lines that look at the first and the last two bytes of a resource k, and what they print."""
    size = len(data)
    lines = ["SizeResource k", "GetHandleSize k", "Peek k 0 2", f"Peek k {size - 2} 2"]
    return lines, [f"SizeResource {size} 0", f"GetHandleSize {size} 0", f"Peek {shown(data[:2])} 0", f"Peek {shown(data[-2:])} 0"]


def large():
    """Forks of one large resource, which is loaded again, also from a file that is opened again. A handle has bytes of zero until they are poked."""
    # the fork of the second one has 65,535 bytes
    for size in (65_000, 65_225, 65_226, 90_000, 900_000):
        data = b"<<" + bytes(size - 4) + b">>"
        asked, told = ends_of(data)
        lines = [f"h = NewHandle {size}", 'Poke h 0 "<<"', f'Poke h {size - 2} ">>"', "AddResource h 'TEXT' 128", "UpdateResFile", "ReleaseResource h"]
        printed = ["..", "5 UpdateResFile 0", "6 ReleaseResource 0"]
        for again in (["k = GetResource 'TEXT' 128"], ["CloseResFile", "OpenResFile 1", "k = GetResource 'TEXT' 128"]):
            at = len(lines) + len(again)
            printed += ["..", *(f"{number} {it}" for number, it in enumerate(told, at + 1))]
            lines += [*again, *asked]
        fork = File(1, [Row(b"TEXT", 128, None, 0, data)]).fork(lambda row: row.disk)
        yield [b""], f"--zone 1048576 : {' / '.join(lines)}", " / ".join(printed), [fork]


def large_in_turn():
    """Five large resources are written one after the other. There is no room for a sixth beside them."""
    rows, lines, printed = [], [], []
    for ident in range(1, 7):
        data = f"<{ident}".encode() + bytes(799_996) + f"{ident}>".encode()
        lines += ["h = NewHandle 800000", f'Poke h 0 "<{ident}"', f'Poke h 799998 "{ident}>"', f"AddResource h 'TEXT' {ident}", "WriteResource h"]
        printed += ["..", f"{len(lines)} WriteResource {0 if ident < 6 else -34}"]
        if ident < 6:
            rows.append(Row(b"TEXT", ident, None, 0, data))
            lines.append("ReleaseResource h")
            printed.append(f"{len(lines)} ReleaseResource 0")
    lines += ["RemoveResource h", "DisposeHandle h"]
    printed += [f"{len(lines) - 1} RemoveResource 0", f"{len(lines)} DisposeHandle 0"]
    for row in rows:
        lines.append(f"k = GetResource 'TEXT' {row.ident}")
        asked, told = ends_of(row.disk)
        printed += ["..", *(f"{number} {it}" for number, it in enumerate(told, len(lines) + 1))]
        lines += [*asked, "ReleaseResource k"]
        printed.append(f"{len(lines)} ReleaseResource 0")
    fork = File(1, rows).fork(lambda row: row.disk)
    return [b""], f"--zone 1048576 : {' / '.join(lines)}", " / ".join(printed), [fork]


def large_update():
    """A large fork gets one more resource, and keeps the bytes of the others, of which one is loaded then."""
    dice = random.Random(4)
    for size in (400_000, 419_000):
        rows = [Row(b"DATA", ident, None, 0, dice.randbytes(size)) for ident in range(1, 11)]
        old = File(1, rows).fork(lambda row: row.disk)
        asked, told = ends_of(rows[6].disk)
        lines = ["h = NewHandle 2", 'Poke h 0 "Hi"', "AddResource h 'TEXT' 128", "UpdateResFile", "ReleaseResource h", "k = GetResource 'DATA' 7", *asked, "CloseResFile"]
        printed = ["..", "3 AddResource 0", "4 UpdateResFile 0", "5 ReleaseResource 0", "..", *(f"{number} {it}" for number, it in enumerate(told, 7)), "11 CloseResFile 0"]
        new = File(1, [*rows, Row(b"TEXT", 128, None, 0, b"Hi")]).fork(lambda row: row.disk)
        yield [old], f"--zone 4096 --limit 1048576 : {' / '.join(lines)}", " / ".join(printed), [new]
    # then a fork of as many bytes as one may have, and one of one more
    spare = MOST_BYTES - len(new)
    for more, code in ((spare + 2, 0), (spare + 3, -34)):
        data = bytes(more)
        lines = [f"h = NewHandle {more}", "AddResource h 'TEXT' 128", "UpdateResFile"]
        new = File(1, [*rows, Row(b"TEXT", 128, None, 0, data)]).fork(lambda row: row.disk)
        yield [old], f"--zone 4096 --limit 1048576 : {' / '.join(lines)}", f".. / 2 AddResource 0 / 3 UpdateResFile {code}", [old if code else new]


# Steps in turn, and the rows after each, of which those with `@` have a handle. `+` adds a row, whose tag says which it is; `-` takes the one
# of a tag out; `!` writes it and releases its handle; `=` loads the one that is found by its type and id; `~` disposes of its handle.
STEPS = """+A1: A1.0@
+B1: A1.0@ B1.1@
+A1: A1.0@ A1.2@ B1.1@
+C1: A1.0@ A1.2@ B1.1@ C1.3@
+B-2: A1.0@ A1.2@ B1.1@ B-2.4@ C1.3@
!0: A1.0 A1.2@ B1.1@ B-2.4@ C1.3@
=0: A1.0@ A1.2@ B1.1@ B-2.4@ C1.3@
!3: A1.0@ A1.2@ B1.1@ B-2.4@ C1.3
-2: A1.0@ B1.1@ B-2.4@ C1.3
~2: A1.0@ B1.1@ B-2.4@ C1.3
+A7: A1.0@ A7.5@ B1.1@ B-2.4@ C1.3
-0: A7.5@ B1.1@ B-2.4@ C1.3
!5: A7.5 B1.1@ B-2.4@ C1.3
=5: A7.5@ B1.1@ B-2.4@ C1.3
!4: A7.5@ B1.1@ B-2.4 C1.3
=4: A7.5@ B1.1@ B-2.4@ C1.3
~4: A7.5@ B1.1@ B-2.4 C1.3
=3: A7.5@ B1.1@ B-2.4 C1.3@
-3: A7.5@ B1.1@ B-2.4
!1: A7.5@ B1.1 B-2.4
=1: A7.5@ B1.1@ B-2.4
-5: B1.1@ B-2.4"""


def step_of(step, rows):
    """The lines of a step, where these are all rows that were added before it."""
    mark, rest = step[0], step[1:]
    if mark == "+":
        handle = f"h{len(rows)}"
        rows.append(rest)
        return [f"{handle} = NewHandle 3", f'Poke {handle} 0 "1.{len(rows) - 1}"', f"AddResource {handle} {of_word(rest)}"]
    if mark == "=":
        return [f"h{rest} = GetResource {of_word(rows[int(rest)])}"]
    calls = {"-": ["RemoveResource"], "!": ["WriteResource", "ReleaseResource"], "~": ["DisposeHandle"]}[mark]
    # the number of a handle that is gone is given to one that stays and is no resource's
    return [f"{it} h{rest}" for it in calls] + ["NewHandle 0"] * (mark != "-")


def told_of(lines, number, there):
    """Adds the questions after a step, of which this many rows were added, and gives what they print."""
    kinds, printed = list(dict.fromkeys(it[0] for it in there)), []
    with_handles = {it.rstrip("@").split(".")[1] for it in there if it.endswith("@")}
    for index in range(number):
        lines.append(f"HomeResFile h{index}")
        printed.append(f"{len(lines)} HomeResFile " + ("1 0" if str(index) in with_handles else "-192"))
    lines.append("CountTypes")
    printed.append(f"{len(lines)} CountTypes {len(kinds)} 0")
    for at, kind in enumerate(kinds, 1):
        of_kind = [it for it in there if it[0] == kind]
        lines += [f"GetIndType {at}", f"CountResources '{kind * 4}'"]
        printed += [f"{len(lines) - 1} GetIndType '{kind * 4}' 0", f"{len(lines)} CountResources {len(of_kind)} 0"]
        for index, row in enumerate(of_kind, 1):
            tag = "1." + row.rstrip("@").split(".")[1]
            printed += looked_up(lines, f"GetIndResource '{kind * 4}' {index}", tag, 1)
    return printed


def steps():
    """A script for the steps up to each, and the questions after it."""
    lines, rows = [], []
    for line in STEPS.split("\n"):
        step, there = line.split(": ")
        lines += step_of(step, rows)
        asked = list(lines)
        printed = told_of(asked, len(rows), there.split())
        yield asked, ["..", *printed]


# rows that are added in turn, and the id that is unique for 'AAAA'
UNIQUE = [
    ("", 128),
    ("A128 A129", 130),
    ("A129 A128", 130),
    ("A129", 128),
    ("A128 A130", 129),
    ("B128", 128),
    ("A128 A128 B129", 129),
    ("A127 A-1 A32767", 128),
]
# rows that are added in turn, and for each resource the tag of the first one
FIRST = [("", {"A1": None}), ("A1 B1 A2 A1 B1", {"A1": "1.0", "A2": "1.2", "B1": "1.1", "B2": None, "C1": None})]
# for each type of `B1 A1 B2 A2 C1 B3` the tags of its rows from the 0th on: they are counted from 1
COUNTED = {"A": [None, "1.1", "1.3", None, None], "B": [None, "1.0", "1.2", "1.5", None], "C": [None, "1.4", None], "D": [None, None]}


def counted():
    """Rows of a type, and types in the order of their first rows, are counted from 1."""
    lines, printed = list(Words("B1 A1 B2 A2 C1 B3").added()), [".."]
    for kind, tags in COUNTED.items():
        lines.append(f"CountResources '{kind * 4}'")
        printed.append(f"{len(lines)} CountResources {sum(it is not None for it in tags)} 0")
        for index, tag in enumerate(tags):
            printed += looked_up(lines, f"GetIndResource '{kind * 4}' {index}", tag, 1)
    for index, kind in enumerate([None, "B", "A", "C", None]):
        lines.append(f"GetIndType {index}")
        printed.append(f"{len(lines)} GetIndType " + (f"'{kind * 4}' 0" if kind else "-192"))
    lines.append("CountTypes")
    return lines, [*printed, f"{len(lines)} CountTypes 3 0"]


def kinds():
    """Rows of the kinds of changes to one file, which stays as it was until it is written."""
    scripts = [*steps(), counted()]
    for text, wanted in UNIQUE:
        lines = [*Words(text).added(), "UniqueID 'AAAA'", "CountTypes"]
        types = len({word[0] for word in text.split()})
        scripts.append((lines, ["..", f"{len(lines) - 1} UniqueID {wanted} 0", f"{len(lines)} CountTypes {types} 0"]))
    for text, tags in FIRST:
        lines = list(Words(text).added())
        printed = [it for word, tag in tags.items() for it in looked_up(lines, f"GetResource {of_word(word)}", tag, 1)]
        scripts.append((lines, ["..", *printed]))
    for lines, printed in scripts:
        yield [b""], " / ".join(lines), " / ".join(printed), None
    # a row that is taken out is no resource any more, and its handle stays
    there = [Row(b"AAAA", 1, None, 0, b"1.0"), Row(b"BBBB", 1, None, 0, b"1.2")]
    script = "h = GetResource 'AAAA' 2 / RemoveResource h / HomeResFile h / Peek h 0 3 / GetResource 'AAAA' 2 / UpdateResFile"
    printed = '.. / 2 RemoveResource 0 / 3 HomeResFile -192 / 4 Peek "1.1" 0 / 5 GetResource -192 / 6 UpdateResFile 0'
    yield [Words("A1 A2 B1").fork()], script, printed, [File(1, there).fork(lambda row: row.disk)]
    # the attributes of a file are read but for resChanged; a change is marked, and written
    marked = File(1, [Row(b"TEXT", -3, None, 255, b"Hi")]).fork(lambda row: row.disk)
    marked = marked.replace(bytes.fromhex("FFFD FFFF FD"), bytes.fromhex("FFFD FFFF FF"))
    script = "h = GetResource 'TEXT' -3 / GetResAttrs h / SetResAttrs h 0 / GetResAttrs h / ChangedResource h / GetResAttrs h / UpdateResFile / GetResAttrs h"
    printed = ".. / 2 GetResAttrs 253 0 / 3 SetResAttrs 0 / 4 GetResAttrs 0 0 / 5 ChangedResource 0 / 6 GetResAttrs 2 0 / 7 UpdateResFile 0 / 8 GetResAttrs 0 0"
    yield [marked], script, printed, [File(1, [Row(b"TEXT", -3, None, 0, b"Hi")]).fork(lambda row: row.disk)]


def refusals(table):
    """The rows of tests/cases/refusals.txt."""
    for line in table.read().split("\n"):
        mark, _, rest = line.partition(" ")
        if mark == ">":
            name, script = rest.split(" : ")
        elif mark == "=":
            replies = rest
        elif mark == "?":
            seen = rest
        elif line and mark != "#":
            calls, code = line.split(": ")
            for call in calls_of(calls):
                lines = f"{replies} / {seen} / {call.split(' ')[0]} {code} / ResError {code} 0 / {seen}"
                yield [FORKS[name]], f"{script} / {PROBES} / {call} / ResError / {PROBES}", " / ".join(numbered(lines)), [FORKS[name]]


def operands(table):
    """The rows of tests/cases/operands.txt."""
    for row in table.read().split("\n"):
        if row.startswith("> "):
            script = row[2:]
            fault = f"{FAULT}{script[: script.index('?')].count(' / ') + 1}"
        elif row.startswith("= "):
            last = row[2:]
        elif " -> " in row and not row.startswith("# "):
            operand, wanted = row.split(" -> ")
            printed = fault if wanted == "none" else ".. / " + last.replace("?", wanted)
            yield [b""], script.replace("?", unescaped(operand).decode()), printed, None


IN_USE = "another program is at work on it; wait for its end, or name another file"
TWICE = "a word before it names the same file; name another file"
RAN = (0, "1 CountTypes 1 0\n", "")


class Room:
    """A folder with the fork of HI, another one, an empty journal, and second names of the first."""

    def __init__(self, program, folder):
        self.program, self.folder = program, folder
        for name, data in (("fork", HI), ("other", ZERO), ("journal", b"")):
            with open(self.at(name), "wb") as file:
                file.write(data)
        os.link(self.at("fork"), self.at("link"))
        os.symlink("fork", self.at("symbolic"))

    def at(self, name):
        return os.path.join(self.folder, name)

    def words(self, names):
        """The command for these options."""
        return [self.program] + [self.at(it) if it.isalpha() else it for it in names.split()]

    def run(self, names):
        """The status, what was printed, and what was said."""
        done = subprocess.run(self.words(names), input="CountTypes\n", capture_output=True, text=True, check=False)
        return done.returncode, done.stdout, done.stderr.replace(self.folder, "@")

    def is_locked(self, name):
        """Whether a program has locked a file."""
        with open(self.at(name), "rb") as file:
            try:
                fcntl.flock(file, fcntl.LOCK_EX | fcntl.LOCK_NB)
            except BlockingIOError:
                return True
        return False


def refused(name, why):
    return 1, "", f"cannot open @/{name}: {why}\n"


def locked(room):
    """A file that another program has locked can't be opened, to be written or to be read, until the lock is given back. Each yields what it is, how it ended, and how it should."""
    both = "--fork fork --journal journal"
    for names, name in (("--fork fork", "fork"), (both, "fork"), (both, "journal"), ("--fork other --fork fork", "fork")):
        for how in (fcntl.LOCK_EX, fcntl.LOCK_SH):
            for mode in (0o644, 0o444):
                os.chmod(room.at(name), mode)
                with open(room.at(name), "rb") as file:
                    fcntl.flock(file, how)
                    yield f"{names}, {name} locked", room.run(names), refused(name, IN_USE)
                    fcntl.flock(file, fcntl.LOCK_UN)
                    yield f"{names}, {name} given back", room.run(names), RAN
    with open("/dev/null", "rb") as file:
        fcntl.flock(file, fcntl.LOCK_EX)
        yield "a device has no lock", room.run("--fork fork --fork /dev/null"), RAN


def locks(room):
    """A run has its files locked until its end."""
    names = ["fork", "other", "journal"]
    with subprocess.Popen(room.words("--fork fork --journal journal"), stdin=subprocess.PIPE, stdout=subprocess.PIPE, stderr=subprocess.PIPE, text=True) as run:
        end = time.monotonic() + 20
        while not room.is_locked("journal") and time.monotonic() < end:
            time.sleep(0.01)
        yield "locked by a run", [room.is_locked(it) for it in names], [True, False, True]
        yield "another run over them", room.run("--fork other --journal journal"), refused("journal", IN_USE)
        said = run.communicate("CountTypes\n")
        yield "the run", (run.returncode, *said), RAN
    yield "after its end", [room.is_locked(it) for it in names], [False] * 3


def named_twice(room):
    """A file may have several names where there are no journals, and else one."""
    for name in ("fork", "link", "symbolic"):
        yield f"fork and {name}", room.run(f"--fork fork --fork {name}"), RAN
        yield f"fork, and {name} as its journal", room.run(f"--fork fork --journal {name}"), refused(name, TWICE)
        yield f"fork and {name} with journals", room.run(f"--fork fork --fork {name} --journal journal --journal new"), refused(name, TWICE)
        yield f"fork as a journal, and {name}", room.run(f"--journal fork --journal {name} --fork other --fork new"), refused(name, TWICE)
    yield "no file was written", [read_whole(room.at(it)) for it in ("fork", "other", "journal", "new")], [HI, ZERO, b"", b""]


def read_whole(path):
    with open(path, "rb") as file:
        return file.read()


def names_and_locks(program):
    """What is wrong with files that are locked, or have several names."""
    found = []
    for rows in (locked, locks, named_twice):
        with tempfile.TemporaryDirectory() as folder:
            found += [f"{what}: {was}, and not {wanted}" if was != wanted else "" for what, was, wanted in rows(Room(program, folder))]
    faults = [it for it in found if it]
    for it in faults:
        print(it)
    print(f"files that are locked or have several names: {len(found) - len(faults)} rows as they should be, {len(faults)} not")
    return len(faults)


def main(program):
    failed, faults = 0, names_and_locks(program)
    refusing, written = read("refusals.txt", refusals), read("operands.txt", operands)
    rows = ROWS + [*chains(), eight(), *kinds(), *large(), large_in_turn(), *large_update()] + refusing + written
    with tempfile.TemporaryDirectory() as folder:
        for disks, script, printed, wanted in rows:
            paths = [os.path.join(folder, f"file{index}") for index in range(len(disks))]
            options, _, script = script.rpartition(" : ") if script.startswith("--") else ("", "", script)
            words = [program, *options.split()]
            for path, disk in zip(paths, disks):
                with open(path, "wb") as file:
                    file.write(disk)
                words += ["--fork", path]
            ran = subprocess.run(words, input="\n".join(lines_of(script)), capture_output=True, text=True, check=False)
            left = []
            for path in paths:
                with open(path, "rb") as file:
                    left.append(file.read())
            right = are_wanted(ran.stdout, printed.split(" / ")) and ran.returncode == (3 if printed.startswith(FAULT) else 0)
            if not right or wanted not in (None, left):
                failed += 1
                print(f"{script}: status {ran.returncode}, {ran.stdout!r}, files of {[len(it) for it in left]} bytes")
    print(f"scripts over resource files: {len(rows) - failed} as they should be, {failed} not; {len(refusing)} are of calls that are refused, {len(written)} of operands")
    return 1 if failed or faults or not refusing or not written else 0
