"""Checks what a macheap program does where the host refuses memory: each request of each run below is refused in turn.

Wanted of each: whole replies from the front of what the run prints and then the line `no memory`, with status 1, or all replies with
status 0; and a resource file as it was before the last call, or after it. Where the fork is on a disk in memory, and the host refuses
that disk room to grow, the update answers ioErr, the file is closed, and the run goes on. Each script over a file runs with a journal, too, which is as before or
after that call then. A run that isn't refused anything ends the check of its
row: it has to print what is beside it, where `..` stands for lines that aren't compared. Needs a C compiler: `cc`, or $CC.
"""
import os
import re
import subprocess
import tempfile

from checks.files import HI
from checks.runs import are_wanted
from model.toolbox import journal_of
from places import INTERPOSE

SHIM = os.path.join(INTERPOSE, "refuse_memory.c")
# the bytes of the row's file, or none for no file; the script; what it prints
ROWS = [
    # blocks move for a new one, and the map is printed
    (
        None,
        "a = NewHandle 1000 / b = NewHandle 1000 / c = NewHandle 1000 / Poke b 0 \"BB\" / DisposeHandle a / d = NewHandle 1500 / Peek b 0 2 / ZoneMap",
        ".. / 6 NewHandle $0010003C 0 / 7 Peek \"BB\" 0 / 8 ZoneMap 5 0 /   $00100034 264 master /   $0010013C 1008 rel $00100040 1000 --- /   $0010052C 1008 rel $00100044 1000 --- /   $0010091C 1508 rel $0010003C 1500 --- /   $00100F00 256 free",
    ),
    # the first resource of a file
    (b"", "h = NewHandle 2 / Poke h 0 \"Hi\" / AddResource h 'TEXT' 128 / UpdateResFile", ".. / 3 AddResource 0 / 4 UpdateResFile 0"),
    # two resources of one type and id
    (
        b"",
        "a = NewHandle 1 / b = NewHandle 1 / AddResource a 'TEXT' 5 / AddResource b 'TEXT' 5 / GetResource 'TEXT' 5 / CountResources 'TEXT' / UpdateResFile",
        ".. / 5 GetResource $0010003C 0 / 6 CountResources 2 0 / 7 UpdateResFile 0",
    ),
    # a resource that is detached, and loaded again
    (
        HI,
        "h = GetResource 'TEXT' 128 / ChangedResource h / DetachResource h / UpdateResFile / DetachResource h / k = GetResource 'TEXT' 128 / Peek k 0 2",
        '.. / 3 DetachResource -198 / 4 UpdateResFile 0 / 5 DetachResource 0 / 6 GetResource $00100040 0 / 7 Peek "Hi" 0',
    ),
    # calls that copy, and the zone's reports
    (
        None,
        "p = NewPtr 4 / Poke p 0 \"abcd\" / h = PtrToHand p 3 / PtrAndHand p h 2 / Peek h 0 5 / PtrToXHand p h 1 / k = HandToHand h / Peek k 0 1 / SetHandleSize h 300 / SetPtrSize p 40 / ReallocateHandle k 10 / MoreMasters / ReserveMem 500 / PurgeMem 100 / CompactMem 4000 / MaxMem / FreeMem / ZoneMap",
        '.. / 5 Peek "abcab" 0 / .. / 7 HandToHand $00100040 0 / 8 Peek "a" 0 / .. / 15 CompactMem 3140 0 / 16 MaxMem 3140 0 0 / 17 FreeMem 3140 0 / 18 ZoneMap 6 0 / ..',
    ),
    # a block that is lent while others move
    (
        None,
        "a = NewHandle 1000 / b = NewHandle 4 / HLock b / Lend b / LentPoke b 0 \"wxyz\" / c = NewHandle 1000 / d = NewHandle 1000 / DisposeHandle c / e = NewHandle 1500 / Peek b 0 4 / HUnlock b / Return b / Peek b 0 4 / Deref b / Deref d",
        '.. / 9 NewHandle $00100044 0 / 10 Peek -117 / 11 HUnlock -117 / 12 Return 0 / 13 Peek "wxyz" 0 / 14 Deref $00100534 0 / 15 Deref $00100540 0',
    ),
    # a resource without bytes until it is loaded
    (
        HI,
        "SetResLoad 0 / h = GetResource 'TEXT' 128 / GetHandleSize h / LoadResource h / GetHandleSize h / GetResInfo h / GetIndResource 'TEXT' 1 / GetIndResource 'TEXT' 2",
        "1 SetResLoad 0 / 2 GetResource $0010003C 0 / 3 GetHandleSize -109 / 4 LoadResource 0 / 5 GetHandleSize 2 0 / 6 GetResInfo 128 'TEXT' none 0 / 7 GetIndResource $0010003C 0 / 8 GetIndResource -192",
    ),
    # what is said of a resource, and one that is written alone
    (
        b"",
        "h = NewHandle 2 / Poke h 0 \"Hi\" / AddResource h 'TEXT' 128 \"n\" / UniqueID 'TEXT' / CountTypes / GetIndType 1 / GetIndType 2 / ReleaseResource h / WriteResource h / GetResInfo h / SizeResource h / ReleaseResource h / GetHandleSize h / ResError / k = GetResource 'TEXT' 128 / Peek k 0 2",
        ".. / 4 UniqueID 129 0 / 5 CountTypes 1 0 / 6 GetIndType 'TEXT' 0 / 7 GetIndType -192 / .. / 10 GetResInfo 128 'TEXT' \"n\" 0 / 11 SizeResource 2 0 / .. / 13 GetHandleSize -111 / 14 ResError 0 0 / 15 GetResource $0010003C 0 / 16 Peek \"Hi\" 0",
    ),
    # a resource is loaded, changed and written
    (
        HI,
        "h = GetResource 'TEXT' 128 / Poke h 0 \"No\" / ChangedResource h / UpdateResFile / GetResAttrs h",
        "1 GetResource $0010003C 0 / 2 Poke 0 / 3 ChangedResource 0 / 4 UpdateResFile 0 / 5 GetResAttrs 0 0",
    ),
    # a change is written when the file is closed, beside a resource that is added with a name
    (
        HI,
        "h = GetResource 'TEXT' 128 / SetHandleSize h 300 / ChangedResource h / k = NewHandle 3 / AddResource k 'STR ' 1 \"more\" / CloseResFile / OpenResFile 1 / CountTypes",
        "..",
    ),
]

# A fork on a disk in memory: its script, what it prints, and what it prints where that disk is refused room to grow.
IN_MEMORY = (
    "h = NewHandle 2 / Poke h 0 \"Hi\" / AddResource h 'TEXT' 128 / UpdateResFile / CountTypes",
    "1 NewHandle $0010003C 0 / 2 Poke 0 / 3 AddResource 0 / 4 UpdateResFile 0 / 5 CountTypes 1 0",
    "1 NewHandle $0010003C 0 / 2 Poke 0 / 3 AddResource 0 / 4 UpdateResFile -36 / 5 CountTypes -193",
)


def run(program, folder, files, lines, **more):
    """A run of the program in a folder, over a file and its journal, if there are: what it printed, its status, and the bytes of these files."""
    script = "".join(line + "\n" for line in lines).encode()
    words, paths = [], []
    for option, data in zip(("fork", "journal"), files):
        paths.append(os.path.join(folder, option))
        words += [f"--{option}", paths[-1]]
        with open(paths[-1], "wb") as file:
            file.write(data)
    environment = {**os.environ, **more}
    done = subprocess.run([program, *words], input=script, capture_output=True, env=environment, timeout=60)
    after = []
    for path in paths:
        with open(path, "rb") as file:
            after.append(file.read())
    return done.stdout.decode(), done.returncode, after


def replies_of(text):
    """The whole replies of a text, each with the lines that belong to it."""
    return re.findall(r"^[0-9]+ .*\n(?:  .*\n)*", text, re.M)


def fault(said, status, after, replies, files):
    """What is wrong with a run that was refused memory, where these are all replies, and the bytes of the files before the start, after it and after each of them."""
    count = len(replies_of(said))
    if said == "".join(replies) and status == 0:
        return None if after == files[-1] else "all was printed, but the file is another"
    if status != 1 or said != "".join(replies[:count]) + "no memory\n":
        return f"status {status}, and {said!r} was printed"
    if after not in files[count + (count > 0) : count + 3]:
        return f"the file is neither as before nor as after line {count + 1}"
    return None


def try_row(program, shim, folder, start, script, wanted, refused=None):
    """Tries a script over these files, which may print this where its disk is refused memory: how many requests were refused, and what was
    wrong."""
    lines = script.split(" / ")
    whole, status, _ = run(program, folder, start, lines)
    if status != 0 or not are_wanted(whole, wanted.split(" / ")):
        return 0, [f"unrefused, status {status}, it prints {whole!r}"]
    files = [start, *(run(program, folder, start, lines[:k])[2] for k in range(len(lines) + 1))]
    wrong, closed = [], 0
    tell = os.path.join(folder, "refused")
    for at in range(1, 100000):
        more = {"LD_PRELOAD": shim, "REFUSE_AT": str(at), "REFUSE_TELL": tell}
        said, status, after = run(program, folder, start, lines, **more)
        if not os.path.exists(tell):
            return at - 1, wrong + ([] if refused is None or closed else ["no request was the disk's own"])
        os.remove(tell)
        if refused is not None and status == 0 and are_wanted(said, refused.split(" / ")):
            closed += 1
            continue
        what = fault(said, status, after, replies_of(whole), files)
        if what:
            wrong.append(f"request {at} refused: {what}")
    return at, wrong


def rows():
    """The files of each run, its script, what it prints, and what it prints where its disk is refused memory, if it can be."""
    yield [], *IN_MEMORY
    for data, script, wanted in ROWS:
        yield [] if data is None else [data], script, wanted
        if data is not None:
            yield [data, b""], script, wanted
    # a start that recovers the file
    yield [HI[:100], journal_of(1, HI)], "CountTypes / UpdateResFile", "1 CountTypes 1 0 / 2 UpdateResFile 0"


def main(program):
    count = refused = 0
    failures = []
    with tempfile.TemporaryDirectory() as folder:
        shim = os.path.join(folder, "refuse.so")
        subprocess.run([os.environ.get("CC", "cc"), "-O1", "-shared", "-fPIC", "-o", shim, SHIM, "-ldl"], check=True)
        for start, script, *printed in rows():
            requests, wrong = try_row(program, shim, folder, start, script, *printed)
            if requests == 0 and not wrong:
                wrong = ["no request was refused: the program doesn't ask the C library for memory"]
            count += 1
            refused += requests
            failures += [f"{script}, {len(start)} files\n  {it}" for it in wrong]
    for it in failures:
        print(it)
    print(f"host memory: {count} runs of {len(ROWS) + 2} scripts, {refused} requests refused in turn, {len(failures)} ended as they should not")
    return 1 if failures else 0
