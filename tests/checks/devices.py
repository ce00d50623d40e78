"""Checks which calls a macheap program makes on the device of a resource file, and what it does where each of them in turn fails.

The calls are letters: s asks for the file's length, r reads, w writes, c cuts, y syncs; capital ones are those on its journal, where it has one. A
call that fails isn't made: the line that made it answers ioErr, and no further call is made for it. Where it came before the first write of an
update the file keeps its bytes and stays open; else the file is closed. The lines after it answer as on a device that works again. With a
journal the next start, or the next OpenResFile, finds the fork from before the update where the gate wasn't opened yet, and else the new
one; but after a sync that failed each OpenResFile of that run answers ioErr. The calls and their numbers begin after those by which a start asks which
file each of them is, and syncs it. Needs a C compiler: `cc`, or $CC.
"""
import os
import subprocess
import tempfile

from checks.files import A_XYZ, AB, BARE, HI, NONE, ZERO
from checks.fork_table import TABLE, read_table
from checks.runs import are_wanted, read
from model.toolbox import File, Row, journal_of
from places import INTERPOSE

SHIM = os.path.join(INTERPOSE, "fail_device.c")


def fork_of(*rows):
    """The fork of resources 'TEXT' 1 and on with these bytes."""
    return File(1, [Row(b"TEXT", it, None, 0, data) for it, data in enumerate(rows, 1)]).fork(lambda row: row.disk)


def changed(at, byte):
    """The fork of one resource with a byte changed."""
    return HI[:at] + bytes([byte]) + HI[at + 1 :]


with open(TABLE, encoding="utf-8") as forks_of_the_table:
    FORKS = {name: case.fork for name, case in read_table(forks_of_the_table)[0].items()}

# Forks that are opened: the calls, and the code.
OPENED = [
    ("one resource", HI, "ssrrr", 0),
    ("two whose bytes stand apart", FORKS["reversed"], "ssrrrr", 0),
    ("none, with a header and a map alone", FORKS["small"], "ssrr", 0),
    ("none, with a header, extra bytes and a map", NONE, "ssrr", 0),
    ("an empty file", b"", "s", 0),
    # a fault comes when it shows
    *((f"byte {at} changed", changed(at, byte), calls, -199) for at, byte, calls in (
        (10, 0xFF, "ssr"), (7, 0x07, "ssr"), (15, 0x1B, "ssr"),
        (287, 0x30, "ssrr"), (297, 0x01, "ssrr"), (302, 0x00, "ssrr"), (307, 0x03, "ssrr"),
        (307, 0x01, "ssrrr"), (259, 0x03, "ssrrr"),
    )),
    *((f"cut to {length} bytes", HI[:length], calls, code) for length, calls, code in (
        (1, "ss", -39), (15, "ss", -39), (16, "ssr", -199), (256, "ssr", -199), (311, "ssr", -199),
    )),
]  # fmt: skip


# Files that are opened once more: the fork, the script, its calls, what it prints, and the fork after it. Each opening reads the fork
OPENED_AGAIN = [
    ("closed", HI, "CloseResFile / OpenResFile 1 / h = GetResource 'TEXT' 128 / Peek h 0 2", "ssrrr" + "rwcy" + "ssrrr" + "r", ["..", '4 Peek "Hi" 0'], HI),
    ("closed without resources", b"", "CloseResFile / OpenResFile 1 / CountTypes", "s" + "wcy" + "ssrr", ["..", "3 CountTypes 0 0"], NONE),
    # a changed resource, one whose edit nobody reported, and one with other attributes
    (
        "changed and closed", fork_of(b"0"), "h = GetResource 'TEXT' 1 / SetHandleSize h 5 / Poke h 0 \"abcde\" / ChangedResource h / CloseResFile / OpenResFile 1 / k = GetResource 'TEXT' 1 / Peek k 0 5 / GetResAttrs k",
        "ssrrr" + "r" + "wcy" + "ssrrr" + "r", ["..", '8 Peek "abcde" 0', "9 GetResAttrs 0 0"], fork_of(b"abcde"),
    ),
    (
        "edited and closed", HI, "h = GetResource 'TEXT' 128 / Poke h 0 \"No\" / CloseResFile / OpenResFile 1 / k = GetResource 'TEXT' 128 / Peek k 0 2",
        "ssrrr" + "r" + "rwcy" + "ssrrr" + "r", ["..", '6 Peek "Hi" 0'], HI,
    ),
    (
        "closed with other attributes", HI, "h = GetResource 'TEXT' 128 / SetResAttrs h 32 / CloseResFile / OpenResFile 1 / k = GetResource 'TEXT' 128 / HGetState k / GetResAttrs k",
        "ssrrr" + "r" + "rwcy" + "ssrrr" + "r", ["..", "6 HGetState 96 0", "7 GetResAttrs 32 0"], changed(304, 32),
    ),
    # and what is changed after an update and then updated with the file
    (
        "updated, changed and closed", HI, "h = GetResource 'TEXT' 128 / UpdateResFile / SetResAttrs h 32 / CloseResFile / OpenResFile 1 / k = GetResource 'TEXT' 128 / GetResAttrs k",
        "ssrrr" + "r" + "rwcy" + "rwcy" + "ssrrr" + "r", ["..", "7 GetResAttrs 32 0"], changed(304, 32),
    ),
    ("refused three times", HI[:300], "OpenResFile 1 / OpenResFile 1", "ssr" * 3, ["0 OpenResFile -199", "1 OpenResFile -199", "2 OpenResFile -199"], HI[:300]),
    ("refused three times for a few bytes", HI[:10], "OpenResFile 1 / OpenResFile 1", "ss" * 3, ["0 OpenResFile -39", "1 OpenResFile -39", "2 OpenResFile -39"], HI[:10]),
]  # fmt: skip


class Played:
    """What a program printed over a file, with a journal or without, or over two files, its calls, and the bytes that it left."""

    def __init__(self, program, shim, folder, fork, lines, journal=None, second=None, asking=0, **settings):
        path, other, log, beside = (os.path.join(folder, it) for it in ("fork", "second", "log", "journal"))
        words = ["--fork", path] + (["--journal", beside] if journal is not None else []) + (["--fork", other] if second is not None else [])
        for name, data in ((path, fork), (other, second or b""), (log, b""), (beside, journal or b"")):
            with open(name, "wb") as file:
                file.write(data or b"")
        if fork is None:
            os.remove(path)
        # a start syncs the folder of a fork that it makes; it asks of each file, once it is open, which one it is, and syncs it; `asking` is the number of such a
        # call, which fails
        asks = ("y" if fork is None else "") + "sy" + ("SY" if journal is not None else "") + ("sy" if second is not None else "")
        numbers = {name: it + len(asks) if it and name in ("DEVICE_FAIL", "DEVICE_SHORT", "DEVICE_CUT") else it for name, it in settings.items()}
        numbers |= {"DEVICE_FAIL": asking} if asking else {}
        environment = {**os.environ, "LD_PRELOAD": shim, "DEVICE_LOG": log, "DEVICE_JOURNAL": beside, **{name: str(it) for name, it in numbers.items()}}
        done = subprocess.run([program, *words], input="\n".join(lines), capture_output=True, text=True, env=environment, check=False)
        self.printed, self.said, self.status = done.stdout, done.stderr.replace(folder, "@"), done.returncode
        with open(log, encoding="ascii") as file:
            calls = file.read()
        self.calls = calls.removeprefix(asks) if calls.startswith(asks) else f"{calls}, of which the first aren't {asks}"
        with open(path, "rb") as file:
            self.left = file.read()
        with open(beside, "rb") as file:
            self.journal = file.read()
        with open(other, "rb") as file:
            self.second = file.read()

    def fault(self, printed, calls, left, journal=b""):
        """What isn't as it should be, or None. Calls of None, and a journal of None, may be any."""
        if self.status != 0 or not are_wanted(self.printed, printed):
            return f"status {self.status}, it printed {self.printed!r} and not {printed}"
        if calls is not None and self.calls != calls:
            return f"its calls were {self.calls} and not {calls}"
        if journal is not None and self.journal != journal:
            return f"its journal has {len(self.journal)} bytes, {self.journal[:5]}, which aren't the {len(journal)} that are wanted"
        return None if self.left == left else f"it left {len(self.left)} bytes, which aren't the {len(left)} that are wanted"


def asked(play):
    """A file of which the system doesn't say which one it is, or that it can't sync, isn't opened, and nothing is read or written."""
    for turn, name, what in ((1, "fork", "which one it is"), (2, "fork", "a sync"), (3, "journal", "which one it is"), (4, "journal", "a sync")):
        played = play(HI, ["CountTypes"], b"", asking=turn)
        right = (1, "", f"cannot open @/{name}: the system refuses it; name another file\n", HI, b"")
        found = (played.status, played.printed, played.said, played.left, played.journal)
        yield f"{what} of the {name}", None if found == right else f"it ended so: {found}"
    yield "a fork that is made", play(None, ["CurResFile"]).fault(["1 CurResFile 1 0"], "s", b"")
    played = play(None, ["CurResFile"], asking=1)
    right = (1, "", "cannot open @/fork: the system refuses it; name another file\n", b"")
    found = (played.status, played.printed, played.said, played.left)
    yield "a sync of the folder of a fork that is made", None if found == right else f"it ended so: {found}"


def opened(play):
    """Each fork is opened, and each call of it fails in turn; then it is opened again, where all is well."""
    for what, fork, calls, code in OPENED:
        first = [f"0 OpenResFile {code}"] if code else []
        yield what, play(fork, ["CountTypes"]).fault([*first, ".."], calls, fork)
        for turn in range(1, len(calls) + 1):
            again = "1 OpenResFile " + (f"{code}" if code else "1 0")
            played = play(fork, ["OpenResFile 1"], DEVICE_FAIL=turn)
            yield f"{what}, call {turn}", played.fault(["0 OpenResFile -36", again], calls[:turn] + calls, fork)


def opened_again(play):
    """Each file is opened once more, without a journal and with one, which is recovered each time; so is a second file. So is one that an update left in part."""
    for what, fork, script, calls, printed, left in OPENED_AGAIN:
        lines = script.split(" / ")
        yield f"opened again, {what}", play(fork, lines).fault(printed, calls, left)
        yield f"opened again, {what}, with a journal", play(fork, lines, b"").fault(printed, None, left, None)
    refused = play(HI[:300], ["OpenResFile 1", "OpenResFile 1"], b"")
    yield "refused three times, with a journal", refused.fault(["0 OpenResFile -199", "1 OpenResFile -199", "2 OpenResFile -199"], ("YS" + "ssr") * 3, HI[:300])
    second = play(b"", ["OpenResFile 2", "CloseResFile 2", "OpenResFile 2", "h = GetResource 'TEXT' 128", "Peek h 0 2"], second=HI)
    yield "a second file opened again", second.fault(["..", '5 Peek "Hi" 0'], "s" + "ssrrr" + "rwcy" + "ssrrr" + "r", b"")
    lines = ["h = GetResource 'TEXT' 128", "ChangedResource h", "CloseResFile", "OpenResFile 1"]
    for calls in ("w", "wc", "wcy"):
        left = play(HI, lines, DEVICE_FAIL=6 + len(calls))
        yield f"opened again behind {calls}", left.fault(["..", "3 CloseResFile -36", "4 OpenResFile 1 0"], "ssrrr" + "r" + calls + "ssrrr", HI)


def in_parts(play):
    """Each read and write in turn is made for half of its bytes: the rest is read or written by another call, and all else is as it was."""
    for what, fork, script, calls, printed, left in OPENED_AGAIN:
        lines = script.split(" / ")
        if fork in (HI, b""):
            for turn, letter in enumerate(calls, 1):
                if letter in "rw":
                    played = play(fork, lines, DEVICE_SHORT=turn)
                    yield f"in parts, {what}, call {turn}", played.fault(printed, calls[:turn] + letter + calls[turn:], left)
        for turn, letter in enumerate(play(fork, lines, b"").calls, 1):
            if letter in "rwRW":
                played = play(fork, lines, b"", DEVICE_SHORT=turn)
                yield f"in parts, {what}, with a journal, call {turn}", played.fault(printed, None, left, None)


def torn(made, old, new):
    """What is on a file without a journal where these calls of an update were made, and then one failed."""
    if "c" in made:
        return new
    return new + old[len(new) :] if "w" in made else old


def found(made, calls, old, new):
    """The fork that a start finds with a journal, where these of an update's calls were made, and then one failed: it ends with those of OPEN_GATE."""
    return new if len(made) > len(calls) - len(OPEN_GATE) else old


class Update:
    """A script whose last line updates a file: its calls before that line and for it, and the forks before and after it."""

    def __init__(self, script, fork, before, calls, new):
        self.lines, self.fork, self.before, self.calls, self.new = script.split(" / "), fork, before, calls, new

    def left(self, turn):
        """What is on the file where the call of this number of the update fails."""
        return torn(self.calls[: turn - 1], self.fork, self.new)


# all changed rows are written by one write, a cut and a sync; each row that keeps its bytes is read before them, if it has any
UPDATES = [
    Update("UpdateResFile", b"", "s", "wcy", NONE),
    Update('h = NewHandle 2 / Poke h 0 "Hi" / AddResource h \'TEXT\' 128 / UpdateResFile', b"", "s", "wcy", HI),
    # longer, and none keeps its bytes
    Update(
        "h = GetResource 'TEXT' 1 / SetHandleSize h 5 / Poke h 0 \"abcde\" / ChangedResource h / UpdateResFile", fork_of(b"0"), "ssrrrr", "wcy", fork_of(b"abcde")
    ),
    # shorter, and none does
    Update("h = GetResource 'TEXT' 128 / EmptyHandle h / ChangedResource h / EmptyHandle h / UpdateResFile", HI, "ssrrrr", "wcy", BARE),
    # shorter, and the rows of three bytes, of none and of one keep theirs
    Update(
        "h = GetResource 'TEXT' 1 / SetHandleSize h 2 / Poke h 0 \"GH\" / ChangedResource h / UpdateResFile",
        fork_of(b"abcdefgh", b"234", b"", b"9"),
        "ssrrrrrrr",
        "rrwcy",
        fork_of(b"GH", b"234", b"", b"9"),
    ),
    # all four keep their bytes
    Update("UpdateResFile", fork_of(b"a", b"bc", b"", b"d"), "ssrrrrrr", "rrrwcy", fork_of(b"a", b"bc", b"", b"d")),
    # a row that is written alone, and a file that is closed
    Update(
        "h = GetIndResource 'TEXT' 2 / SetHandleSize h 3 / Poke h 0 \"xyz\" / ChangedResource h / WriteResource h", AB, "ssrrrrr", "rwcy", A_XYZ
    ),
    Update("h = NewHandle 1 / AddResource h 'TEXT' 128 / CloseResFile", b"", "s", "wcy", ZERO),
    # a long row keeps its bytes, which one read gives
    Update("h = NewHandle 1 / AddResource h 'TEXT' 2 / UpdateResFile", fork_of(b"ab" * 150_000), "ssrrr", "rwcy", fork_of(b"ab" * 150_000, b"\0")),
]

# With a journal an update opens the gate, writes the fork and shuts the gate again; before that it puts the text into the journal.
OPEN_GATE = "WY" + "wcy" + "WY"
PUT_TEXT = "WWCY"
# Journals that no start uses: what they are, the calls of a start, and those by which an update finds the gate, and shuts it where need be
UNUSED = [("an empty journal", b"", "YS", "SWY"), ("a shut one", journal_of(0, HI), "YSR", "SR"), ("an open one cut short", journal_of(1, HI)[:-1], "YSR", "SRWY")]

# whole scripts, some with loads or an update before their last line, and the fork on which they run
ROWS = [
    ("UpdateResFile", b""),
    ('h = NewHandle 2 / Poke h 0 "Hi" / AddResource h \'TEXT\' 128 / UpdateResFile', b""),
    ("a = NewHandle 1 / b = NewHandle 1 / AddResource a 'TEXT' 5 / AddResource b 'TEXT' 5 / GetResource 'TEXT' 5 / CountResources 'TEXT' / UpdateResFile", b""),
    ("h = GetResource 'TEXT' 128 / ChangedResource h / DetachResource h / UpdateResFile / DetachResource h / k = GetResource 'TEXT' 128 / Peek k 0 2", HI),
    (
        "SetResLoad 0 / h = GetResource 'TEXT' 128 / GetHandleSize h / LoadResource h / GetHandleSize h / GetResInfo h / GetIndResource 'TEXT' 1 / GetIndResource 'TEXT' 2",
        HI,
    ),
    (
        'h = NewHandle 2 / Poke h 0 "Hi" / AddResource h \'TEXT\' 128 "n" / UniqueID \'TEXT\' / CountTypes / GetIndType 1 / GetIndType 2 / ReleaseResource h / WriteResource h / GetResInfo h / SizeResource h / ReleaseResource h / GetHandleSize h / ResError / k = GetResource \'TEXT\' 128 / Peek k 0 2',
        b"",
    ),
]


def updated(play):
    """Each update is made, and each call of it fails in turn; then the file is opened again where it was closed."""
    for update in UPDATES:
        name, number = update.lines[-1].split(" ")[0], len(update.lines)
        what = f"{name}, {update.calls}"
        yield what, play(update.fork, update.lines).fault(["..", f"{number} {name} 0"], update.before + update.calls, update.new)
        for turn in range(1, len(update.calls) + 1):
            stays = "w" not in update.calls[:turn]
            played = play(update.fork, [*update.lines, "CurResFile", "ResError"], DEVICE_FAIL=len(update.before) + turn)
            printed = ["..", f"{number} {name} -36", f"{number + 1} CurResFile {int(stays)} 0", f"{number + 2} ResError 0 0"]
            yield f"{what}, call {turn}", played.fault(printed, update.before + update.calls[:turn], update.left(turn))
            if stays:
                again = play(update.fork, [*update.lines, update.lines[-1]], DEVICE_FAIL=len(update.before) + turn)
                printed = ["..", f"{number} {name} -36", f"{number + 1} {name} 0"]
                yield f"{what}, call {turn}, again", again.fault(printed, update.before + update.calls[:turn] + update.calls, update.new)


def journalled(play):
    """Each update is made with each of these journals, and each call of it fails in turn. Then the next start finds the old fork or the new one, and so does the next OpenResFile, but
    after a sync that failed."""
    for update in UPDATES:
        name, number, old, new = update.lines[-1].split(" ")[0], len(update.lines), update.fork, update.new
        for which, journal, start, gate in UNUSED:
            what, before = f"{name}, {update.calls}, {which}", start + update.before
            calls = update.calls.removesuffix("wcy") + gate + PUT_TEXT + OPEN_GATE
            whole = play(old, update.lines, journal)
            yield what, whole.fault(["..", f"{number} {name} 0"], before + calls, new, journal_of(0, new))
            for turn in range(1, len(calls) + 1):
                made, stays = calls[: turn - 1], "W" not in calls[:turn]
                ended = play(old, [*update.lines, "CurResFile"], journal, DEVICE_FAIL=len(before) + turn)
                printed = ["..", f"{number} {name} -36", f"{number + 1} CurResFile {int(stays)} 0"]
                yield f"{what}, call {turn}", ended.fault(printed, before + calls[:turn], torn(made, old, new), journal if stays else None)
                fork = found(made, calls, old, new)
                yield f"{what}, call {turn}, the next start", next_start(play, ended, fork)
                again = play(old, [*update.lines, "OpenResFile 1"], journal, DEVICE_FAIL=len(before) + turn)
                reply, left = ("-36", torn(made, old, new)) if is_sync(calls[turn - 1]) else ("1 0", fork)
                yield f"{what}, call {turn}, opened again", again.fault([*printed[:2], f"{number + 1} OpenResFile {reply}"], None, left, None)


def is_sync(call):
    return call in "yY"


def next_start(play, ended, fork):
    """What isn't as it should be where an empty script runs over the files that a run left: it finds this fork, and leaves nothing to recover."""
    once = play(ended.left, [], ended.journal)
    twice = play(once.left, [], once.journal)
    return once.fault([], None, fork, None) or twice.fault([], None, fork, once.journal)


def recovered(play):
    """A start recovers a fork that is half written, and each call of it fails in turn. Then the next start recovers it, and so does the next OpenResFile, but after a sync that failed."""
    half, journal = HI[:100], journal_of(1, HI)
    whole = play(half, ["CountTypes"], journal)
    yield "a recovery", whole.fault(["1 CountTypes 1 0"], "YSRR" + "wcy" + "WY" + "ssrrr", HI, journal_of(0, HI))
    for turn in range(1, len(whole.calls) + 1):
        ended = play(half, [], journal, DEVICE_FAIL=turn)
        left = torn(whole.calls[: turn - 1], half, HI)
        yield f"a recovery, call {turn}", ended.fault(["0 OpenResFile -36"], whole.calls[:turn], left, None)
        yield f"a recovery, call {turn}, the next start", next_start(play, ended, HI)
        again = play(half, ["OpenResFile 1"], journal, DEVICE_FAIL=turn)
        if is_sync(whole.calls[turn - 1]):
            yield f"a recovery, call {turn}, opened again", again.fault(["0 OpenResFile -36", "1 OpenResFile -36"], None, left, None)
        else:
            yield f"a recovery, call {turn}, opened again", again.fault(["0 OpenResFile -36", "1 OpenResFile 1 0"], None, HI, journal_of(0, HI))


def in_rows(play):
    """Each call of each of these scripts fails in turn, with a journal and without: the line that made it answers ioErr, those before it what they did without it, and
    each after it something. What a start finds after that line is the fork from before it, or with a journal the one from after it, by whether the gate was opened."""
    for script, fork in ROWS:
        lines = script.split(" / ")
        for journal in (None, b""):
            upto = [play(fork, lines[:count], journal) for count in range(len(lines) + 1)]
            replies = upto[-1].printed.splitlines()
            for turn in range(1, len(upto[-1].calls) + 1):
                at = next(count for count, it in enumerate(upto) if len(it.calls) >= turn)
                what = f"{script}{', with a journal' if journal is not None else ''}, call {turn} of them all"
                name = lines[at - 1].split(" = ")[-1].split(" ")[0] if at else "OpenResFile"
                printed = [*replies[: max(at - 1, 0)], f"{at} {name} -36"]
                played = play(fork, lines, journal, DEVICE_FAIL=turn)
                if len(played.printed.splitlines()) != len(lines) + (at == 0):
                    yield what, f"it printed {played.printed!r}"
                    continue
                old, new = upto[max(at - 1, 0)], upto[at]
                calls = new.calls if at == 0 else new.calls[len(old.calls) :]
                made = upto[-1].calls[: turn - 1].removeprefix(old.calls if at else "")
                ended = play(fork, lines[:at], journal, DEVICE_FAIL=turn)
                left = torn(made, old.left, new.left)
                yield what, ended.fault(printed, upto[-1].calls[:turn], left, None)
                if journal is not None:
                    yield f"{what}, the next start", next_start(play, ended, found(made, calls, old.left, new.left))


def loaded(play):
    """A resource is loaded by one read. Where it fails, or the file has become too short for it, it is loaded by the next one, and another resource too."""
    lines = ["h = GetResource 'TEXT' 2", "GetResource 'TEXT' 1", "k = GetResource 'TEXT' 1", "Peek k 0 3"]
    fork = fork_of(b"abc", b"de", b"")
    printed = ["1 GetResource -36", "..", '4 Peek "abc" 0']
    yield "a load", play(fork, lines).fault(["..", '4 Peek "abc" 0'], "ssrrrrr" + "rr", fork)
    yield "a load that fails", play(fork, lines, DEVICE_FAIL=8).fault(printed, "ssrrrrr" + "rr", fork)
    # the datum of the second begins at 267 and ends at 269
    yield "a load past the end", play(fork, lines, DEVICE_CUT=8, DEVICE_LENGTH=267).fault(printed, "ssrrrrr" + "rr", fork[:267])
    # what is there is read, and then nothing more
    yield "a load over the end", play(fork, lines, DEVICE_CUT=8, DEVICE_LENGTH=268).fault(printed, "ssrrrrr" + "rr" + "r", fork[:268])
    empty = ["h = GetResource 'TEXT' 3", "GetHandleSize h"]
    yield "a load of no bytes", play(fork, empty).fault(["..", "2 GetHandleSize 0 0"], "ssrrrrr", fork)


def read_only(play):
    """A file that may only be read is opened, without a journal and with one. What reads it answers as ever; an update fails at its first write, as on a device that
    fails, and changes nothing."""
    lines = ["h = GetResource 'TEXT' 128", "Peek h 0 2", "ChangedResource h", "UpdateResFile", "CurResFile"]
    printed = ["..", '2 Peek "Hi" 0', "3 ChangedResource 0", "4 UpdateResFile -36", "5 CurResFile 0 0"]
    yield "a file to be read", play(HI, lines, DEVICE_READ_ONLY=1).fault(printed, "ssrrr" + "r" + "w", HI)
    yield "a file to be read, with a journal", play(HI, lines, b"", DEVICE_READ_ONLY=1).fault(printed, "YS" + "ssrrr" + "r" + "SW", HI)


# Scripts of calls that make none on the device after the opening and these loads: the calls, and the last reply
QUIET = [
    # a resource that isn't changed is written already, also where its bytes, its handle's size or its attributes are others
    ("h = GetResource 'TEXT' 1 / WriteResource h / GetResAttrs h", "r", "3 GetResAttrs 0 0"),
    ("h = GetResource 'TEXT' 1 / Poke h 0 \"x\" / SetHandleSize h 9 / WriteResource h / ResError", "r", "5 ResError 0 0"),
    ("h = GetResource 'TEXT' 1 / SetResAttrs h 32 / WriteResource h / GetResAttrs h", "r", "4 GetResAttrs 32 0"),
    ("h = GetResource 'TEXT' 1 / EmptyHandle h / WriteResource h / SizeResource h", "r", "4 SizeResource 3 0"),
    # and so it is where another one is changed
    ("h = GetResource 'TEXT' 1 / k = GetResource 'TEXT' 2 / ChangedResource k / WriteResource h / GetResAttrs k", "rr", "5 GetResAttrs 2 0"),
    # a handle that has a block is loaded already
    ("h = GetResource 'TEXT' 1 / LoadResource h / GetResource 'TEXT' 1 / Get1Resource 'TEXT' 1 / GetIndResource 'TEXT' 1", "r", "5 GetIndResource $0010003C 0"),
    # no bytes are loaded without a read, and again where the handle was emptied
    ("h = GetResource 'TEXT' 3 / EmptyHandle h / LoadResource h / GetHandleSize h", "", "4 GetHandleSize 0 0"),
    ("h = GetIndResource 'TEXT' 3 / ReleaseResource h / h = Get1Resource 'TEXT' 3 / GetHandleSize h", "", "4 GetHandleSize 0 0"),
    ("SetResLoad 0 / h = GetResource 'TEXT' 1 / k = GetResource 'TEXT' 3 / LoadResource k / GetHandleSize k / GetHandleSize h", "", "6 GetHandleSize -109"),
    # what is said of a file is said without its device
    ("SetResLoad 0 / h = GetResource 'TEXT' 2 / SizeResource h / GetResInfo h / CountResources 'TEXT' / UniqueID 'TEXT' / GetIndType 1 / OpenResFile 1 / HomeResFile h", "", "9 HomeResFile 1 0"),
]


def quiet(play):
    """Each of these scripts makes the calls that it should and no others, without a journal and with one, and leaves the file as it was."""
    fork = fork_of(b"abc", b"de", b"")
    for script, loads, last in QUIET:
        lines = script.split(" / ")
        yield f"quiet, {script}", play(fork, lines).fault(["..", last], "ssrrrrr" + loads, fork)
        yield f"quiet, {script}, with a journal", play(fork, lines, b"").fault(["..", last], "YS" + "ssrrrrr" + loads, fork)


# the forks of tests/cases/faults.txt
FAULT_FORKS = {
    "EMPTY": b"",
    "HI": HI,
    "NO": HI.replace(b"Hi", b"No"),
    **{name: File(1, [Row(b"TEXT", 5, None, 0, it.encode()) for it in (name[0].lower(), name[1:].lower())]).fork(lambda row: row.disk) for name in ("AB", "AY", "CB", "A")},
}
FAULT_FORKS["A+1"] = FAULT_FORKS["A"] + AB[-1:]


def faults(table):
    """The rows of tests/cases/faults.txt: the forks, the lines, the call that fails or 0, the forks that are there then, and what is printed."""
    for row in table.read().split("\n"):
        if row.startswith("> "):
            names, script = row[2:].split(" : ")
            forks = [FAULT_FORKS[name] for name in names.split(" ")]
        elif row and not row.startswith("#"):
            turns, left, printed = row.split(" : ")
            first, _, last = turns.replace("none", "0").partition("-")
            for turn in range(int(first), int(last or first) + 1):
                yield forks, script.split(" / "), turn, [FAULT_FORKS[name] for name in left.split(" ")], printed.split(" / ")


def told(play):
    """The runs of tests/cases/faults.txt."""
    for forks, lines, turn, left, printed in read("faults.txt", faults):
        second = forks[1] if len(forks) > 1 else None
        played = play(forks[0], lines, second=second, DEVICE_FAIL=turn)
        fault = played.fault(printed, None, left[0])
        if len(played.calls) < turn:
            fault = f"it has only the calls {played.calls}"
        elif second is not None and played.second != left[1]:
            fault = f"it left {len(played.second)} bytes on the second file, which aren't the {len(left[1])} that are wanted"
        yield f"{' / '.join(lines)}, call {turn}", fault


def main(program):
    failures, count = [], 0
    with tempfile.TemporaryDirectory() as folder:
        shim = os.path.join(folder, "device.so")
        subprocess.run([os.environ.get("CC", "cc"), "-O1", "-shared", "-fPIC", "-o", shim, SHIM, "-ldl"], check=True)

        def play(fork, lines, journal=None, **settings):
            return Played(program, shim, folder, fork, lines, journal, **settings)

        for rows in (asked, opened, opened_again, in_parts, updated, loaded, quiet, read_only, recovered, journalled, in_rows, told):
            for what, fault in rows(play):
                count += 1
                failures += [f"{what}: {fault}"] if fault else []
    for it in failures:
        print(it)
    print(f"devices: {count - len(failures)} runs as they should be, {len(failures)} not")
    return 1 if failures or not count else 0
