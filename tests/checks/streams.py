"""Checks what a macheap program does where its input or its output fails: at each byte of the scripts below, and of what they print.

An output that takes some bytes, and then fails, is interrupted once or takes none: these bytes are the beginning of what the whole run prints, nothing is said
on standard error, and the status is 1. The calls up to the reply that isn't whole were made, so the file and its journal are as after them.
An input that gives some bytes and then fails or is interrupted once: nothing is printed, the status is 1, and the file and its journal keep their bytes. One
that ends there is the script of these bytes. Inputs and outputs that go in small steps change nothing. Each reply is one write, what failed isn't tried
again, and of an input that is too long no more is read than shows it. Beside these are such as a system has: a device that is full, a pipe without a
reader, a folder to read from. Needs a C compiler: `cc`, or $CC.
"""
import errno
import os
import subprocess
import tempfile

from checks.files import HI
from checks.memory import replies_of
from model.toolbox import journal_of
from places import INTERPOSE

SHIM = os.path.join(INTERPOSE, "fail_stream.c")
READ_ERRORS = [errno.EIO, errno.EINTR]
# the last stands for an output that takes no byte
WRITE_ERRORS = [errno.EIO, errno.EINTR, 0]

# a script, its replies, and the lengths of the writes of these
SHORT = "h = NewHandle 2\nPoke h 0 \"Hi\"\nPeek h 0 2\n"
REPLIES = b'1 NewHandle $0010003C 0\n2 Poke 0\n3 Peek "Hi" 0\n'
LENGTHS = [24, 9, 14]
# comments of so many bytes, which are one byte a read, and how the run ends
COMMENTS = [(1_048_576, (0, b"")), (1_048_577, (3, b"script fault at line 0\n")), (1_048_580, (3, b"script fault at line 0\n"))]

PRINTS = "h = NewHandle 100\nPoke h 0 \"Hi\"\nPeek h 0 4\nZoneMap"
LENT = "h = NewHandle 8\np = NewPtr 20\nHLock h\nPoke h 0 \"HandleHa\"\nLend h\nLend p\n"
UPDATES = "h = GetResource 'TEXT' 128\nPoke h 0 \"No\"\nChangedResource h\nUpdateResFile\nSetHandleSize h 3\nChangedResource h\nCloseResFile\nCountTypes"
UPDATED = (
    "1 GetResource $0010003C 0\n2 Poke 0\n3 ChangedResource 0\n4 UpdateResFile 0\n5 SetHandleSize 0\n6 ChangedResource 0\n"
    "7 CloseResFile 0\n8 CountTypes -193\n"
)
# the words, the script, the bytes of the fork and of its journal, or None for none, and what the whole run prints, or None for help. The last journal
# is recovered by a start.
ROWS = [
    (
        [], PRINTS, None, None,
        "1 NewHandle $0010003C 0\n2 Poke 0\n3 Peek $\"48690000\" 0\n4 ZoneMap 3 0\n"
        "  $00100034 264 master\n  $0010013C 108 rel $0010003C 100 ---\n  $001001A8 3672 free\n",
    ),
    # two blocks stay lent
    ([], LENT, None, None, "1 NewHandle $0010003C 0\n2 NewPtr $00100144 0\n3 HLock 0\n4 Poke 0\n5 Lend 0\n6 Lend 0\n"),
    ([], "ZoneMap\nNewHandl 3\n", None, None, "script fault at line 2\n"),
    (["--help"], "", None, None, None),
    ([], UPDATES, HI, None, UPDATED),
    ([], UPDATES, HI, b"", UPDATED),
    ([], "CountTypes\nUpdateResFile\n", HI[:100], journal_of(1, HI), "1 CountTypes 1 0\n2 UpdateResFile 0\n"),
]  # fmt: skip


class Files:
    """The fork and the journal of a row in a folder: the words that name them, and their bytes."""

    def __init__(self, folder, *files):
        self.files = [(os.path.join(folder, name), data) for name, data in zip(("fork", "journal"), files) if data is not None]
        self.words = [word for (path, _), option in zip(self.files, ("--fork", "--journal")) for word in (option, path)]
        for path, data in self.files:
            with open(path, "wb") as file:
                file.write(data)

    def left(self):
        """The bytes that are there now."""
        contents = []
        for path, _ in self.files:
            with open(path, "rb") as file:
                contents.append(file.read())
        return contents


class Player:
    """Runs a row's script over its files, which are new each time."""

    def __init__(self, program, shim, folder, row):
        self.program, self.shim, self.folder = program, shim, folder
        self.words, self.script, *self.files, self.printed = row

    def play(self, script=None, **settings):
        """The status, what was printed, what was said, and the files after the run, with these settings of the shim."""
        files = Files(self.folder, *self.files)
        environment = {**os.environ, "LD_PRELOAD": self.shim, **{name: str(it) for name, it in settings.items()}}
        script = self.script if script is None else script
        done = subprocess.run([self.program, *self.words, *files.words], input=script.encode(), capture_output=True, env=environment, check=False)
        return done.returncode, done.stdout, done.stderr, files.left()

    def before(self):
        """The files as a row has them."""
        return [data for data in self.files if data is not None]


def failing(error):
    """The settings with which a call fails by this error; one that is interrupted would go on if it were tried again."""
    return {"STREAM_ERROR": error, **({"STREAM_ONCE": 1} if error == errno.EINTR else {})}


def whole_run(player):
    """What is printed where nothing fails."""
    if player.printed is not None:
        yield "the whole run", player.play()[1].decode(), player.printed


def steps(player):
    """Inputs and outputs that go in small steps change nothing."""
    whole = player.play()
    for step in (1, 5, 7):
        yield f"{step} bytes at once", player.play(STREAM_STEP=step), whole


def outputs(player):
    """An output ends at each byte."""
    status, whole, told, after = player.play()
    lines = player.script.split("\n")
    # a reply's number is that of its line
    ends = [0]
    following = []
    for reply in replies_of(whole.decode()):
        ends.append(ends[-1] + len(reply))
        following.append(player.play("\n".join(lines[: int(reply.split(" ")[0])]))[3])
    for count in range(len(whole)):
        made = sum(end <= count for end in ends[1:])
        left = following[made] if following else player.before()
        for error in WRITE_ERRORS:
            wanted = (1, whole[:count], b"", left)
            yield f"an output of {count} bytes, error {error}", player.play(STREAM_TAKES=count, **failing(error)), wanted
    yield "an output of all bytes", player.play(STREAM_TAKES=len(whole), STREAM_ERROR=errno.EIO), (status, whole, told, after)


def inputs(player):
    """An input fails at each byte, the end among them, or ends there."""
    if not player.script:
        return
    for count in range(len(player.script) + 1):
        for error in READ_ERRORS:
            wanted = (1, b"", b"", player.before())
            yield f"an input of {count} bytes, error {error}", player.play(STREAM_GIVES=count, **failing(error)), wanted
        wanted = player.play(player.script[:count])
        if wanted[0] not in (0, 3):
            wanted = "status 0 or 3"
        yield f"an input that ends behind {count} bytes", player.play(STREAM_GIVES=count), wanted


def calls(program, shim, folder):
    """How often is read and how long each write is."""
    log = os.path.join(folder, "log")

    def logged(script, **settings):
        with open(log, "w", encoding="ascii"):
            pass
        status, printed, _, _ = Player(program, shim, folder, ([], script, None, None, None)).play(STREAM_LOG=log, **settings)
        with open(log, encoding="ascii") as file:
            lines = file.read().split()
        return (status, printed), sum(it[0] == "r" for it in lines), [int(it[1:]) for it in lines if it[0] == "w"]

    ended, _, writes = logged(SHORT)
    yield "each reply is one write", (ended, writes), ((0, REPLIES), LENGTHS)
    ended, _, writes = logged(SHORT, STREAM_TAKES=LENGTHS[0], **failing(errno.EINTR))
    yield "a write that failed", (ended, writes), ((1, REPLIES[: LENGTHS[0]]), LENGTHS[:2])
    ended, reads, _ = logged("ZoneMap", STREAM_STEP=1, STREAM_GIVES=1, **failing(errno.EINTR))
    yield "a read that failed", (ended, reads), ((1, b""), 2)
    for count, end in COMMENTS:
        ended, reads, _ = logged("#" * count, STREAM_STEP=1)
        yield f"reads of {count} bytes, {reads}", (ended, reads <= 1_048_578), (end, True)


def of_the_system(program, folder):
    """Outputs and inputs such as a system has."""
    script, gone = os.path.join(folder, "script"), os.pipe()
    os.close(gone[0])
    with open(script, "w", encoding="ascii") as file:
        file.write(PRINTS)
    with open(script, "rb") as given, open("/dev/full", "wb") as full:
        for what, output in (("a full device", full), ("a pipe without a reader", gone[1])):
            given.seek(0)
            done = subprocess.run([program], stdin=given, stdout=output, stderr=subprocess.PIPE, check=False)
            yield what, (done.returncode, done.stderr), (1, b"")
    os.close(gone[1])
    directory = os.open(folder, os.O_RDONLY)
    done = subprocess.run([program], stdin=directory, capture_output=True, check=False)
    os.close(directory)
    yield "a folder to read from", (done.returncode, done.stdout, done.stderr), (1, b"", b"")
    for what, closed, printed in (("no input", 0, b""), ("no output", 1, b"")):
        with open(script, "rb") as given:
            done = subprocess.run([program], stdin=given, capture_output=True, preexec_fn=lambda file=closed: os.close(file), check=False)
        yield what, (done.returncode, done.stdout, done.stderr), (1, printed, b"")


def main(program):
    count, failures = 0, []
    with tempfile.TemporaryDirectory() as folder:
        shim = os.path.join(folder, "stream.so")
        subprocess.run([os.environ.get("CC", "cc"), "-O1", "-shared", "-fPIC", "-o", shim, SHIM, "-ldl"], check=True)
        runs = [("", calls(program, shim, folder)), ("", of_the_system(program, folder))]
        for row in ROWS:
            player = Player(program, shim, folder, row)
            runs += [(f"{' '.join(row[0])} {row[1]!r}, ", kind(player)) for kind in (whole_run, steps, outputs, inputs)]
        for row, results in runs:
            for what, got, wanted in results:
                count += 1
                failures += [f"{row}{what}: {got} and not {wanted}"] if got != wanted else []
    for it in failures:
        print(it)
    print(f"streams: {count - len(failures)} runs as they should be, {len(failures)} not")
    return 1 if failures or not count else 0
