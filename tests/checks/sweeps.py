"""Checks what resfork makes of a file of each kind cut to each length, and with each byte of what leads to its resources changed.

One small fork is kept raw and in each container of tests/checks/kept.py. Each cut file, and each with a byte changed to some other values,
is listed as the models of forks and containers say, or refused with the condition that fails, and its place. Many files are listed by one
run, whose status is the highest of theirs; so nothing ends it early.
"""
import os
import struct
import subprocess
import tempfile

from checks.fork_questions import Difference
from checks.kept import KEPT
from model.container import TOLD, NoContents, resource_fork
from model.fork import FORMAT, NoFork, listing, read_fork, told_of
from model.messages import message

AT_ONCE = 400
# two types, one of them with two resources; names; the map after the data
DATA = b"".join(struct.pack(">I", len(it)) + it for it in (b"Hello", b"", b"\x90\x90\x90 bytes"))
MAP = (
    bytes(22) + struct.pack(">3H", 0, 28, 82) + struct.pack(">H4s2H4s2H", 1, b"TEXT", 1, 18, b"STR ", 0, 42)
    + struct.pack(">hHI4x", 128, 0, 0x20000000) + struct.pack(">hHI4x", -5, 0xFFFF, 9) + struct.pack(">hHI4x", 0, 5, 0x40000000 + 13) + b"\4Main\0"
)
FORK = struct.pack(">4I", 256, 256 + len(DATA), len(DATA), len(MAP)) + bytes(240) + DATA + MAP


def changed(file, places):
    """The file with each byte at these places changed, to some values each."""
    for at in places:
        old = file[at]
        for new in {0, 255, old ^ 1, old ^ 128, (old + 1) % 256} - {old}:
            yield f"{new:02X} at {at}", file[:at] + bytes([new]) + file[at + 1 :]


def files():
    """All files, each with what it is."""
    assert len(MAP) == struct.unpack(">I", FORK[12:16])[0] and MAP[82:] == b"\4Main\0"
    kinds = [("a raw fork", FORK, [*range(16), *range(256, len(FORK))])]
    for keep, kept_as, _ in KEPT:
        file = keep(FORK)
        text = kept_as == message("binhex")
        kinds.append((kept_as, file, range(0, len(file), 3) if text else range(128 if "MacBinary" in kept_as else 74)))
    for what, file, places in kinds:
        yield what, file
        for length in range(len(file)):
            yield f"{what} of {length} bytes", file[:length]
        for change, new in changed(file, places):
            yield f"{what} with {change}", new


def wanted(file):
    """The list of a file, or a pattern of what is said of it."""
    try:
        fork = resource_fork(file)
    except NoContents as fault:
        return TOLD[fault.args[0]]
    try:
        return listing(read_fork(fork, FORMAT) if fork else [])
    except NoFork as fault:
        return told_of(fault.args[0], fork)


def try_files(program, folder, some):
    """Lists these files by one run, and compares each with what is wanted."""
    names = [f"f{index}" for index in range(len(some))]
    for name, (_, file) in zip(names, some):
        with open(os.path.join(folder, name), "wb") as it:
            it.write(file)
    done = subprocess.run([program, "ls", *names], cwd=folder, stdin=subprocess.DEVNULL, capture_output=True)
    output, told, refused = done.stdout.decode(), "\n" + done.stderr.decode(), 0
    for name, (what, file) in zip(names, some):
        answer = wanted(file)
        # a file that has none isn't named
        shown = f"{name}:\n{answer}" if isinstance(answer, str) and answer else ""
        if not output.startswith(shown):
            raise Difference(f"{what}: it wrote {output[:200]!r} and not {shown[:200]!r}, and told {told[:200]!r}")
        output = output[len(shown) :]
        if not isinstance(answer, str):
            message, _, told = told.removeprefix(f"\n{name}: ").partition("\nf")
            told, refused = "\nf" + told, refused + 1
            if not answer.search(message):
                raise Difference(f"{what}: it told {message!r} and not {answer.pattern!r}")
    if output or told not in ("\n", "\nf") or done.returncode != (3 if refused else 0):
        raise Difference(f"status {done.returncode}, it wrote {output[:200]!r} and told {told[:200]!r} at last")
    return refused


def main(program):
    """Tries all files."""
    program, tried, refused, some = os.path.abspath(program), 0, 0, []
    with tempfile.TemporaryDirectory() as folder:
        try:
            for what, file in files():
                some.append((what, file))
                if len(some) == AT_ONCE:
                    tried, refused, some = tried + len(some), refused + try_files(program, folder, some), []
            tried, refused = tried + len(some), refused + (try_files(program, folder, some) if some else 0)
        except Difference as difference:
            print(difference)
            return 1
    print(f"{tried} files, of which {refused} were refused, each with its condition")
    return 0
