"""Checks that `resfork ls` and `resfork get` read of a raw fork only its front, its map, and the lengths and bytes that they show.

Of random forks of tests/checks/forks.py, alone and with bytes after them, what is shown is compared with the model, and with what is
shown of the same bytes on the standard input, which is read whole. Of forks of 1 KB to 16.8 MB, the last with its map past 16 MB, the
bytes that a run reads are counted, too: wanted are at most those that it reads of an empty file, the first 4,096 (by which it sees that
the file is no disk image), the first 128 and 256, the map, four for each resource and the bytes that are written.
"""
import os
import random
import struct
import subprocess
import tempfile

from checks.fork_questions import Difference
from checks.forks import Choices, compare, run, try_fork
from model.fork import FORMAT, NoFork, listing, read_fork

FRONT = 4096 + 128 + 256
# what /proc/self/io says has more digits later
DIGITS = 64
BEHIND = 1 << 20
# each resource begins as a BinHex text does
BEGINNING = b"\r(This file must be converted"
# how many resources, and of how many bytes each; the last map begins past 16 MB
SIZES = [(4, 150)] + [(1 << it // 2, 1 << it - it // 2) for it in range(10, 24)]
SIZES += [(1, 4194304), (1282, 568), (1000, 4096), (5000, 3000), (16, 1048000), (16, 1048572)]


def whole(program, path, words):
    """What is shown of a file that is read whole, on the standard input."""
    with open(path, "rb") as file:
        done = subprocess.run([program, *words], stdin=file, stdout=subprocess.PIPE, stderr=subprocess.PIPE, check=False)
    return done.returncode, done.stdout, done.stderr.decode(errors="replace")


def try_ways(program, path):
    """Compares what is shown of a file by its name and on the standard input."""
    for words in (["ls"], ["ls", "--types"], ["ls", "--json"], ["get", "TEXT", "0"], ["get", "TEXT", "128"]):
        command, others = words[0], words[1:]
        by_name, by_input = run(program, [command, path, *others]), whole(program, path, [command, "-", *others])
        told = [text.replace(path, "-") for text in (by_name[1].decode(errors="replace"), by_name[2])]
        if (by_name[0], *told) != (by_input[0], by_input[1].decode(errors="replace"), by_input[2]):
            raise Difference(f"{' '.join(words)}: {by_name} by its name, and {by_input} on the standard input")


def datum(number, length):
    """The bytes of a resource."""
    return (BEGINNING + bytes([number % 251]) * length)[:length]


def fork_of(count, length):
    """A fork of so many resources of so many bytes each, and how many bytes its map has."""
    data = b"".join(struct.pack(">I", length) + datum(it, length) for it in range(count))
    references = b"".join(struct.pack(">hHB", it, 0xFFFF, 0) + (it * (4 + length)).to_bytes(3, "big") + bytes(4) for it in range(count))
    the_map = bytes(24) + struct.pack(">HHH4s2H", 28, 38 + 12 * count, 0, b"DATA", count - 1, 10) + references
    return struct.pack(">4I", 256, 256 + len(data), len(data), len(the_map)) + bytes(240) + data + the_map, len(the_map)


def bytes_read():
    """How many bytes this process has read, and those that it started and that have ended."""
    with open("/proc/self/io", encoding="ascii") as lines:
        return next(int(line.split()[1]) for line in lines if line.startswith("rchar:"))


def counted(program, path, words):
    """What a run writes, with its status, and how many bytes it reads."""
    with open(path + ".out", "wb") as output:
        before = bytes_read()
        status = subprocess.run([program, *words], stdin=subprocess.DEVNULL, stdout=output, check=False).returncode
        count = bytes_read() - before
    with open(path + ".out", "rb") as output:
        return (status, output.read(), ""), count


def own_bytes(program, path):
    """How many bytes a run reads that prints something of an empty file: those of the program itself, and of the limits of its output."""
    with open(path, "wb"):
        pass
    return counted(program, path, ["info", path])[1]


def try_count(program, path, words, wanted, most):
    """Compares what a run writes, and how many bytes it reads at most."""
    shown, count = counted(program, path, words)
    compare(" ".join(words), shown, 0, wanted, "")
    if count > most:
        raise Difference(f"{' '.join(words)}: it read {count} bytes, and at most {most} are wanted")


def try_size(program, path, count, length):
    """Counts the bytes that are read of a fork of so many resources of so many bytes each."""
    most = own_bytes(program, path) + DIGITS + FRONT
    fork, map_length = fork_of(count, length)
    with open(path, "wb") as file:
        file.write(fork)
    most += map_length + 4 * count
    try_count(program, path, ["get", path, "DATA", str(count - 1)], datum(count - 1, length), most + length)
    try_count(program, path, ["ls", path], listing(read_fork(fork, FORMAT)).encode(), most)
    try_ways(program, path)


def try_random(program, path, number):
    """Tries a random fork, alone and with bytes after it. The result is whether it is one."""
    fork = Choices(number).fork()
    large = fork + random.Random(number).randbytes(16) * (BEHIND // 16)
    for file in (fork, large):
        try_fork(program, path, file, random.Random(number))
        try_ways(program, path)
    try:
        read_fork(large, FORMAT)
    except NoFork:
        return False
    return True


def main(program, count=40):
    """Tries so many random forks, and counts what is read of forks of all sizes."""
    forks = 0
    with tempfile.TemporaryDirectory() as folder:
        path = os.path.join(folder, "fork")
        what = ""
        try:
            for number in range(1, count + 1):
                what = f"fork {number}"
                forks += try_random(program, path, number)
            for rows, length in SIZES:
                what = f"{rows} resources of {length} bytes"
                try_size(program, path, rows, length)
        except Difference as difference:
            print(f"{what}: {difference}")
            return 1
    print(f"{count} random forks, of which {forks} are whole, and the bytes that are read of {len(SIZES)} forks of 1 KB to 16.8 MB")
    return 0
