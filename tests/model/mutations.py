"""Files that are changed by chance: bytes, lengths and ends, each from a number, so that it can be made again.

Where the corpus of other software's files is there, those are changed; else forks of this project's, and some of tests/checks/forks.py. A fork is put
into a container first, or changed and then put into one, so that sums over the container are right.
"""
import glob
import os
import random
import struct

from checks.forks import Choices
from checks.kept import KEPT
from model.container import NoContents, resource_fork
from model.fork import FORMAT, NoFork, read_fork
from model.messages import message
from places import TOP

CORPUS = os.path.join(os.path.dirname(TOP), "shared", "corpus")
OWN = ["crates/resfork/data/*.rsrc", "examples/**/*.rsrc"]
# values at which lengths, offsets and counts change their meaning
EDGES = [0, 1, 2, 0x7F, 0x80, 0xFE, 0xFF, 0x100, 0x7FFF, 0x8000, 0xFFFE, 0xFFFF, 0xFFFFFF, 0x7FFFFFFF, 0x80000000, 0xFFFFFFFE, 0xFFFFFFFF]


def bytes_of(path):
    with open(path, "rb") as file:
        return file.read()


def corpus(folder=CORPUS):
    """The files that are changed, each with its name."""
    paths = sorted(path for path in glob.glob(f"{folder}/**/*", recursive=True) if os.path.isfile(path) and not path.endswith((".md", ".txt")))
    paths = paths or sorted(path for pattern in OWN for path in glob.glob(os.path.join(TOP, pattern), recursive=True))
    files = [(os.path.basename(path), bytes_of(path)) for path in paths]
    return files + [(f"fork {number}", Choices(number).fork()) for number in range(1, 9)]


def fork_in(data):
    """The resource fork of a file, or the file."""
    try:
        return resource_fork(data)
    except NoContents:
        return data


def field(choices, data, at, size):
    """Another value for a big-endian field: one near it, one of the edges, or the length of the file or near it."""
    old = int.from_bytes(data[at : at + size], "big")
    new = choices.choice([choices.choice(EDGES), old + choices.choice([-1, 1, 4, -4, 16]), len(data) + choices.choice([-1, 0, 1]), choices.randrange(len(data) + 1)])
    return (new % 256**size).to_bytes(size, "big")


def places(choices, data):
    """A place where a change is likely to matter: the header, the map of a fork, or anywhere."""
    dice = choices.random()
    if dice < 0.3 or len(data) < 32:
        return choices.randrange(min(len(data), 160))
    map_at = struct.unpack(">I", data[4:8])[0]
    if dice < 0.8 and map_at + 28 < len(data):
        return choices.randrange(map_at, min(len(data), map_at + choices.choice([64, 4096])))
    return choices.randrange(len(data))


def changed(choices, data):
    """The bytes with some changes."""
    data = bytearray(data)
    for _ in range(choices.choice([1, 1, 1, 2, 3, 8])):
        if not data:
            break
        dice, at = choices.random(), places(choices, data)
        if dice < 0.35:
            data[at] = choices.choice([0, 1, 0xFF, data[at] ^ 1 << choices.randrange(8), choices.randrange(256)])
        elif dice < 0.7:
            size = choices.choice([2, 2, 3, 4, 4])
            data[at : at + size] = field(choices, data, at, size)
        elif dice < 0.8:
            del data[at:]
        elif dice < 0.87:
            del data[at : at + choices.choice([1, 2, 12, 100])]
        elif dice < 0.94:
            data[at:at] = choices.randbytes(choices.choice([1, 2, 12, 100]))
        else:
            size, to = choices.choice([2, 8, 12, 64]), places(choices, data)
            data[to : to + size] = data[at : at + size]
    return bytes(data)


def mutation(files, number):
    """The file of this number: what it is, its bytes, and those that were not changed."""
    choices = random.Random(number)
    name, good = files[number % len(files)]
    way = choices.randrange(3)
    if way == 0:
        return name, changed(choices, good), good
    fork = fork_in(good)
    keep, kind, _ = choices.choice([*KEPT, (lambda it: it, message("raw"), 0)])
    kept = keep(fork)
    if way == 1:
        return f"{name} in {kind}, changed", changed(choices, kept), kept
    return f"{name}, changed, in {kind}", keep(changed(choices, fork)), kept


def some_resource(choices, good):
    """The type and the id of a resource of a file that wasn't changed, as words."""
    try:
        rows = [row for row in read_fork(fork_in(good), FORMAT) if row.kind.isalnum()]
    except NoFork:
        rows = []
    row = choices.choice(rows) if rows else None
    return ("TEXT", "128") if row is None else (row.kind.decode("latin-1"), str(row.ident))
