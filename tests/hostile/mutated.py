"""Commands on files that are changed by chance: tests/model/mutations.py makes them.

No command crashes or hangs, none takes ten times the memory of its files beyond what it needs for a file that is small and right, a status other than 0
comes with no output but what says why, and no file is left but what a command is done with.
"""
import concurrent.futures
import json
import multiprocessing
import os
import random
import shutil
import tempfile

from hostile.bench import GAME, write
from measured import slowness
from hostile.bounds import CONTAINERS, manifest, ready
from model.mutations import changed, corpus, mutation, some_resource

SECONDS, TIMES = 2, 10
# of more files than these, each is tried with one of so many parts of the commands
MANY, PARTS = 4000, 4
# pages of the program that one run reads in and another doesn't, in kilobytes
PAGES = 1024
WORKERS = 4
LISTS = ("ls", "info", "check")


def commands(kind, ident):
    """Commands on the file `bad`; `good` is the one that wasn't changed, and `text` a text that was."""
    yield ["ls", "bad"]
    yield ["ls", "--types", "bad"]
    yield ["ls", "--raw", "-t", kind, "bad"]
    yield ["ls", "--json", "bad"]
    yield ["ls", "--json", "--data", "base64", "bad"]
    yield ["get", "bad", kind, ident]
    yield ["get", "--nth", "2", "bad", kind, ident]
    yield ["get", "bad", kind, ident, "-o", "out"]
    yield ["info", "bad"]
    yield ["info", "--json", "bad"]
    yield ["check", "bad"]
    yield ["check", "--json", "bad"]
    yield ["salvage", "bad"]
    yield ["salvage", "--list", "--raw", "bad"]
    yield ["salvage", "bad", "-o", "out"]
    yield ["show", "bad"]
    yield ["show", "--as", "hex", "bad", kind]
    yield ["show", "--as", "png", "bad", kind, ident]
    yield ["show", "bad", kind, ident, "-o", "out"]
    yield ["unpack", "bad", "out"]
    yield ["unpack", "-t", kind, "bad", "out"]
    yield ["put", "bad", kind, ident, "-i", "in"]
    yield ["put", "--backup", "bad", kind, ident, "-i", "in", "--name", "n"]
    yield ["put", "-n", "bad", kind, "77", "-i", "in"]
    yield ["put", "bad", kind, "77", "-i", "bad", "-o", "out"]
    yield ["rm", "bad", kind, ident]
    yield ["set", "bad", kind, ident, "--id", "77", "-o", "out"]
    yield ["cp", "bad", "good", "--renumber", "-o", "out"]
    yield ["cp", "good", "bad", "--replace"]
    yield ["diff", "bad", "good"]
    yield ["diff", "--json", "good", "bad"]
    yield ["derez", "bad"]
    yield ["rez", "text", "-o", "out"]
    yield ["rez", "bad", "-o", "out"]
    yield ["pack", "--like", "bad", "folder", "out"]
    yield ["pack", "packed", "out"]
    yield ["rez", "text", "--into", "bad", "--replace"]
    yield ["rez", "-n", "text", "--into", "bad", "--skip"]
    yield ["pack", "packed", "--into", "bad"]
    for to in CONTAINERS:
        yield ["convert", "--to", to, "bad", "out"]
        yield ["convert", "--to", to, "--lossy", "--data", "fork", "bad", "out"]


def made(words):
    """The names that a command may make, and those that it may change."""
    new = {"out"} & set(words) | ({"fork"} if "--data" in words else set())
    is_in_place = (words[0] in ("put", "rm", "set", "cp") and "-o" not in words or "--into" in words) and "-n" not in words
    return new | ({"bad~"} if "--backup" in words else set()), {"bad"} if is_in_place else set()


def is_front(words, took):
    """Whether what was printed is what a status other than 0 may come with."""
    if not took.output:
        return True
    if "--json" in words and words[0] in LISTS:
        try:
            line = json.loads(took.output)
        except ValueError:
            return False
        return took.output.count(b"\n") == 1 and (words[0] == "check" or line["status"] == took.status)
    return words[0] == "check" and took.status == 3 or words[0] == "diff" and took.status == 1


class Room:
    """A folder with the files that the commands need, which is made anew once a command has changed it."""

    def __init__(self, folder, bad, good, text, listing):
        self.folder, self.files = folder, (bad, good, text, listing)
        self.before = None

    def fill(self):
        """Makes the files, unless they are as they were."""
        if self.before is not None and stamps(self.folder) == self.before:
            return
        for name in os.listdir(self.folder):
            path = os.path.join(self.folder, name)
            if os.path.isdir(path) and not os.path.islink(path):
                shutil.rmtree(path)
            else:
                os.unlink(path)
        bad, good, text, listing = self.files
        ready(self.folder)
        write(bad, self.folder, "bad")
        write(good, self.folder, "good")
        write(text, self.folder, "text")
        os.makedirs(os.path.join(self.folder, "packed", "TEXT"))
        write(listing, self.folder, "packed", "resources.json")
        write(b"bytes", self.folder, "packed", "TEXT", "128.bin")
        self.before = stamps(self.folder)

    def touched(self):
        """The names below the folder that aren't as they were."""
        after = stamps(self.folder)
        return {name for name in self.before.keys() | after.keys() if self.before.get(name) != after.get(name)}

    def kilobytes(self, words):
        """How many are in the files that a command names."""
        return sum(size for name, (_, _, _, size) in self.before.items() if name.split("/")[0] in words) // 1024


def stamps(folder):
    """What tells whether a file was written, of each below a folder."""
    found = {}
    for base, _, names in os.walk(folder):
        for name in names:
            path = os.path.join(base, name)
            at = os.lstat(path)
            found[os.path.relpath(path, folder)] = (at.st_ino, at.st_mode, at.st_mtime_ns, at.st_size)
    return found


class Tries:
    """Runs of commands on changed files, in one process of several."""

    def __init__(self, bench, files, starts, slow, parts):
        self.bench, self.files, self.starts, self.slow, self.parts = bench, files, starts, slow, parts

    def took_fault(self, words, took, kilobytes):
        """What is wrong with what a command took and printed, or None."""
        if fault := took.ends_well():
            return fault
        if took.seconds > SECONDS * self.slow:
            return f"{took.seconds} s"
        if self.starts is not None and took.memory > self.starts[words[0]] + PAGES + TIMES * kilobytes:
            return f"{took.memory} KB, of which {self.starts[words[0]]} are its start, for {kilobytes} KB of files"
        if took.status and not is_front(words, took):
            return f"an output after a refusal: {took}"
        return f"nothing is said: {took}" if took.status and not took.told and not took.output else None

    def fault_of(self, words, room):
        """What is wrong with a command, or None."""
        room.fill()
        took = self.bench.measured(words, room.folder)
        if fault := self.took_fault(words, took, room.kilobytes(words)):
            return fault
        new, changes = made(words)
        # what unpack has written stays, without resources.json
        may_be = new | changes if took.status == 0 else new if words[0] == "unpack" else set()
        wrong = sorted(name for name in room.touched() if name.split("/")[0] not in may_be)
        return f"{took}, it made or changed {wrong[:5]}" if wrong else None

    def tried(self, number):
        """Runs each command on the file of this number, or each of its part of them. The result is how many, and what is wrong."""
        choices = random.Random(number)
        what, bad, good = mutation(self.files, number)
        count, faults = 0, []
        with tempfile.TemporaryDirectory() as folder:
            room = Room(folder, bad, good, *texts(choices))
            for words in list(commands(*some_resource(choices, good)))[number % self.parts :: self.parts]:
                count += 1
                if fault := self.fault_of(words, room):
                    faults.append(f"mutation {number}, {what}: {' '.join(words)}: {fault}")
        return count, faults


def texts(choices):
    """A text as derez writes one, and a manifest, both changed."""
    text = b"data 'TEXT' (128, \"a \\\"b\\\" \\0x8A\", purgeable, $20) {\n\t$\"0102 0304\"            /* .... */\n};\n\ndata 'STR ' (-1) { \"Hi\" };\n"
    entry = {"type": "TEXT", "id": 128, "name": "n", "attributes": 4, "file": "TEXT/128.bin"}
    return changed(choices, text), changed(choices, manifest([entry, {**entry, "id": 129}]))


def starts_of(bench):
    """The memory that each command takes on a small file."""
    starts = {}
    with tempfile.TemporaryDirectory() as folder:
        room = Room(folder, GAME, GAME, b"data 'ABCD' (1) {};", manifest([]))
        for words in commands("TEXT", "128"):
            room.fill()
            starts[words[0]] = max(starts.get(words[0], 0), bench.measured(words, folder).memory)
    return starts


# what the processes of the pool try, which begin as copies of this one
TRIES = []


def tried(number):
    return TRIES[0].tried(number)


def rows(bench, count):
    """So many changed files, several at once."""
    files = corpus()
    TRIES[:] = [Tries(bench, files, None if bench.cannot_be_bounded() else starts_of(bench), slowness(), PARTS if count > MANY else 1)]
    runs, faults = 0, []
    with concurrent.futures.ProcessPoolExecutor(WORKERS, multiprocessing.get_context("fork")) as pool:
        for some, wrong in pool.map(tried, range(1, count + 1), chunksize=max(1, min(16, count // 16))):
            runs, faults = runs + some, faults + wrong
    yield from (("a changed file", fault) for fault in faults)
    yield f"{runs} commands on {count} changed files of {len(files)}", f"{len(faults)} of them" if faults else None
