"""`convert --data` writes two files and reads a third: whichever of them are one, in whatever spelling, no fork is lost.

After any end, the bytes of the data fork and the resources are in a file at one of the three paths. Where the two that are written are one file, that
is refused before anything is written.
"""
import itertools
import os

from hostile.bench import GAME, changed_in, read, room, snapshot, write
from model.change import table_of
from model.container import NoContents, resource_fork
from model.contents import READERS, WRITERS, Contents
from model.fork import NoFork

DATA = b"the data fork of the game"
IT = Contents(name=b"Game", kind=b"APPL", creator=b"abcd", data=DATA, resource=GAME)
TABLE = table_of(GAME)
# the spellings of one file that is there, and of one that isn't, in a folder with these links
THERE = ["Game", "./Game", "sub/../Game", "ABSOLUTE/Game", "link", "hard", "around/Game", "chain"]
MISSING = ["new", "./new", "sub/../new", "ABSOLUTE/new", "dangling", "around/new"]
# input, output and data fork where the program is ended
ENDED = [
    ("Game", "Game", "new"),
    ("./Game", "link", "new"),
    ("Game", "hard", "./link"),
    ("Game", "new", "Game"),
    ("Game", "new", "./Game"),
    ("link", "new", "Game"),
    ("hard", "new", "Game"),
    ("Game", "around/Game", "fork"),
]


def make(folder, source):
    """A file in a container, with other names for it and for one that isn't there."""
    write(WRITERS[source](IT), folder, "Game")
    write(DATA, folder, "fork")
    os.mkdir(os.path.join(folder, "sub"))
    for name, to in (("link", "Game"), ("chain", "link"), ("dangling", "new"), ("around", ".")):
        os.symlink(to, os.path.join(folder, name))
    os.link(os.path.join(folder, "Game"), os.path.join(folder, "hard"))


def paths(folder, *words):
    return [word.replace("ABSOLUTE", folder) for word in words]


def forks_in(data):
    """Which of the two forks these bytes hold, and whether they are all of the file."""
    found = set()
    if data == DATA:
        found.add("data")
    for reads in READERS.values():
        try:
            if reads(data).data == DATA:
                found.add("data")
        except Exception:  # pylint: disable=broad-exception-caught # the models refuse other containers in many ways
            pass
    try:
        if table_of(resource_fork(data)) == TABLE:
            found.add("resources")
    except (NoContents, NoFork):
        pass
    return found


def lost(folder, names):
    """Which fork is at none of these paths, or None."""
    found = set()
    for name in names:
        if os.path.isfile(os.path.join(folder, name)):
            found |= forks_in(read(folder, name))
    gone = {"data", "resources"} - found
    return f"lost: {' and '.join(sorted(gone))}" if gone else None


def writes_one(folder, output, data):
    """Whether two paths lead to one file, or would make one."""
    return os.path.realpath(os.path.join(folder, output)) == os.path.realpath(os.path.join(folder, data))


def tried(bench, source, target, names):
    """Converts where the input, the output and the data fork have these names. The result is what is wrong, or None."""
    with room() as folder:
        make(folder, source)
        given, output, data = paths(folder, *names)
        is_one = writes_one(folder, output, data)
        before = snapshot(folder)
        took = bench.run(["convert", "--to", target, "--lossy", "--data", data, given, output], folder)
        fault = took.ends_well() or lost(folder, (given, output, data))
        changed = changed_in(before, snapshot(folder))
        if fault or took.status and changed:
            return fault or f"{took}, and it changed {changed}"
        if is_one and (took.status == 0 or not took.told):
            return f"two files that are one: {took}"
        if took.status == 0 and ("data" not in forks_in(read(folder, data)) or "resources" not in forks_in(read(folder, output))):
            return "a fork isn't at its path"
        return None


def pairs():
    """Inputs, outputs and data forks, of which two or three are one file, in both orders."""
    for first, second in itertools.product(THERE, THERE):
        if first != second:
            yield "Game", first, second
    for first, second in itertools.product(MISSING, MISSING):
        if first != second:
            yield "Game", first, second
    for given, other in itertools.product(THERE, THERE):
        yield given, other, "new"
        yield given, "new", other
    for given in THERE:
        yield given, "new", "dangling"
        yield given, "dangling", "other"


def spelled(bench):
    """Each pair of spellings, of a file with both forks that is written as a fork and a file of its own."""
    for source, target in (("macbinary", "raw"), ("applesingle", "appledouble")):
        for names in pairs():
            yield f"convert {source} --to {target} --data {names[2]} {names[0]} {names[1]}", tried(bench, source, target, names)


def joined(bench):
    """A fork alone and its data fork are written as one file, also over one of them."""
    for names in (("Game", "fork", "fork"), ("Game", "./fork", "fork"), ("Game", "Game", "fork"), ("./Game", "link", "fork"), ("Game", "new", "fork"), ("Game", "hard", "./fork")):
        with room() as folder:
            make(folder, "raw")
            given, output, data = names
            took = bench.run(["convert", "--to", "macbinary", "--data", data, given, output], folder)
            yield f"convert raw --to macbinary --data {data} {given} {output}", took.ends_well() or lost(folder, names)


def ended(bench):
    """Ended before each call, no fork is lost either; nor where each call fails."""
    for names in ENDED:
        words = ["convert", "--to", "raw", "--lossy", "--data", names[2], names[0], names[1]]
        said = f"convert --data {names[2]} {names[0]} {names[1]}"
        turn = 0
        for turn, (what, took, folder) in enumerate(bench.turns(words, lambda folder: make(folder, "macbinary")), 1):
            yield f"{said}, {what}", lost(folder, names) or (None if took.status in (-9, 2, 4) else str(took))
        for number in range(1, turn + 1):
            for setting in ("REPLACE_FAIL", "REPLACE_FROM"):
                with room() as folder:
                    make(folder, "macbinary")
                    took, _ = bench.shimmed(words, folder, settings={setting: number})
                    yield f"{said}, {setting} {number}", took.ends_well() or lost(folder, names)


def rows(bench):
    for some in (spelled, joined, ended):
        yield from some(bench)
