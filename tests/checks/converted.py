"""Checks what `resfork convert` makes of a file in each container, written as each.

Files with random names, dates, comments and forks are written by tests/model/contents.py in AppleSingle, AppleDouble, MacBinary III and BinHex, and
as a fork alone. Each is converted to each; the model reads what comes out. Nothing is lost without `--lossy`: what the container can't hold is
named, and no file is written. A data fork goes to the file that `--data` names, and comes from there. AppleDouble has its entries in the order in
which a Macintosh writes them. Of a file that has no name the path gives one. Number: how many files.
"""
import os
import random
import tempfile

from checks.changed import read, run
from checks.fork_questions import Difference
from checks.forks import Choices
from checks.kept import write
from checks.shown import must
from model.change import table_of
from model.contents import READERS, TO_2000, WRITERS, Contents, apple, as_copied, held, lost
from model.fork import NoFork
from model.messages import MISSING, message, refusal

APART = ("raw", "appledouble")


def some_contents(number):
    """A file by chance; some have nothing but forks."""
    choices = random.Random(number)
    fork = Choices(number).fork()

    def some(*values):
        return choices.choice(values)

    size = choices.choice([0, 1, 63, 64, 127, 128, 129, 1000])
    return Contents(
        name=some(b"Read Me", b"a", b"Caf\x8e " * 10, b"x" * 63),
        kind=some(bytes(4), b"APPL", b"\x90\x90\x90\x90"),
        creator=some(bytes(4), b"a\xa9b "),
        flags=some(0, 0x2100, 0x90FF),
        created=some(0, TO_2000 - 1, TO_2000, 2_000_000_000),
        modified=some(0, TO_2000 + 600_000_000),
        comment=some(b"", b"", b"A comment.", b"c" * 200),
        data=choices.randbytes(size) if choices.randrange(3) else b"\x90" * size,
        resource=fork,
    )


def try_pair(program, folder, source, target, it):
    """Converts a file between two containers, first without what may be needed."""
    old, new, fork = (os.path.join(folder, name) for name in ("Old Name.x", "new", "fork"))
    for path in (old, new, fork):
        if os.path.exists(path):
            os.remove(path)
    it = held(source, it)
    write(old, WRITERS[source](it))
    words = ["convert", "--to", target, old, new]
    wanted, data = it, None
    if source == "raw" and target in ("macbinary", "binhex"):
        wanted = Contents(**{**vars(wanted), "name": b"Old Name.x"})
    if source in APART and target not in APART:
        data = b"data of its own"
        write(fork, data)
        wanted = Contents(**{**vars(wanted), "data": data})
    words_lost = lost(target, wanted)
    if source == "appledouble" and target not in APART:
        words_lost.append(message("its data file"))
    if source not in APART and target in APART and it.data:
        status, output, told = run(program, [*words, "--lossy"])
        must((status, output, told) == (4, b"", refusal(old, "data lost")[1]) and not os.path.exists(new), f"no --data: {status} {told!r}")
        data = it.data
    elif words_lost:
        status, output, told = run(program, words)
        must((status, output, told) == (4, b"", refusal(old, "lost", ", ".join(words_lost))[1]), f"lost {words_lost}: {status} {told!r}")
        must(not os.path.exists(new), "a file is written that was refused")
    if data is not None:
        words += ["--data", fork]
        words_lost = lost(target, wanted)
    said = f"{old}: {message('not in', new, ', '.join(words_lost))}\n" if words_lost else ""
    status, output, told = run(program, [*words, "-n", "--lossy"])
    must(status == 0 and not os.path.exists(new), f"-n: {status} {told!r}")
    status, output, told = run(program, [*words, "--lossy"])
    made = read(new) if os.path.exists(new) else b""
    must((status, output, told) == (0, f"{new}: {len(made)} bytes\n".encode(), said), f"{status} {output!r} {told!r}")
    must(READERS[target](made) == held(target, wanted), f"{READERS[target](made)} and not {held(target, wanted)}")
    if target == "appledouble":
        must(made == as_copied(held(target, wanted)), "its entries are others, or in another order")
    if data is not None:
        must(read(fork) == data, "the data fork isn't in its file")


# the last parts of paths, and the names that they give
NAMES = [
    ("._Photo.jpg", b"Photo.jpg"), ("Photo.jpg", b"Photo.jpg"), ("Game.rsrc", b"Game"), ("Game.RsRc", b"Game"), ("Game.rsr", b"Game"), ("GAME.RSR", b"GAME"), ("._Game.rsrc", b"Game"),
    ("Game.rsrc.rsr", b"Game.rsrc"), ("Read Me", b"Read Me"), (".rsrc", b".rsrc"), ("._.RSR", b".RSR"), ("a.rsrcs", b"a.rsrcs"), ("arsrc", b"arsrc"), (".hidden", b".hidden"), ("v1.0", b"v1.0"),
    ("Caf\u00e9.rsrc", b"Caf\x8e"), ("\u65e5\u672c.rsr", b"__"), ("._._twice", b"._twice"), ("x" * 63 + ".rsrc", b"x" * 63),
]


def try_names(program, folder):
    """Converts files that have no name of their own: the path gives it."""
    os.mkdir(os.path.join(folder, "a.rsrc"))
    it, new = Contents(resource=Choices(1).fork()), os.path.join(folder, "named")
    for last, name in NAMES:
        path = os.path.join(folder, "a.rsrc", last)
        for how, bytes_of_it in (("raw", it.resource), ("appledouble", apple(0x51607, it, [9, 2]))):
            write(path, bytes_of_it)
            status, _, told = run(program, ["convert", "-q", "--lossy", "--to", "macbinary", path, new])
            must(status == 0 and READERS["macbinary"](read(new)).name == name, f"{how} at {last!r}: {status} {told!r} {read(new)[:70]!r}")
            os.remove(new)
        os.remove(path)
    return len(NAMES)


def try_words(program, folder):
    """What is refused by its words, or by what the containers hold."""
    it = some_contents(1)
    paths = {name: os.path.join(folder, name) for name in ("single", "raw", "out", "text", "fork", "long")}
    write(paths["single"], WRITERS["applesingle"](it))
    write(paths["raw"], it.resource)
    write(paths["long"], WRITERS["applesingle"](Contents(**{**vars(it), "comment": b"c" * 65536})))
    write(paths["text"], b"Nothing but a text, of more than sixteen characters")
    rows = [
        (["--to", "zip", "raw", "out"], 2, message("bad container")),
        (["raw", "out"], 2, "--to"),
        (["--to", "macbinary", "text", "out"], 3, "text: "),
        (["--to", "macbinary", "none", "out"], 4, message("unreadable", MISSING)),
        (["--to", "macbinary", "--data", "fork", "single", "out"], 2, message("no data file")),
        (["--to", "appledouble", "--data", "fork", "raw", "out"], 2, message("no data file")),
        (["--to", "appledouble", "--data", "out", "single", "out"], 2, message("one file")),
        (["--to", "macbinary", "--name", "x" * 64, "raw", "out"], 4, message("unwritten", message("name too long", 64))),
        (["--to", "binhex", "--name", "", "raw", "out"], 4, message("unwritten", message("needs a name"))),
        (["--to", "macbinary", "long", "out"], 4, message("unwritten", message("comment too long", 65536))),
        (["--to", "binhex", "--data", "-", "-", "out"], 2, message("input twice")),
    ]
    for words, status, told in rows:
        got = run(program, ["convert", *(paths.get(word, word) for word in words)])
        must(got[0] == status and told in got[2] and not os.path.exists(paths["out"]), f"{words}: {got}")
    return len(rows)


def main(program, count=12):
    """Converts so many files from each container to each."""
    tried, what = 0, "the command lines"
    with tempfile.TemporaryDirectory() as folder:
        try:
            rows = try_words(program, folder)
            what = "the names of paths"
            rows += try_names(program, folder)
            what = "the command lines"
            for number in range(1, 1 + count):
                it = some_contents(number)
                try:
                    table_of(it.resource)
                except NoFork:
                    continue
                for source in WRITERS:
                    for target in WRITERS:
                        what = f"file {number}, {source} to {target}"
                        try_pair(program, folder, source, target, it)
                        tried += 1
        except (Difference, AssertionError) as difference:
            print(f"{what}: {difference}")
            return 1
    print(f"{rows} command lines, {tried} files converted")
    return 0 if tried else 1
