"""Checks which resources resfork find lists, of files and of all files below folders.

Folders of files in all containers are made at random, with files that hold no resources, a damaged fork, links, a pipe and hidden names among them; each
answer is compared with the lines that the rules say: all resources with what is sought, as ls shows them, in the order of paths.
"""
import os
import random
import tempfile

from checks.fork_questions import Difference
from checks.forks import compare, run
from checks.shown import fork_of, must, write
from model.contents import Contents, WRITERS
from model.fork import Row, line_of
from model.messages import message

KINDS = [b"TEXT", b"STR ", b"vers", b"snd "]
WORDS = [b"Open", b"Quit", b"\x8ete", b"\x00\x01\x02", b"a\\b", b"\"", b""]
NAMES = [None, b"", b"Main", b"Main menu", b"\xc9 menu"]


def rows_of(random_choice):
    """Some resources, each of another type or id."""
    places = random_choice.sample([(kind, number) for kind in KINDS for number in (-5, 0, 128, 129)], random_choice.randrange(6))
    places.sort(key=lambda it: KINDS.index(it[0]))
    return [Row(kind, number, random_choice.choice(NAMES), random_choice.choice((0, 32)), b"".join(random_choice.choices(WORDS, k=3))) for kind, number in places]


def typed(data):
    """Bytes, typed as names are."""
    return "".join("\\\\" if byte == 92 else chr(byte) if 32 <= byte < 127 and byte != 34 else f"\\x{byte:02X}" for byte in data)


def is_sought(row, kinds, number, name, text):
    return (not kinds or row.kind in kinds) and (number is None or row.ident == number) and (name is None or row.name is not None and name in row.name) and (text is None or text in row.data)


def lines(path, rows, sought):
    return "".join(f"{path} {line_of(row, False)}" for row in rows if is_sought(row, *sought))


def words_of(kinds, number, name, text):
    """The options for what is sought."""
    words = []
    for kind in kinds:
        words += ["-t", kind.decode().strip()]
    for option, value in (("--id", number), ("--name", name), ("--text", text)):
        if value is not None:
            words += [f"{option}={typed(value) if isinstance(value, bytes) else value}"]
    return words


def make(folder, random_choice):
    """Files below a folder, and the resources of each by its path."""
    made = {}
    for number in range(12):
        below = os.path.join(folder, *random_choice.choice(([], ["b"], ["b", "c"], [".hidden"], ["b.c"])))
        os.makedirs(below, exist_ok=True)
        path = os.path.join(below, random_choice.choice(("", "._", "z")) + f"file {number}")
        rows = rows_of(random_choice)
        fork = fork_of(rows)
        kind = random_choice.choice(("raw", *WRITERS))
        write(path, fork if kind == "raw" else WRITERS[kind](Contents(name=b"It", data=b"data", resource=fork)))
        made[path] = rows
    return made


def try_folder(program, top, random_choice):
    folder = os.path.join(top, "a")
    os.mkdir(folder)
    made = make(folder, random_choice)
    # files without resources are passed over, and links and a pipe aren't opened
    write(os.path.join(folder, "note.txt"), b"Open the file, and quit")
    write(os.path.join(folder, "empty"), b"")
    os.symlink(next(iter(made)), os.path.join(folder, "link"))
    os.symlink(folder, os.path.join(folder, "b", "loop") if os.path.isdir(os.path.join(folder, "b")) else os.path.join(folder, "loop"))
    os.mkfifo(os.path.join(folder, "pipe"))
    for sought in ((), (None, None)), ([b"TEXT"], 128), ([], -5), ([b"STR ", b"snd "], None):
        kinds, number = (sought[0], sought[1]) if sought[0] != () else ([], None)
        for name, text in ((None, None), (b"menu", None), (None, b"Open"), (b"\xc9", b"\x8e"), (b"", b""), (None, b"\x01\x02")):
            wanted = "".join(lines(path, made[path], (kinds, number, name, text)) for path in sorted(made, key=os.fsencode))
            words = words_of(kinds, number, name, text)
            compare(f"find {words}", run(program, ["find", *words, folder]), 0 if wanted else 1, wanted.encode(), "")


def try_files(program, top):
    """Files that are named, one of them without resources, and one that is damaged below a folder."""
    good, text, folder = (os.path.join(top, name) for name in ("good", "text", "folder"))
    rows = [Row(b"TEXT", 128, b"Read me", 0, b"Hello")]
    write(good, fork_of(rows))
    write(text, b"no fork")
    os.mkdir(folder)
    sought = ([], None, None, None)
    got = run(program, ["find", text, good])
    must(got[0] == 3 and got[1] == lines(good, rows, sought).encode() and "neither a resource fork" in got[2], f"find of a text: {got}")
    write(os.path.join(folder, "bad"), fork_of(rows)[:-1])
    write(os.path.join(folder, "good"), fork_of(rows))
    got = run(program, ["find", folder])
    must(got[0] == 3 and got[1] == lines(os.path.join(folder, "good"), rows, sought).encode() and "bad" in got[2], f"find of a damaged fork: {got}")
    for words, condition in ((["--id", "x"], "bad id"), (["-t", "TOOLONG"], "bad type"), (["--name", "\\x1"], "bad resource")):
        got = run(program, ["find", *words, good])
        must(got[0] == 2 and message(condition) in got[2], f"find {words}: {got}")
    got = run(program, ["find", os.path.join(top, "nothing")])
    must(got[0] == 4 and got[1] == b"", f"find of no file: {got}")


def main(resfork, number=8):
    random_choice = random.Random(7)
    try:
        with tempfile.TemporaryDirectory() as top:
            try_files(resfork, top)
        for _ in range(number):
            with tempfile.TemporaryDirectory() as top:
                try_folder(resfork, top, random_choice)
    except Difference as difference:
        print(difference)
        return 1
    print(f"{number} folders: the resources that are sought")
    return 0
