"""Names that would do something on a terminal or in a shell come out quoted, in titles and in messages, and advice names the file when it is typed.
"""
import json
import os
import re
import subprocess

from checks.names import shown
from checks.salvage import written
from hostile.bench import GAME, room, write
from hostile.bounds import manifest
from model.contents import WRITERS, Contents
from model.fork import Row

# what is between the two parts of a name: controls of C0, of C1 in UTF-8, and those that turn the direction of a text
BAD = ["\x1b[31m", "\n", "\r", "\x07", "\x7f", "\x85", "\x9b31m", "\x9d0;x\x9c", "\u061c", "\u200e", "\u200f", "\u202a", "\u202e", "\u2066", "\u2069"]
RAW = re.compile("[\0-\x08\x0b-\x1f\x7f-\x9f\u061c\u200e\u200f\u202a-\u202e\u2066-\u2069]")
FIRST, LAST = "before", "after"

# names that a shell would take apart
TYPED = [
    "plain",
    "two words",
    "it's",
    'say "hi"',
    "$(touch pwned)",
    "`touch pwned`",
    "a;touch pwned;",
    "a&touch pwned",
    "a|touch pwned",
    "a>pwned",
    "a\ntouch pwned\n",
    "a'\ntouch pwned #",
    "$HOME",
    "~",
    "*",
    "?",
    "[a]",
    "{a,b}",
    "(a)",
    "a\\b",
    "a\\",
    "$'a'",
    "#a",
    "=a",
    "a\tb",
    "a!b",
    "caf\u00e9",
    "a'b\"c$d\\e",
    *(FIRST + bad + LAST for bad in BAD),
]
ADVICE = re.compile(r"resfork salvage .* -o OUT", re.S)


def damaged():
    """A fork of which one resource of two can be read."""
    rows = [Row(b"TEXT", 1, None, 0, b"a"), Row(b"TEXT", 2, None, 0, b"b")]
    fork = bytearray(written([(b"TEXT", rows)]))
    fork[256 + 5 : 256 + 9] = b"\0\1\0\0"
    return bytes(fork)


def commands(name):
    """Commands that print a name, each with the bytes of the file of this name, or None where there is none."""
    zipped, text = b"PK\x03\x04" + bytes(60), b"no fork at all, but a text of more than sixteen bytes"
    yield ["ls", name, name], GAME
    yield ["info", name, name], GAME
    yield ["check", name, name], GAME
    yield ["ls", name], None
    yield ["ls", name], damaged()
    yield ["ls", name], zipped
    yield ["ls", name], text
    yield ["get", name, "TEXT", "999"], GAME
    yield ["get", name, "TEXT", "128", "-o", f"{name}/x"], GAME
    yield ["get", "Game", "TEXT", "128", "-o", f"{name}/x"], None
    yield ["salvage", name, "-o", name + "x"], damaged()
    yield ["show", name], text
    yield ["unpack", "Game", name], GAME
    yield ["ls", "--" + name], None
    yield ["ls", "Game", "-" + name], None
    yield [name], None
    yield ["unpack", name, "folder"], GAME
    yield ["put", name, "TEXT", "1"], None
    yield ["put", "Game", "TEXT", "1", "-i", name], None
    yield ["rm", name, "TEXT", "999"], GAME
    yield ["set", name, "none", "1", "--id", "2"], GAME
    yield ["cp", name, "Game"], None
    yield ["cp", "Game", "none", name], GAME
    yield ["diff", "Game", name], text
    yield ["pack", name, "out"], None
    yield ["pack", "folder", name], WRITERS["applesingle"](Contents(resource=GAME))
    yield ["derez", name], text
    yield ["rez", "-o", "out", name], text
    yield ["rez", "-o", name, "text"], WRITERS["applesingle"](Contents(resource=GAME))
    yield ["rez", "-o", name, "text"], GAME
    yield ["convert", "--to", "macbinary", "Game", name], None
    yield ["convert", "--to", "raw", "--lossy", name, name + "x"], WRITERS["applesingle"](Contents(name=b"n", kind=b"abcd", resource=GAME))
    yield ["convert", "--to", "raw", name, "out"], WRITERS["applesingle"](Contents(name=b"n", resource=GAME))
    yield ["convert", "--to", "macbinary", "--data", name, "Game", "out"], None


def said(bench, name, words, data):
    """What a command prints where a file has this name."""
    with room() as folder:
        write(GAME, folder, "Game")
        write(b"data 'ABCD' (1) {};", folder, "text")
        os.mkdir(os.path.join(folder, "folder"))
        write(manifest([]), folder, "folder", "resources.json")
        if data is not None:
            write(data, folder, name)
        return bench.run(words, folder)


def quoted(bench):
    """No control comes out raw, and a name makes no new line."""
    for index, (words, data) in enumerate(commands(FIRST + LAST)):
        plain = said(bench, FIRST + LAST, words, data)
        printed = plain.output.decode("utf-8", "replace") + plain.told
        faults = []
        for bad in BAD:
            name = FIRST + bad + LAST
            words, data = list(commands(name))[index]
            took = said(bench, name, words, data)
            shown = took.output.decode("utf-8", "replace") + took.told
            if took.ends_well() or took.status != plain.status or RAW.search(shown) or shown.count("\n") != printed.count("\n"):
                faults.append(f"{bad!r}: {took} and not {plain}")
            elif FIRST + LAST in printed and not (FIRST in shown and LAST in shown):
                faults.append(f"{bad!r}: the name isn't there: {took}")
        words = [word.replace(FIRST + BAD[-1] + LAST, "NAME") for word in words]
        yield f"{' '.join(words)}, {len(BAD)} names", f"{len(faults)} of them: {faults[0]}" if faults else None


def as_json(bench):
    """A line of JSON has the name."""
    for bad in BAD:
        name = FIRST + bad + LAST
        for command in ("ls", "info", "check"):
            took = said(bench, name, [command, "--json", name], GAME)
            fault = took.says(0)
            if not fault and (took.output.count(b"\n") != 1 or json.loads(took.output)["file"] != name):
                fault = str(took)
            yield f"{command} --json {name!r}", fault


def in_manifests(bench):
    """A file that a manifest names comes out quoted too."""
    for bad in BAD:
        for file in (f"TEXT/{FIRST}{bad}{LAST}", f"../{FIRST}{bad}{LAST}"):
            with room() as folder:
                entry = {"type": "TEXT", "id": 1, "name": None, "attributes": 0, "file": file}
                write(manifest([entry]), folder, "resources.json")
                took = bench.run(["pack", ".", "out"], folder)
                fault = took.says(3, 4) or (f"it wrote {took.told!r}" if RAW.search(took.told) or took.told.count("\n") != 1 else None)
                yield f"pack of a manifest that names {file!r}", fault


def macheap_says(bench):
    """The other program quotes a file that it can't open in the same way."""
    for name in (FIRST + LAST, *(FIRST + bad + LAST for bad in BAD), *TYPED, f" {FIRST}", f"{LAST} ", f'"{FIRST}'):
        for words, path in ((["--fork", name], name), (["--fork", f"{name}/x"], f"{name}/x"), (["--fork", "fork", "--journal", f"{name}/x"], f"{name}/x")):
            with room() as folder:
                if path == name:
                    os.mkdir(os.path.join(folder, name))
                took = bench.run(words, folder, program=bench.macheap)
                why = "it is a folder; name a file" if path == name else "there is no such folder; make it first"
                fault = took.says(1) or (None if took.told == f"cannot open {shown(path)}: {why}\n" else f"it says {took.told!r}")
                yield f"macheap of {path!r}", fault


def macheap_words(bench):
    """And a word that is no option of its own, in as many lines as a harmless one."""
    lines = bench.run([f"--{FIRST}{LAST}"], bench.folder, program=bench.macheap).told.count("\n")
    for bad in BAD:
        took = bench.run([f"--{FIRST}{bad}{LAST}"], bench.folder, program=bench.macheap)
        is_right = not RAW.search(took.told) and FIRST in took.told and took.told.count("\n") == lines
        yield f"macheap --{FIRST}{bad}{LAST}", took.says(2) or (None if is_right else f"it says {took.told!r}")


def words_typed(advice, folder):
    """The words of a line that is typed into a shell, where each command is one that prints its words."""
    command = advice.split()[0]
    done = subprocess.run(["bash", "-c", f"{command}() {{ printf '%s\\0' \"$@\"; }}; {advice}"], cwd=folder, capture_output=True, check=False, env={**os.environ, "LC_ALL": "C.UTF-8"})
    return done.stdout.decode("utf-8", "replace").split("\0")[:-1]


def typed(bench):
    """Advice that can be typed names the file, whatever its name is."""
    archives = [("unzip", b"PK\x03\x04" + bytes(60)), ("gunzip", b"\x1f\x8b\x08" + bytes(60))]
    for name in TYPED:
        for what, data in [("resfork", damaged()), *archives]:
            with room() as folder:
                write(data, folder, name)
                took = bench.run(["ls", name], folder)
                found = ADVICE.search(took.told) if what == "resfork" else re.search(rf"\b{what} .*", took.told, re.S)
                if not found:
                    yield f"{what} of {name!r}", f"no advice: {took}"
                    continue
                before = sorted(os.listdir(folder))
                words = words_typed(found[0].rstrip("\n"), folder)
                same = [word for word in words if os.path.exists(os.path.join(folder, word)) and os.path.samefile(os.path.join(folder, word), os.path.join(folder, name))]
                right = sorted(os.listdir(folder)) == before and len(same) == 1 and took.told.count(found[0])
                right = right and (what != "resfork" or words == ["salvage", same[0], "-o", "OUT"])
                yield f"{what} of {name!r}", None if right and not RAW.search(took.told) else f"{found[0]!r} gives the words {words}"


def rows(bench):
    for some in (quoted, as_json, in_manifests, macheap_says, macheap_words, typed):
        yield from some(bench)
