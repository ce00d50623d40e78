"""Checks what resfork makes of files that it changes and compares.

Each command is tried on random forks of tests/checks/forks.py, alone and in AppleSingle, AppleDouble, MacBinary I, II, III and BinHex: what
is read of the new file, and what of it is no resource fork, are those of a model; so is what the command prints. Where nothing changes, the file
isn't touched. Before them come rows by hand, with their status and what is said. Number: how many random forks.
"""
import json
import os
import random
import re
import shutil
import struct
import subprocess
import tempfile
import time

from checks.fork_questions import Difference
from checks.forks import Choices, compare, operand
from checks.kept import DAMAGED, DATA, FAULT, KEPT, write
from checks.shown import fork_of, must
from model.change import Missing, Taken, changed, copied, place, put, remove, rest, set_row, table_of
from model.container import resource_fork
from model.fork import WORDS, NoFork, Row, column, listing, quoted
from model.messages import MISSING, message, refusal
from places import TOP

RAW = (lambda fork: fork, message("raw"), 0)
ROWS = [(b"TEXT", 128, b"Read me", 0, b"Hi"), (b"TEXT", 5, None, 4, b""), (b"snd ", 1, None, 0, b"\0\1")]

# command lines, on a file of these rows and on a damaged one, with the status and what is said; the file isn't touched
LINES = [
    (["put", "NO_SUCH_FILE", "TEXT", "1"], *refusal("NO_SUCH_FILE", "no file")),
    (["put", "FILE", "TEXT", "x"], *refusal("error", "bad id")),
    (["put", "FILE", "TEXT", "32768"], *refusal("error", "bad id")),
    (["put", "FILE", "TEXTS", "1"], *refusal("error", "bad type")),
    (["put", "FILE", "TEXT", "1", "--attrs", "locked,blue"], *refusal("error", "bad attributes")),
    (["put", "FILE", "TEXT", "1", "--attrs=+locked,preload"], *refusal("error", "bad attributes")),
    (["put", "FILE", "TEXT", "1", "--name", "x" * 256], *refusal("error", "bad name")),
    (["put", "FILE", "TEXT", "1", "-i", "NO_SUCH_FILE"], *refusal("NO_SUCH_FILE", "unreadable", MISSING)),
    (["put", "FILE", "TEXT", "1", "--backup", "-o", "OUT"], 2, "cannot be used with"),
    (["put", "FILE", "TEXT", "128", "--new"], *refusal("FILE", "taken")),
    (["put", "DAMAGED", "TEXT", "128"], 3, f"DAMAGED: {FAULT}"),
    (["rm", "FILE", "TEXT", "128", "129"], *refusal("FILE", "no resource", "TEXT 129")),
    (["rm", "FILE", "TEXT", "128", "128"], *refusal("FILE", "no resource", "TEXT 128")),
    (["rm", "NO_SUCH_FILE", "TEXT", "128"], 4, "NO_SUCH_FILE"),
    (["set", "FILE", "TEXT", "128", "--name", "a", "--no-name"], 2, "cannot be used with"),
    (["set", "FILE", "TEXT", "128", "--id", "5"], *refusal("FILE", "taken")),
    (["set", "FILE", "TEXT", "1", "--id", "5"], *refusal("FILE", "no resource", "TEXT 1")),
    (["cp", "NO_SUCH_FILE", "FILE"], *refusal("NO_SUCH_FILE", "unreadable", MISSING)),
    (["cp", "FILE", "FILE"], *refusal("FILE", "taken")),
    (["cp", "FILE", "TEXT:7", "FILE"], *refusal("FILE", "no resource", "TEXT 7")),
    (["cp", "FILE", "none", "FILE"], *refusal("FILE", "no type", "none")),
    (["cp", "DAMAGED", "FILE"], 3, "DAMAGED: "),
    (["cp", "FILE"], 2, ""),
    (["cp", "TWO", "OUT"], *refusal("TWO", "two of one")),
    (["put", "-", "TEXT", "128", "-o", "OUT"], *refusal("error", "input twice")),
    (["cp", "-", "TEXT:128", "-", "-o", "OUT"], *refusal("error", "input twice")),
    (["diff", "-", "-"], *refusal("error", "input twice")),
    (["rm", "-", "TEXT", "128"], *refusal("error", "input changed")),
    (["rez", "TEXT", "-o", "SINGLE"], *refusal("SINGLE", "more than a fork")),
    (["diff", "FILE", "NO_SUCH_FILE"], 4, "NO_SUCH_FILE"),
    (["pack", "NO_SUCH_FOLDER", "OUT"], 4, "NO_SUCH_FOLDER/resources.json"),
    (["rez", "FILE", "-o", "OUT"], 3, "line 1"),
    (["rez", "FILE"], *refusal("error", "no one output")),
    (["pack", "NO_SUCH_FOLDER"], *refusal("error", "no one output")),
    (["rez", "TEXT", "-o", "OUT", "--into", "FILE"], 2, "cannot be used with"),
    (["pack", "NO_SUCH_FOLDER", "OUT", "--into", "FILE"], 2, "cannot be used with"),
    (["pack", "NO_SUCH_FOLDER", "--like", "FILE", "--into", "FILE"], 2, "cannot be used with"),
    (["rez", "TEXT", "--force", "--into", "FILE"], 2, "cannot be used with"),
    (["rez", "TEXT", "--replace", "--skip", "--into", "FILE"], 2, "cannot be used with"),
    (["rez", "TEXT", "-o", "OUT", "--backup"], 2, "cannot be used with"),
    (["rez", "TEXT", "-o", "OUT", "--replace"], *refusal("error", "no into")),
    (["pack", "NO_SUCH_FOLDER", "OUT", "--skip"], *refusal("error", "no into")),
    (["rez", "TEXT", "--into", "-"], *refusal("error", "into input")),
    (["rez", "TEXT", "--into", "FILE"], *refusal("FILE", "both there")),
    (["rez", "TEXT", "--into", "NO_SUCH_FILE"], 4, "NO_SUCH_FILE"),
    (["rez", "TEXT", "--into", "DAMAGED"], 3, "DAMAGED: "),
    (["rez", "DOUBLED", "--into", "FILE", "--replace"], *refusal("DOUBLED", "two of one")),
    (["rez", "NOTHING", "--into", "FILE"], *refusal("NOTHING", "nothing")),
    (["rez", "NOTHING", "--into", "NO_SUCH_FILE", "-n"], *refusal("NOTHING", "nothing")),
    (["pack", "EMPTY", "--into", "FILE"], *refusal("EMPTY", "nothing")),
    (["pack", "--like", "SINGLE", "EMPTY", "BINARY"], *refusal("BINARY", "more than a fork")),
    (["pack", "--like", "OTHER", "EMPTY", "SINGLE"], *refusal("SINGLE", "more than a fork")),
    (["pack", "--like", "SINGLE", "EMPTY", "SINGLE"], *refusal("SINGLE", "lacking", len(ROWS))),
    (["rez", "TEXT", "-o", "DAMAGED"], *refusal("DAMAGED", "no fork there")),
    (["rez", "TEXT", "-n", "-o", "DAMAGED"], *refusal("DAMAGED", "no fork there")),
    (["diff", "FILE", "DAMAGED"], 3, "DAMAGED: "),
]


def run(program, words, given=b""):
    done = subprocess.run([program, *words], input=given, stdout=subprocess.PIPE, stderr=subprocess.PIPE, check=False)
    return done.returncode, done.stdout, done.stderr.decode(errors="replace")


def read(path):
    with open(path, "rb") as file:
        return file.read()


# what is printed of a change


def title(row):
    return f"{column(row[0])} {row[1]}" + ("" if row[2] is None else " " + quoted('"', row[2]))


def words_of(attributes):
    return ",".join(word for bit, word in WORDS if attributes & bit) or "-"


def named(name):
    return "none" if name is None else quoted('"', name)


def first_difference(a, b):
    return next((at for at, (x, y) in enumerate(zip(a, b)) if x != y), min(len(a), len(b)))


def difference_of(a, b):
    """The line of a row that differs."""
    parts = []
    if a[4] != b[4]:
        parts.append(f"data {len(a[4])} -> {len(b[4])} bytes, from byte {first_difference(a[4], b[4])} on")
    if a[2] != b[2]:
        parts.append(f"name {named(a[2])} -> {named(b[2])}")
    if a[3] != b[3]:
        parts.append(f"attributes {words_of(a[3])} -> {words_of(b[3])}")
    return f"~ {column(a[0])} {a[1]}: " + "; ".join(parts) + "\n" if parts else ""


def keyed(rows):
    """The rows by type, id and which of several such rows."""
    counts, found = {}, {}
    for row in rows:
        nth = counts[row[0], row[1]] = counts.get((row[0], row[1]), -1) + 1
        found[row[0], row[1], nth] = row
    return found


def diff(a, b):
    """The lines of the rows that differ: of those of the first table in its order, and then of those that only the second has."""
    a, b = keyed(a), keyed(b)
    lines = [difference_of(row, b[key]) if key in b else f"- {title(row)}\n" for key, row in a.items()]
    return "".join(lines + [f"+ {title(row)}\n" for key, row in b.items() if key not in a])


# what a line of JSON has where nothing differs
SAME = {"differences": [], "reordered": False, "mapAttributes": None, "extraByte": None}

# the commands


class Case:
    """A command on a file, with what becomes of its rows."""

    def __init__(self, words, given, change):
        self.words, self.given, self.change = words, given, change


def attributes_words(choices):
    """Words of `--attrs`, and what they make of attributes."""
    some = choices.sample(WORDS, choices.randrange(1, 4))
    if choices.randrange(2):
        total = sum(bit for bit, _ in some)
        return ",".join(word for _, word in some), lambda old: total
    signs = [choices.choice("+-") for _ in some]

    def changed(old):
        for sign, (bit, _) in zip(signs, some):
            old = old | bit if sign == "+" else old & ~bit
        return old

    return ",".join(sign + word for sign, (_, word) in zip(signs, some)), changed


NAMES = [b"", b"New", b"caf\x8e", b'say "hi"', b"a\\b", b"\x01" * 255]


def name_words(choices):
    name = choices.choice(NAMES)
    return ["--name", quoted('"', name)], name


def chosen(rows, choices):
    """The type and the id of one of the rows, or of none."""
    if rows and choices.randrange(4):
        row = choices.choice(rows)
        return row[0], row[1]
    return choices.choice([b"TEXT", b"new ", *[row[0] for row in rows]]), choices.choice([0, 1, 128, -1, 32767])


def a_put(rows, choices):
    kind, ident = chosen(rows, choices)
    at = place(rows, kind, ident)
    given = choices.choice([b"", b"Hi", bytes(range(256)), rows[at][4] if at is not None else b"x"])
    words, what = ["put", "FILE", operand(kind, 0), str(ident)], {}
    if choices.randrange(3) == 0:
        more, what["name"] = name_words(choices)
        words += more
    if choices.randrange(3) == 0:
        more, changed = attributes_words(choices)
        words += [f"--attrs={more}"]
        what["attributes"] = changed(0 if at is None else rows[at][3])
    if choices.randrange(4) == 0:
        words, what["is_new"] = words + ["--new"], True
    return Case(words, given, lambda rows: put(rows, kind, ident, given, **what))


def a_remove(rows, choices):
    kind, ident = chosen(rows, choices)
    idents = [ident] + ([row[1] for row in rows if row[0] == kind and row[1] != ident][:1] if choices.randrange(2) else [])
    return Case(["rm", "FILE", operand(kind, 0), *map(str, idents)], b"", lambda rows: remove(rows, kind, idents))


def a_set(rows, choices):
    kind, ident = chosen(rows, choices)
    at = place(rows, kind, ident)
    words, what = ["set", "FILE", operand(kind, 0), str(ident)], {}
    if choices.randrange(2):
        what["new_ident"] = choices.choice([ident, 7, 128, -5])
        words += [f"--id={what['new_ident']}"]
    if choices.randrange(3) == 0:
        what["new_kind"] = choices.choice([kind, b"TEXT", b"none"])
        words += ["--type", quoted("'", what["new_kind"])]
    if choices.randrange(2):
        more, what["name"] = name_words(choices) if choices.randrange(2) else (["--no-name"], False)
        words += more
    if choices.randrange(2):
        more, changed = attributes_words(choices)
        words += [f"--attrs={more}"]
        what["attributes"] = changed(0 if at is None else rows[at][3])
    return Case(words, b"", lambda rows: set_row(rows, kind, ident, **what))


def a_copy(rows, choices, other, from_path):
    """A copy of resources of another file."""
    words, some = ["cp", from_path], other
    if other and choices.randrange(2):
        row = choices.choice(other)
        if choices.randrange(2):
            words.append(f"{operand(row[0], 0)}:{row[1]}")
            some = [it for it in other if it[:2] == row[:2]]
        else:
            words.append(operand(row[0], 0))
            some = [it for it in other if it[0] == row[0]]
    words.append("FILE")
    taken = choices.choice([None, "replace", "skip", "renumber"])
    if taken:
        words.append(f"--{taken}")
    return Case(words, b"", lambda rows: copied(rows, some, taken))


def lacking(rows, others):
    """How many of these rows have a type and an id that none of the others has."""
    return sum(1 for row in rows if place(others, row[0], row[1]) is None)


def source_of(program, folder, path):
    """A text and a folder of the resources of a file, each with the command that reads it."""
    text, out = os.path.join(folder, "text.r"), os.path.join(folder, "unpacked")
    shutil.rmtree(out, ignore_errors=True)
    write(text, run(program, ["derez", path])[1])
    compare("unpack", run(program, ["unpack", path, out]), 0, b"", "")
    return ["rez", text], ["pack", out]


def an_into(choices, other, sources):
    """Resources of a text or of a folder that are put into a file."""
    taken = choices.choice([None, "replace", "skip"])
    words = [*choices.choice(sources), "--into", "FILE", *([f"--{taken}"] if taken else [])]
    return Case(words, b"", lambda rows: copied(rows, other, taken))


def try_lost(program, folder, fork, rows, other, sources):
    """A file of other resources takes the place of a fork: where some would be lost, only by force."""
    path, count = os.path.join(folder, "lost"), lacking(rows, other)
    for words in sources:
        words = [*words, *(["-o"] if words[0] == "rez" else []), path]
        write(path, fork)
        before = state(path)
        if count:
            status, lost = refusal(path, "lacking", count)
            compare(f"{words[0]} over others", run(program, words), status, b"", lost)
            must(state(path) == before, f"{words[0]}: a file that would lose resources is touched")
            words.append("--force")
        compare(f"{words[0]} over others", run(program, [*words, "-q"]), 0, b"", "")
        must(table_of(read(path))[0] == other, f"{words[0]} over others: other resources are read")


def state(path):
    found = os.stat(path)
    return read(path), found.st_mtime_ns, found.st_ino


def try_case(program, path, old, case, rows, extra):
    """Compares what a command makes of a file."""
    write(path, old)
    before, what = state(path), " ".join(case.words)
    words = [path if it == "FILE" else it for it in case.words]
    try:
        after = case.change(rows)
    except (Missing, Taken) as refused:
        told = message("no resource", "") if isinstance(refused, Missing) else message("taken")
        compare(what, run(program, words, case.given), 1, b"", told)
        must(state(path) == before, f"{what}: a file that is refused is touched")
        return "refused"
    printed = diff(rows, after).encode()
    dry = run(program, [words[0], "-n", *words[1:]], case.given)
    compare(f"{what} -n", dry, 0, printed, "")
    must(state(path) == before, f"{what} -n: the file is touched")
    compare(what, run(program, words, case.given), 0, printed, "")
    if after == rows:
        must(state(path) == before, f"{what}: nothing changed, and the file is touched")
        return "unchanged"
    new = read(path)
    must(table_of(resource_fork(new)) == (after, extra), f"{what}: other resources are read")
    must(rest(new) == rest(old), f"{what}: the rest of the file isn't as it was")
    must(os.listdir(os.path.dirname(path)) == [os.path.basename(path)], f"{what}: a file is left")
    return "changed"


def side(row):
    """A row as JSON has it."""
    kind, ident, name, attributes, data = row
    words = words_of(attributes)
    return {"type": kind.decode("mac_roman"), "id": ident, "size": len(data), "attributes": [] if words == "-" else words.split(","), "name": None if name is None else name.decode("mac_roman")}


def differences(a, b):
    """The rows that differ, as JSON has them."""
    a, b = keyed(a), keyed(b)
    found = []
    for key in [*a, *(key for key in b if key not in a)]:
        old, new = a.get(key), b.get(key)
        if old != new:
            first = first_difference(old[4], new[4]) if old and new and old[4] != new[4] else None
            found.append({"nth": key[2], "old": side(old) if old else None, "new": side(new) if new else None, "firstByte": first})
    return found


def try_json(program, path, other_path, rows, other):
    """Compares two files, as a line of JSON."""
    status, output, told = run(program, ["diff", "--json", path, other_path])
    line = json.loads(output)
    must(output.count(b"\n") == 1 and (line.pop("old"), line.pop("new"), told) == (path, other_path, ""), f"diff --json: {output!r} {told!r}")
    must(line["differences"] == differences(rows, other) and sorted(line) == sorted(SAME), f"diff --json: {output!r}")
    must(status == (0 if line == SAME else 1), f"diff --json: {status} {output!r}")


def try_diff(program, path, other_path, rows, other):
    """Compares two files, and one with itself."""
    try_json(program, path, other_path, rows, other)
    try_json(program, path, path, rows, rows)
    lines = diff(rows, other).encode()
    got = run(program, ["diff", path, other_path])
    must(got[:2] == ((1, got[1]) if got[1] else (0, b"")) and got[1].startswith(lines), f"diff: {got} and not {lines!r}")
    compare("diff with itself", run(program, ["diff", path, path]), 0, b"", "")


def try_back(program, folder, path, old, table):
    """What `unpack` wrote is packed, alone and in a file like the old one, and what `derez` wrote is written again."""
    out, new = os.path.join(folder, "out"), os.path.join(folder, "new")
    shutil.rmtree(out, ignore_errors=True)
    compare("unpack", run(program, ["unpack", path, out]), 0, b"", "")
    for words in ([], ["--like", path]):
        if os.path.exists(new):
            os.remove(new)
        compare("pack", run(program, ["pack", "-q", *words, out, new]), 0, b"", "")
        packed = read(new)
        must(table_of(resource_fork(packed)) == table, f"pack {words}: other resources are read")
        must(rest(packed) == (rest(old) if words else None), f"pack {words}: the rest of the file isn't as it was")
    text = run(program, ["derez", path])
    compare("derez", text, 0, None, "")
    os.remove(new)
    compare("rez", run(program, ["rez", "-q", "-", "-o", new], text[1]), 0, b"", "")
    must(table_of(read(new)) == table, "rez after derez: other resources are read")


def try_fork(program, folder, fork, number, seen):
    """Tries a command of each kind on a fork, in one of the containers."""
    choices = random.Random(number)
    rows, extra = table_of(fork)
    keep, kept_as, _ = choices.choice([RAW, *KEPT])
    path, from_path = os.path.join(folder, "in", "file"), os.path.join(folder, "from")
    other = table_of(fork_of([Row(kind, ident, b"from", 0, b"other") for kind, ident in [(b"TEXT", 128), (b"TEXT", 5), (b"new ", 0)]]))[0]
    other += [(*row[:2], None, 4, b"another") for row in rows[:1] if place(other, *row[:2]) is None]
    other = table_of(fork_of([Row(*row) for row in sorted(other)]))[0]
    write(from_path, choices.choice(KEPT)[0](fork_of([Row(*row) for row in other])))
    old = keep(fork)
    write(path, old)
    try_diff(program, path, from_path, rows, other)
    try_back(program, folder, path, old, (rows, extra))
    sources = source_of(program, folder, from_path)
    try_lost(program, folder, fork, rows, other, sources)
    cases = [a_put(rows, choices), a_remove(rows, choices), a_set(rows, choices), a_copy(rows, choices, other, from_path)]
    for case in [*cases, an_into(choices, other, sources)]:
        try:
            result = try_case(program, path, old, case, rows, extra)
        except Difference as difference:
            raise Difference(f"{kept_as}: {difference}") from None
        seen[case.words[0], result] = seen.get((case.words[0], result), 0) + 1


def try_lines(program, folder):
    """Compares the command lines, and the options that say where a changed file goes."""
    path, damaged, out = (os.path.join(folder, it) for it in ("file", "damaged", "out"))
    fork = fork_of([Row(*row) for row in ROWS])
    write(path, fork)
    write(damaged, DAMAGED)
    before = state(path)
    names = {"FILE": path, "DAMAGED": damaged, "OUT": out}
    text, two = run(program, ["derez", path])[1], fork_of([Row(*row) for row in [ROWS[0], ROWS[1], *ROWS[1:]]])
    for name, bytes_of_it in (("TWO", two), ("TEXT", text), ("DOUBLED", run(program, ["derez", "-"], two)[1]), ("SINGLE", KEPT[0][0](fork))):
        names[name] = os.path.join(folder, name)
        write(names[name], bytes_of_it)
    names["NOTHING"], names["EMPTY"] = os.path.join(folder, "nothing"), os.path.join(folder, "no resources")
    write(names["NOTHING"], b"// nothing\n")
    compare("unpack of nothing", run(program, ["unpack", "-", names["EMPTY"]]), 0, b"", "")
    for name, kept in (("BINARY", KEPT[1][0](fork)), ("OTHER", KEPT[0][0](fork).replace(DATA, DATA[::-1]))):
        names[name] = os.path.join(folder, name)
        write(names[name], kept)
    for words, status, told in LINES:
        given = [words[0], *(names.get(it, it) if words[0] == "rez" or it != "TEXT" else it for it in words[1:])]
        told = re.sub(r"^([A-Z]+):", lambda it: f"{names[it[1]]}:", told)
        got = run(program, given)
        must(got[0] == status and got[1] == b"" and told in got[2] and got[2], f"{words}: {got}")
    must(state(path) == before and read(damaged) == DAMAGED and not os.path.exists(out), "a file that is refused is touched")
    after = put(ROWS, b"TEXT", 128, b"Hello")
    printed = diff(ROWS, after).encode()
    compare("put -o", run(program, ["put", path, "TEXT", "128", "-o", out], b"Hello"), 0, printed, "")
    must(state(path) == before and table_of(read(out))[0] == after, "put -o: other resources are read, or FILE is touched")
    compare("put --backup -q", run(program, ["put", path, "TEXT", "128", "--backup", "-q"], b"Hello"), 0, b"", "")
    must(table_of(read(path))[0] == after and read(path + "~") == fork, "put --backup: other resources are read, or no FILE~")
    some = run(program, ["derez", "-t", "TEXT", path])[1]
    write(names["TEXT"], some)
    before = state(path)
    compare("rez of one type", run(program, ["rez", names["TEXT"], "--into", path, "--replace"]), 0, b"", "")
    compare("rez of one type", run(program, ["rez", "-", "--into", path, "--skip"], some), 0, b"", "")
    must(state(path) == before, "rez of one type: nothing changed, and the file is touched")
    write(names["TEXT"], some.replace(b'"Read me"', b'"Me too"'))
    renamed = [changed(row, name=b"Me too") if row[2] == b"Read me" else row for row in after]
    old = read(path)
    compare("rez of one type", run(program, ["rez", names["TEXT"], "--into", path, "--replace", "--backup"]), 0, diff(after, renamed).encode(), "")
    must(table_of(read(path))[0] == renamed and read(path + "~") == old, "rez of one type: other resources are read, or no FILE~")
    empty = os.path.join(folder, "empty")
    write(empty, b"")
    compare("rez over a file of no bytes", run(program, ["rez", names["TEXT"], "-q", "-o", empty]), 0, b"", "")
    write(names["SINGLE"], KEPT[0][0](fork))
    compare("rez --force", run(program, ["rez", names["TEXT"], "-q", "--force", "-o", names["SINGLE"]]), 0, b"", "")
    must(table_of(read(names["SINGLE"])) == table_of(read(empty)), "rez --force: other resources are read")
    new = os.path.join(folder, "new")
    compare("put --create", run(program, ["put", "--create", new, "TEXT", "1"], b"Hi"), 0, b"+ TEXT 1\n", "")
    must(table_of(read(new))[0] == [(b"TEXT", 1, None, 0, b"Hi")], "put --create: other resources are read")


def holds(program, path, rows):
    """All that can be said of a fork with these resources: their list, and the bytes of each."""
    compare(f"ls of {path}", run(program, ["ls", path]), 0, listing(rows).encode(), "")
    for row in rows:
        got = run(program, ["get", path, row.kind.decode(), str(row.ident)])
        must(got == (0, row.data, ""), f"get {row.ident} of {path}: status {got[0]}, {len(got[1])} bytes, {got[2]!r}")


def try_long(program, folder):
    """Resources of more bytes than the three of a place can say: they are read and written, if each begins where these can say."""
    path, out = (os.path.join(folder, it) for it in ("long", "long.out"))
    one = Row(b"TEXT", 1, None, 0, b"Long".ljust(16777300, b"."))
    write(path, fork_of([one]))
    holds(program, path, [one])
    for container in ("applesingle", "appledouble", "macbinary"):
        made = run(program, ["convert", path, out, "--to", container, "--lossy"])
        must(made[0] == 0, f"convert to {container}: {made}")
        holds(program, out, [one])
        os.remove(out)
    compare("salvage", run(program, ["salvage", path]), 0, listing([one]).encode(), "")
    must(run(program, ["salvage", path, "-o", out])[0] == 0, "salvage -o of a long resource")
    holds(program, out, [one])
    before, small = state(path), Row(b"AAAA", 1, None, 0, b"Hi")
    big = run(program, ["put", path, "TEXT", "2"], b"Hi")
    must(big == (4, b"", f"{path}: {message('unwritten', message('too big'))}\n"), f"a resource too far away: {big}")
    must(state(path) == before, "a resource too far away: the file is touched")
    # the first that three bytes can't say is 4 bytes after so many
    for count, status in ((16777211, 0), (16777212, 4)):
        first, second = Row(b"TEXT", 1, None, 0, bytes(count)), Row(b"TEXT", 2, None, 0, b"Hi")
        write(out, fork_of([first]))
        got = run(program, ["put", out, "TEXT", "2"], b"Hi")
        must(got[0] == status, f"a resource after one of {count} bytes: {got}")
        holds(program, out, [first] if status else [first, second])
    # one that comes before the long one, as its type does
    write(out, fork_of([small, one]))
    must(run(program, ["put", out, "AAAA", "2"], b"Ho")[0] == 0, "a resource before a long one")
    holds(program, out, [small, Row(b"AAAA", 2, None, 0, b"Ho"), one])


def lines_of_session():
    """The commands of the session in docs/FILES.md, each with what it prints."""
    with open(os.path.join(TOP, "docs/FILES.md"), encoding="utf-8") as page:
        session = re.search(r"^```session\n(.*?)^```$", page.read(), re.M | re.S)[1]
    return [(it.partition("\n")[0], it.partition("\n")[2]) for it in session.removeprefix("$ ").split("\n$ ")]


def try_session(program, folder):
    """Runs the session of docs/FILES.md on copies of the sample. In one of them the first datum has a length that is too large."""
    os.mkdir(folder)
    sample = read(os.path.join(TOP, "crates/resfork/data/sample.rsrc"))
    for name, data in (("Game.rsrc", sample), ("Old.rsrc", sample), ("bad.rsrc", sample[:256] + b"\xff" + sample[257:])):
        write(os.path.join(folder, name), data)
    lines = lines_of_session()
    for words, printed in lines:
        script = f'resfork() {{ "{os.path.abspath(program)}" "$@"; }}\n{words}'
        done = subprocess.run(["bash", "-c", script], cwd=folder, stdin=subprocess.DEVNULL, stdout=subprocess.PIPE, stderr=subprocess.STDOUT, text=True, check=False)
        must(done.stdout.rstrip("\n") == printed.rstrip("\n"), f"{words}: it wrote {done.stdout!r}")
    return len(lines)


def many(count, last):
    """A fork of so many resources 'TEST' with four bytes, those of their ids and at last these."""
    data = b"".join(struct.pack(">2I", 4, ident) for ident in range(count - 1)) + struct.pack(">I", 4) + last
    references = b"".join(struct.pack(">hHI", ident - 30000, 0xFFFF, 8 * ident) + bytes(4) for ident in range(count))
    header = struct.pack(">4I", 256, 256 + len(data), len(data), 38 + len(references))
    return header + bytes(240) + data + bytes(24) + struct.pack(">2H", 28, min(38 + len(references), 65535)) + struct.pack(">H4s2H", 0, b"TEST", count - 1, 10) + references


def try_many(program, folder):
    """Compares forks of 60,000 resources, and copies 2,000 into their own file with other ids. Neither takes long."""
    old, new = (os.path.join(folder, name) for name in ("old", "new"))
    write(old, many(60000, b"last"))
    write(new, many(60000, b"lost"))
    begun = time.monotonic()
    compare("diff of many", run(program, ["diff", old, new]), 1, b"~ TEST 29999: data 4 -> 4 bytes, from byte 1 on\n", "")
    write(old, many(2000, b"last"))
    added = "".join(f"+ TEST {ident}\n" for ident in range(128, 2128)).encode()
    compare("cp of many", run(program, ["cp", "--renumber", old, old]), 0, added, "")
    must(time.monotonic() - begun < 60, "tables of many rows take long")


def main(program, count=150):
    """Tries the rows by hand, and so many random forks."""
    seen, tried = {}, 0
    with tempfile.TemporaryDirectory() as folder:
        os.mkdir(os.path.join(folder, "in"))
        what = "the session of FILES"
        try:
            session = try_session(program, os.path.join(folder, "session"))
            what = "the command lines"
            os.mkdir(os.path.join(folder, "lines"))
            try_lines(program, os.path.join(folder, "lines"))
            what = "long resources"
            try_long(program, os.path.join(folder, "lines"))
            what = "many resources"
            try_many(program, os.path.join(folder, "lines"))
            for number in range(1, 1 + count):
                fork, what = Choices(number).fork(), f"fork {number}"
                try:
                    table_of(fork)
                except NoFork:
                    continue
                try_fork(program, folder, fork, number, seen)
                tried += 1
        except (Difference, AssertionError) as difference:
            print(f"{what}: {difference!r}")
            return 1
    print(f"a session of {session} commands, {len(LINES)} command lines, {tried} forks changed: " + ", ".join(f"{command} {result} {seen[command, result]}" for command, result in sorted(seen)))
    return 0 if tried else 1
