"""Checks resfork and macheap programs against a small model of resource forks, on random forks.

The forks are such as the Resource Manager and other tools write: with the data or the map first, with data and names that are shared, with gaps, with
reserved fields of any value; many of them are then cut or damaged. Of each fork the list is compared, and the bytes of a few
resources, with their exit statuses and with what is said of a fork that is none; and macheap opens it, and says of each resource its
type, id, name, attributes and bytes. By default it tries 200 forks. Each is made from its number, so a difference can be made
again. Before them come command lines, and forks at the limits. Numbers: how many forks, and the number of the first.
"""
import os
import random
import re
import struct
import subprocess
import tempfile

from checks.fork_questions import Difference, expect, opening_is_refused, questions
from model.fork import FORMAT, MESSAGES, MOST_BYTES, NoFork, Row, column, listing, open_code, quoted, read_fork, told_of, types
from model.messages import MISSING, message, refusal

# the forks


class Choices:
    """Makes a fork from a number."""

    def __init__(self, number):
        self.random = random.Random(number)

    def odds(self, share):
        return self.random.random() < share

    def some_bytes(self, most):
        return self.random.randbytes(self.random.randrange(most + 1))

    def kind(self):
        if self.odds(0.8):
            return self.random.choice([b"TEXT", b"STR ", b"CODE", b"ICN#", b"snd ", b"PAT#", b"vers", b"it's", b"a\\b\"", b"    "])
        return self.random.randbytes(4)

    def name(self):
        if self.odds(0.5):
            return None
        if self.odds(0.7):
            return self.random.choice([b"", b"Main", b"a b", b'say "hi"', b"c:\\d", b"Bob's", b"\xa9 1989", b"caf\x8e"])
        return self.some_bytes(255 if self.odds(0.1) else 20)

    def ident(self):
        return self.random.choice([0, 1, 2, 128, 129, 130, -1, 32767, -32768, self.random.randrange(-32768, 32768)])

    def attributes(self):
        return self.random.choice([0, 0, 32, 64, 16, 8, 4, 2, self.random.randrange(256)])

    def rows(self):
        """Rows by type: types in order, each with its rows, which may be none."""
        types = {}
        for _ in range(self.random.choice([0, 1, 1, 2, 3, 5])):
            rows = types.setdefault(self.kind(), [])
            for _ in range(self.random.choice([0, 1, 1, 2, 4])):
                rows.append(Row(None, self.ident(), self.name(), self.attributes(), self.some_bytes(self.random.choice([0, 2, 8, 60]))))
        return types

    def fork(self):
        """A fork, and whether it was damaged."""
        types = self.rows()
        data, data_places = self.pool([row.data for rows in types.values() for row in rows], lambda it: struct.pack(">I", len(it)) + it)
        names, name_places = self.pool([row.name for rows in types.values() for row in rows if row.name is not None], lambda it: bytes([len(it)]) + it)
        the_map = self.map_of(types, data_places, name_places, names)
        return self.joined(data, the_map)

    def pool(self, items, text):
        """The texts of these, in a row or with gaps, in this order or another, where equal ones may be shared; and their places."""
        order = list(range(len(items)))
        if self.odds(0.3):
            self.random.shuffle(order)
        gaps, shares = self.odds(0.2), self.odds(0.3)
        pool, places, known = b"", [None] * len(items), {}
        for index in order:
            item = items[index]
            if shares and item in known:
                places[index] = known[item]
                continue
            if gaps:
                pool += self.some_bytes(9)
            places[index] = known[item] = len(pool)
            pool += text(item)
        return pool + (self.some_bytes(9) if gaps else b""), places

    def map_of(self, types, data_places, name_places, names):
        """The map, whose lists are in some order; without the copy of the header."""
        odd = self.odds(0.3)
        entries, lists, data_places, name_places = b"", b"", iter(data_places), iter(name_places)
        front = self.some_bytes(8) if odd else b""
        between = self.some_bytes(8) if odd else b""
        first = 2 + 8 * len(types) + len(between)
        for kind, rows in types.items():
            start = self.random.randrange(65536) if odd and not rows else first + len(lists)
            entries += struct.pack(">4s2H", kind, (len(rows) - 1) % 65536, start)
            for row in rows:
                name_at = 0xFFFF if row.name is None else next(name_places)
                reserved = self.random.randrange(2**32) if odd else 0
                lists += struct.pack(">hHB", row.ident, name_at, row.attributes) + next(data_places).to_bytes(3, "big") + struct.pack(">I", reserved)
        body = struct.pack(">H", (len(types) - 1) % 65536) + entries + between + lists
        after = self.some_bytes(8) if odd else b""
        types_at = 28 + len(front)
        names_at = types_at + len(body) + len(after)
        if odd and self.odds(0.3):  # the names are before the types
            names_at, types_at = 28 + len(front), 28 + len(front) + len(names)
            parts = front + names + body + after
        else:
            parts = front + body + after + names
        fields = struct.pack(">IHH", *(self.random.randrange(2**it) for it in (32, 16, 16))) if odd else bytes(8)
        return fields + struct.pack(">2H", types_at, names_at) + parts

    def joined(self, data, the_map):
        """The fork of these parts, in some order and with some bytes between them; it may be damaged."""
        odd = self.odds(0.3)
        front = self.some_bytes(20) if odd else self.random.randbytes(240)
        between = self.some_bytes(20) if odd else b""
        after = self.some_bytes(20) if odd else b""
        map_length = 16 + len(the_map)
        if self.odds(0.4):  # the map is first
            map_at = 16 + len(front)
            data_at = map_at + map_length + len(between)
        else:
            data_at = 16 + len(front)
            map_at = data_at + len(data) + len(between)
        header = struct.pack(">4I", data_at, map_at, len(data), map_length)
        copy = self.random.choice([header, bytes(16), self.random.randbytes(16)]) if odd else header
        parts = [(data_at, data), (map_at, copy + the_map)]
        fork = header + front
        for at, part in sorted(parts):
            fork = fork.ljust(at, b"\x55") + part
        return self.damaged(bytearray(fork + after), map_at)

    def damaged(self, fork, map_at):
        dice = self.random.random()
        if dice < 0.5:
            return bytes(fork)
        if dice < 0.6:  # cut
            return bytes(fork[: self.random.randrange(len(fork) + 1)])
        for _ in range(self.random.choice([1, 1, 1, 2, 5])):
            dice = self.random.random()
            if dice < 0.3:  # a field of the header
                at = self.random.randrange(16)
            elif dice < 0.9 and map_at + 22 < len(fork):  # the map
                at = self.random.randrange(map_at + 22, len(fork))
            else:
                at = self.random.randrange(len(fork))
            fork[at] = self.random.choice([0, 1, 0xFF, (fork[at] + 1) % 256, (fork[at] - 1) % 256, self.random.randrange(256)])
        return bytes(fork)


def one_map(kinds, references, names=b""):
    """A fork without extra bytes whose map is first, of one empty datum: types with these counts, and their references as they are."""
    first, entries = 2 + 8 * len(kinds), b""
    for kind, count in kinds:
        entries += struct.pack(">4s2H", kind, (count - 1) % 65536, first)
        first += 12 * count
    the_map = bytes(24) + struct.pack(">3H", 28, min(28 + first, 65535), len(kinds) - 1) + entries + references + names
    return struct.pack(">4I", 16 + len(the_map), 16, 4, len(the_map)) + the_map + bytes(4)


def one_list(types, count, reference):
    """A fork of so many types, which share one list of so many references."""
    entries = b"".join(struct.pack(">I2H", it, count - 1, 2 + 8 * types) for it in range(types))
    the_map = bytes(24) + struct.pack(">3H", 28, 65535, types - 1) + entries + reference * count
    return struct.pack(">4I", 16 + len(the_map), 16, 4, len(the_map)) + the_map + bytes(4)


def one_datum(length, count):
    """A fork of so many resources that are one of so many bytes."""
    references = b"".join(struct.pack(">hHBBHI", it, 0xFFFF, 0, 0, 0, 0) for it in range(count))
    the_map = bytes(24) + struct.pack(">HHH4s2H", 28, 40 + 12 * count, 0, b"DATA", count - 1, 10) + references
    data = struct.pack(">I", length) + bytes(length)
    return struct.pack(">4I", 256, 256 + len(data), len(data), len(the_map)) + bytes(240) + data + the_map


def limits():
    """Forks at the limits, each with a word for it."""
    reference = struct.pack(">hHBBHI", 5, 0xFFFF, 0, 0, 0, 0)
    yield "empty file", b""
    yield "15 bytes", bytes(15)
    yield "16 bytes", bytes(16)
    yield "one row", one_map([(b"TEXT", 1)], reference)
    yield "4,096 rows", one_map([(b"TEXT", 4096)], reference * 4096)
    for count in (5458, 5459):
        yield f"{count} rows", one_map([(b"TEXT", count)], reference * count)
    # 8,192 references, and one more: two bytes say how many there are, and none says where they end
    for count in (8192, 8193):
        yield f"{count} rows", one_map([(b"TEXT", count)], reference * count)
    # one list of references for each of 65 types, which are more than the map has room for
    yield "4,259,775 rows", one_list(65, 65535, reference)
    # 1 MB, and a byte more, so often that macheap's limit is reached, which is resfork's where rows share bytes; and far more often
    for length in (1048572, 1048573):
        for count in (4, 256):
            yield f"{count} rows of {length} bytes", one_datum(length, count)
    small = one_map([(b"TEXT", 1)], reference)
    yield "4,194,304 bytes", small.ljust(MOST_BYTES, b"\0")
    yield "4,194,305 bytes", small.ljust(MOST_BYTES + 1, b"\0")
    yield "9,000,000 bytes", small.ljust(9000000, b"\0")


# command lines, with their status, and what is printed on standard error, or words of it
LINES = [
    (["--help"], 0, ""),
    (["--version"], 0, ""),
    (["ls", "--help"], 0, ""),
    ([], 2, "Usage"),
    (["what"], 2, "what"),
    (["ls"], 2, "Usage"),
    (["ls", "--what", "FILE"], 2, "--what"),
    (["ls", "FILE", "-t"], 2, "--type"),
    (["ls", "FILE", "-t", "TEXTS"], *refusal("error", "bad type")),
    (["ls", "\udcff"], *refusal("error", "no text word")),
    (["ls", "FILE", "FILE"], 0, ""),
    (["ls", "-t", "TEXT", "-t", "STR", "FILE"], 0, ""),
    (["get", "FILE"], 2, "Usage"),
    (["get", "FILE", "TEXT"], 2, "Usage"),
    (["get", "FILE", "TEXT", "5", "6"], 2, "Usage"),
    (["get", "FILE", "TEXT", "5x"], *refusal("FILE", "no resource", 'TEXT "5x"')),
    (["get", "FILE", "TEXT", ""], *refusal("FILE", "no resource", 'TEXT ""')),
    (["get", "FILE", "TEXT", "32768"], *refusal("FILE", "no resource", 'TEXT "32768"')),
    (["get", "FILE", "TEXT", "\\q"], *refusal("error", "bad resource")),
    (["get", "FILE", "TEXT", "\u4e2d"], *refusal("error", "bad resource")),
    (["get", "FILE", "", "5"], *refusal("error", "bad type")),
    (["get", "FILE", "''", "5"], *refusal("error", "bad type")),
    (["get", "FILE", "TEXTS", "5"], *refusal("error", "bad type")),
    (["get", "FILE", "'TEXT", "5"], *refusal("error", "bad type")),
    (["get", "FILE", "TEXT'", "5"], *refusal("error", "bad type")),
    (["get", "FILE", "'", "5"], *refusal("error", "bad type")),
    (["get", "FILE", "\\x4", "5"], *refusal("error", "bad type")),
    (["get", "FILE", "\\x4g45", "5"], *refusal("error", "bad type")),
    (["get", "FILE", "\\q", "5"], *refusal("error", "bad type")),
    (["get", "FILE", "\u4e2d", "5"], *refusal("error", "bad type")),
    (["get", "FILE", "caf\u00e9", "5"], *refusal("FILE", "no resource", "caf\u00e9 5")),
    (["get", "FILE", "TEXT", "5"], 0, ""),
    (["get", "--nth", "1", "FILE", "TEXT", "5"], 0, ""),
    (["get", "FILE", "TEXT", "5", "--nth", "2"], *refusal("FILE", "no resource", "TEXT 5 with --nth 2")),
    (["get", "FILE", "TEXT", "5", "--nth", "0"], *refusal("error", "bad nth")),
    (["get", "FILE", "'TEXT'", "005"], 0, ""),
    (["get", "FILE", "\\x54E\\x58T", "5"], 0, ""),
    (["get", "FILE", "'\\x54\\x45\\x58\\x54'", "5"], 0, ""),
    (["get", "FILE", "TEXT", "-5"], *refusal("FILE", "no resource", "TEXT -5")),
    (["get", "FILE", "'-abc'", "5"], *refusal("FILE", "no resource", "-abc 5")),
    (["get", "FILE", "-abc", "5"], 2, "Usage"),
    (["get", "FILE", "TEX", "5"], *refusal("FILE", "no resource", "TEX  5")),
    (["get", "FILE", "TEX ", "5"], *refusal("FILE", "no resource", "TEX  5")),
    (["ls", "--json", "FILE"], 0, ""),
    (["ls", "--json", "--data", "base64", "FILE"], 0, ""),
    (["ls", "--data", "base64", "FILE"], 2, "--json"),
    (["ls", "--json", "--data", "hex", "FILE"], *refusal("error", "bad data")),
    (["ls", "--json", "--types", "FILE"], *refusal("error", "types as JSON")),
    (["ls", "--json", "--paths", "FILE"], 2, "--json"),
    (["ls", "--sha256", "--types", "FILE"], 2, "--types"),
    (["check", "--sha256", "FILE"], 2, "--sha256"),
    (["info", "--sha256", "FILE"], 0, ""),
    (["info", "--json", "FILE", "FILE"], 0, ""),
    (["check", "FILE", "FILE"], 0, ""),
    (["check"], 2, "Usage"),
    (["check", "NO_SUCH_FILE"], *refusal("NO_SUCH_FILE", "unreadable", MISSING)),
    (["salvage", "FILE"], 0, ""),
    (["salvage", "--list", "FILE"], 0, ""),
    (["salvage", "--list", "FILE", "-o", "OUT"], 2, "--list"),
    (["salvage", "--list", "FILE", "--data", "OUT"], 2, "--list"),
    (["salvage", "FILE", "--data", "OUT", "-o", "OUT"], 2, "--data"),
    (["salvage", "FILE", "--data", "OUT"], 3, f"FILE: {message('raw')}: {message('no data')}\n"),
    (["salvage", "FILE", "FILE"], 2, "Usage"),
    (["salvage", "FILE", "-o", "NO_SUCH_FOLDER/out"], 4, "-o"),
    (["ls", "NO_SUCH_FILE"], *refusal("NO_SUCH_FILE", "unreadable", MISSING)),
    (["ls", "NO_SUCH_FILE", "FILE"], *refusal("NO_SUCH_FILE", "unreadable", MISSING)),
    (["get", "FILE", "TEXT", "5", "-o", "NO_SUCH_FOLDER/out"], 4, "-o"),
]


def run(program, words):
    done = subprocess.run([program, *words], stdin=subprocess.DEVNULL, stdout=subprocess.PIPE, stderr=subprocess.PIPE)
    return done.returncode, done.stdout, done.stderr.decode(errors="replace")


def compare(what, got, status, output, told):
    """Compares what a program did with what it should: status, output, and words of what it says, or a pattern of them."""
    if got[0] != status:
        raise Difference(f"{what}: status {got[0]} and not {status}; it told {got[2]!r}")
    if output is not None and got[1] != output:
        raise Difference(f"{what}: it wrote {got[1][:300]!r} and not {output[:300]!r}")
    is_told = told.search(got[2]) if isinstance(told, re.Pattern) else told in got[2]
    if not is_told or bool(told) != bool(got[2]):
        raise Difference(f"{what}: it told {got[2]!r} and not {told!r}")


def operand(kind, choice):
    """A type as a word of the command line: between quotes, or as the list shows it without its last blanks. One that begins with a hyphen keeps its quotes."""
    if choice == 2 and not kind.startswith(b"-"):
        return column(kind).rstrip(" ")
    return quoted("'", kind, choice == 1)


def name_operand(name, choice):
    """A name as a word of the command line: as the list shows it, or without its quotes where it can."""
    text = quoted('"', name, choice == 1)
    return text[1:-1] if choice == 2 and not name.startswith(b"-") and not re.fullmatch(rb"[+-]?[0-9]+|\".*\"", name, re.DOTALL) else text


def try_open(program, path, fork):
    """Compares what macheap says of a fork. A file without bytes is a new one, which isn't refused."""
    try:
        rows = read_fork(fork) if fork else []
    except NoFork as fault:
        opening_is_refused(program, path, fork, open_code(fault.args[0]))
        return
    expect(program, path, fork, *questions(rows), fork)


def try_get(program, path, rows, kind, words, is_it):
    """Compares the bytes of the first resource of a type that is it."""
    found = next((row.data for row in rows if row.kind == kind and is_it(row)), None)
    got = run(program, ["get", path, *words])
    if found is None:
        compare(f"get {words}", got, 1, b"", f"{path}: {message('no resource', '')}")
    else:
        compare(f"get {words}", got, 0, found, "")


def try_fork(program, path, fork, choices):
    """Compares the lists of a fork and the bytes of a few resources."""
    with open(path, "wb") as file:
        file.write(fork)
    try:
        rows = read_fork(fork, FORMAT) if fork else []
    except NoFork as fault:
        told = told_of(fault.args[0], fork)
        compare("ls", run(program, ["ls", path]), 3, b"", told)
        compare("get", run(program, ["get", path, "TEXT", "128"]), 3, b"", told)
        return fault.args[0]
    compare("ls", run(program, ["ls", path]), 0, listing(rows).encode(), "")
    if choices.randrange(4) == 0:
        compare("ls --raw", run(program, ["ls", "--raw", path]), 0, listing(rows, True).encode(), "")
        compare("ls --types", run(program, ["ls", "--types", path]), 0, types(rows).encode(), "")
        one = choices.choice([row.kind for row in rows] + [b"none"])
        some = [row for row in rows if row.kind == one]
        compare("ls -t", run(program, ["ls", "-t", operand(one, 0), path]), 0, listing(some).encode(), "")
    wanted = choices.sample(rows, min(2, len(rows))) + [Row(b"none", 7, b"none", 0, b"")][: choices.randrange(2)]
    for row in wanted:
        word = operand(row.kind, choices.randrange(3))
        try_get(program, path, rows, row.kind, [word, str(row.ident)], lambda other, row=row: other.ident == row.ident)
        if row.name is not None:
            named = name_operand(row.name, choices.randrange(3))
            try_get(program, path, rows, row.kind, [word, named], lambda other, row=row: other.name == row.name)
    return "fork"


def try_lines(program, path):
    """Compares the command lines, on a fork of one row, 'TEXT' 5, without bytes."""
    with open(path, "wb") as file:
        file.write(one_map([(b"TEXT", 1)], struct.pack(">hHBBHI", 5, 0xFFFF, 0, 0, 0, 0)))
    for words, status, told in LINES:
        words = [path if it == "FILE" else it for it in words]
        compare(" ".join(words), run(program, words), status, None, re.sub("^FILE:", f"{path}:", told))
    ours, terminal = os.openpty()
    done = subprocess.run([program, "get", path, "TEXT", "5"], stdout=terminal, stderr=subprocess.PIPE, text=True, check=False)
    compare("get to a terminal", (done.returncode, b"", done.stderr), 2, b"", refusal(path, "terminal")[1])
    os.close(ours)
    os.close(terminal)


def forks(first, count):
    """The forks at the limits and random ones, each with a word for it and choices."""
    for what, fork in limits():
        yield what, fork, random.Random(0)
    for number in range(first, first + count):
        yield f"fork {number}", Choices(number).fork(), random.Random(number)


def main(resfork, macheap, count=200, first=1):
    """Tries the command lines, the forks at the limits, and so many random forks from this number on."""
    seen = {}
    with tempfile.TemporaryDirectory() as folder:
        path = os.path.join(folder, "fork")
        what = "the command lines"
        try:
            try_lines(resfork, path)
            for what, fork, choices in forks(first, count):
                result = try_fork(resfork, path, fork, choices)
                try_open(macheap, path, fork)
                seen[result] = seen.get(result, 0) + 1
        except Difference as difference:
            print(f"{what}: {difference}")
            return 1
    print(f"{len(LINES)} command lines, {sum(seen.values())} forks: " + ", ".join(f"{it} {seen[it]}" for it in sorted(seen)))
    missing = set(MESSAGES) - set(seen)
    if count >= 1000 and missing:
        print(f"no fork was refused for {', '.join(sorted(missing))}: the check is too weak")
        return 1
    return 0
