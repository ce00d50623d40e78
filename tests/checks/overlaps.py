"""Checks what resfork makes of small forks whose lists of references overlap, so that they list far more resources than the map has room for.

Two forks of 14,690 and 70,690 bytes have one list of 512 references for each of 1,000 and of 8,000 types, and each resource has a name of
255 bytes: whole lists of them would have 536 MB, and 4 GB. Each command has to refuse them, or to read no more of them than one resource for
each 12 bytes of the map, within 1 s of the processor and 64 MB. Before them come forks whose lists overlap a little, with maps of several
lengths: with just as many references as the map has room for they are read, and with one more they are refused, and salvaged but for that one.
"""
import json
import os
import resource
import struct
import tempfile

from checks.fork_questions import Difference
from measured import Measure, slowness
from model.fork import FORMAT, NoFork, listing, read_fork, types
from model.messages import message, refusal

# seconds of a machine that is as fast as usual, and bytes
SECONDS, BYTES = 1, 64 << 20
# no run may write more to a file than this
WRITTEN = 8 << 20
NAME = bytes(255)
MORE = message("more") + "\n"
# types, and references in the one list of them all
LARGE = [(1000, 512), (8000, 512)]
# how many bytes come after the lists of the forks at the limit
AFTER = range(24)


def fork_of(lists, references, after):
    """A fork of one empty datum, with a list for each of these numbers of references, all from the first reference on; and its map's length."""
    entries = b"".join(struct.pack(">I2H", 0x41414141 + index, count - 1, 2 + 8 * len(lists)) for index, count in enumerate(lists))
    names_at = min(30 + len(entries) + len(references), 65535)
    the_map = bytes(24) + struct.pack(">3H", 28, names_at, len(lists) - 1) + entries + references + after
    return struct.pack(">4I", 256, 260, 4, len(the_map)) + bytes(244) + the_map, len(the_map)


def large_fork(kinds, count):
    """A fork of so many types that share one list of so many references to one name; and its map's length."""
    place = max(0, 30 + 8 * kinds + 12 * count - 65535)
    references = b"".join(struct.pack(">hHI4x", it, place, 0) for it in range(count))
    return fork_of([count] * kinds, references, bytes([len(NAME)]) + NAME)


class Bench:
    """The program and what counts its runs, in a folder."""

    def __init__(self, program, folder):
        self.program, self.folder, self.measure = program, folder, Measure(folder)

    def path(self, name):
        return os.path.join(self.folder, name)

    def run(self, words):
        """The status of a run, what it wrote and what it told, where it took no more than it may. What ends it is less strict."""
        with open(self.path("out"), "w+b") as out:
            no_longer = lambda: resource.setrlimit(resource.RLIMIT_FSIZE, (WRITTEN, WRITTEN))
            took = self.measure.run([self.program, *words], 16 * BYTES, 10 * SECONDS, cwd=self.folder, stdout=out, preexec_fn=no_longer)
            out.seek(0)
            output = out.read()
        if took.status < 0 or took.memory << 10 > BYTES or took.seconds > SECONDS and took.seconds > SECONDS * slowness():
            raise Difference(f"{' '.join(words)}: status {took.status} after {took.seconds:.2f} s and {took.memory >> 10} MB, it told {took.told[:200]!r}")
        return took.status, output.decode(), took.told.decode()


def must(holds, what):
    if not holds:
        raise Difference(what)


def told_of(count, map_length):
    """What is said of too many resources."""
    return message("row count", count, map_length, map_length // 12)


def try_limit(bench, after):
    """A fork with as many references as its map has room for, and one with one more."""
    references = b"".join(struct.pack(">hHI4x", it, 0xFFFF, 0) for it in range(20))
    for more in (0, 1):
        room = fork_of([20, 1, 1], references, bytes(after))[1] // 12
        fork, length = fork_of([20, room + more - 21, 1], references, bytes(after))
        must(room + more - 21 <= 20 and length // 12 == room, "the fork isn't at the limit")
        with open(bench.path("fork"), "wb") as file:
            file.write(fork)
        shown, by_types = bench.run(["ls", "fork"]), bench.run(["ls", "--types", "fork"])
        if not more:
            rows = read_fork(fork, FORMAT)
            must(len(rows) == room and shown == (0, listing(rows), ""), f"ls of {room} resources: {shown}")
            must(by_types == (0, types(rows), ""), f"ls --types of {room} resources: {by_types}")
            continue
        try:
            raise Difference(f"the model reads {len(read_fork(fork, FORMAT))} resources")
        except NoFork as fault:
            must(fault.args[0] == "rows", f"the model refuses them for {fault.args[0]}")
        tally = message("tally of more", room, room + 1)
        told = refusal("fork", "salvage", f"{told_of(room + 1, length)}\n  {message('readable', tally)}", "fork")[1]
        must(shown == (3, "", told), f"ls of {room + 1} resources: {shown}, and not {told!r}")
        must(by_types == (3, "", told), f"ls --types of {room + 1} resources: {by_types}")
        # all but the last, which alone is of the third type
        rows = read_fork(fork_of([20, room + more - 21], references, bytes(after + 8))[0], FORMAT)
        must(len(rows) == room, f"{len(rows)} resources are left")
        salvaged = bench.run(["salvage", "fork"])
        must(salvaged == (0, listing(rows) + MORE, ""), f"salvage of {room + 1} resources: {salvaged}")
        salvaged = bench.run(["salvage", "fork", "-o", "saved"])
        told = f"fork: {message('written', tally, 'saved')}\n"
        must(salvaged == (0, "", told), f"salvage -o of {room + 1} resources: {salvaged}")
        saved = bench.run(["ls", "saved"])
        must(saved == (0, listing(rows), ""), f"ls of what is salvaged: {saved}")


def try_large(bench, kinds, count):
    """Each command on a fork of so many types that share one list."""
    fork, length = large_fork(kinds, count)
    must(len(fork) == 6690 + 8 * kinds, f"the fork has {len(fork)} bytes")
    with open(bench.path("fork"), "wb") as file:
        file.write(fork)
    with open(bench.path("small"), "wb") as file:
        file.write(b"")
    most = length // 12
    told = told_of(kinds * count, length)
    error = f"{told}\n  {message('readable', message('tally of more', most, most + 1))}"
    refused = message("salvage", error, "fork") + "\n"
    kind = struct.pack(">I", 0x41414141).decode()
    commands = [
        ["ls", "fork"], ["ls", "--types", "fork"], ["ls", "--raw", "fork"], ["ls", "-t", kind, "fork"], ["get", "fork", kind, "0"], ["show", "fork"],
        ["show", "fork", kind, "0"], ["unpack", "fork", "folder"], ["derez", "fork"], ["diff", "fork", "fork"], ["diff", "fork", "small"], ["diff", "small", "fork"],
        ["diff", "--json", "fork", "fork"], ["cp", "fork", "small"], ["cp", "fork", f"{kind}:0", "small"], ["cp", "small", "fork"], ["put", "fork", kind, "9999"],
        ["rm", "fork", kind, "0"], ["set", "--id", "9999", "fork", kind, "0"], ["info", "fork"],
    ]
    for words in commands:
        status, shown, said = bench.run(words)
        must((status, shown) == (3, "") and said.endswith(refused), f"{' '.join(words)}: status {status}, it wrote {shown[:200]!r} and told {said[:300]!r}")
    for words in (["ls", "--json", "fork"], ["ls", "--json", "--data", "base64", "fork"], ["info", "--json", "fork"]):
        status, shown, _ = bench.run(words)
        line = json.loads(shown)
        must((status, line["status"]) == (3, 3) and line["error"] == error, f"{' '.join(words)}: status {status}, it wrote {shown[:200]!r}")
    status, shown, said = bench.run(["check", "fork"])
    must((status, said) == (3, "") and shown.startswith(f"fault: {told}\n"), f"check: status {status}, it wrote {shown[:200]!r}")
    status, shown, said = bench.run(["check", "--json", "fork"])
    must((status, json.loads(shown)["faults"]) == (3, [{"message": told, "place": None}]), f"check --json: status {status}, it wrote {shown[:200]!r}")
    for words in (["salvage", "fork"], ["salvage", "--list", "fork"]):
        status, shown, said = bench.run(words)
        lines = shown.splitlines(keepends=True)
        must((status, said, len(lines), lines[-1]) == (0, "", most + 1, MORE), f"{' '.join(words)}: status {status}, {len(lines)} lines, it told {said!r}")
    # each resource needs a name of its own in what is written, and two bytes hold no offset of the last ones
    status, _, said = bench.run(["salvage", "fork", "-o", "mended"])
    must((status, said) == refusal("fork", "too much") and not os.path.exists(bench.path("mended")), f"salvage -o: status {status}, it told {said!r}")
    for kept_as in ("applesingle", "macbinary", "binhex", "raw"):
        status, _, said = bench.run(["convert", "--to", kept_as, "fork", f"as_{kept_as}"])
        must(status == 0, f"convert --to {kept_as}, which carries any fork: status {status}, it told {said!r}")
        status, shown, said = bench.run(["ls", f"as_{kept_as}"])
        must((status, shown) == (3, "") and told in said, f"ls of it: status {status}, it told {said!r}")
    with open(bench.path("fork"), "rb") as file:
        must(file.read() == fork, "a command that is refused changed the file")


def main(program):
    """Tries all forks."""
    with tempfile.TemporaryDirectory() as folder:
        bench, what = Bench(program, folder), ""
        try:
            for after in AFTER:
                what = f"{after} bytes after the lists"
                try_limit(bench, after)
            for kinds, count in LARGE:
                what = f"{kinds} types of {count} resources"
                try_large(bench, kinds, count)
        except Difference as difference:
            print(f"{what}: {difference}")
            return 1
    print(f"{2 * len(AFTER)} forks at the limit, and {len(LARGE)} forks whose lists are far past it")
    return 0
