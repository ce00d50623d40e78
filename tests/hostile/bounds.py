"""What a file makes a program do is bounded by the file: lists that overlap, input without an end, and inputs that would take the square of their size.
"""
import binascii
import json
import os
import struct

from checks.kept import KEPT
from hostile.bench import GAME, MOST, read, room, write
from measured import slowness
from model.contents import DIGITS
from model.container import resource_fork
from model.fork import read_fork
from model.messages import message, pattern

# a megabyte, in kilobytes
MB = 1024
# how many times the system's own time for new files a command may take that writes them: it checks and syncs each
MAKING = 4
LESS = ["--limit", "16M"]
CONTAINERS = ["raw", "appledouble", "applesingle", "macbinary", "binhex"]


def overlapping(types, count, more=0):
    """A fork of so many types that share one list of so many references to a datum of 256 bytes, with some bytes at the end of its map."""
    entries = b"".join(struct.pack(">I2H", 0x41414141 + it, count - 1, 2 + 8 * types) for it in range(types))
    references = b"".join(struct.pack(">hHI4x", it, 0xFFFF, 0) for it in range(count))
    data = struct.pack(">I", 256) + bytes(256)
    body = struct.pack(">H", types - 1) + entries + references
    the_map = bytes(24) + struct.pack(">2H", 28, min(28 + len(body), 0xFFFF)) + body + bytes(more)
    header = struct.pack(">4I", 256, 256 + len(data), len(data), len(the_map))
    return header + bytes(240) + data + the_map


def every_command(name="f"):
    """Each command, on the file of this name."""
    yield ["ls", name]
    yield ["ls", "--types", name]
    yield ["ls", "--raw", "-t", "TEXT", name]
    yield ["ls", "--json", name]
    yield ["ls", "--json", "--data", "base64", name]
    yield ["get", name, "TEXT", "128"]
    yield ["get", name, "AAAA", "0", "-o", "OUT"]
    yield ["info", name]
    yield ["info", "--json", name]
    yield ["check", name]
    yield ["check", "--json", name]
    yield ["salvage", name]
    yield ["salvage", name, "-o", "OUT"]
    yield ["show", name]
    yield ["show", "--as", "hex", name]
    yield ["show", name, "TEXT", "128", "-o", "OUT"]
    yield ["unpack", name, "OUT"]
    yield ["put", name, "TEXT", "128", "-i", "in", "-o", "OUT"]
    yield ["put", "-n", name, "TEXT", "5", "-i", "in"]
    yield ["put", name, "TEXT", "128", "-i", "in"]
    yield ["put", "--create", "OUT", "TEXT", "128", "-i", name]
    yield ["rm", name, "TEXT", "128", "-o", "OUT"]
    yield ["set", name, "TEXT", "128", "--id", "7", "-o", "OUT"]
    yield ["cp", name, "Game", "-o", "OUT", "--replace"]
    yield ["cp", "Game", name, "-o", "OUT", "--renumber"]
    yield ["diff", name, "Game"]
    yield ["diff", "--json", "Game", name]
    yield ["derez", name]
    yield ["rez", "-o", "OUT", name]
    yield ["pack", "--like", name, "folder", "OUT"]
    yield ["pack", name, "OUT"]
    for kind in CONTAINERS:
        yield ["convert", "--to", kind, "--lossy", name, "OUT"]
    yield ["convert", "--to", "macbinary", "--lossy", "--data", name, "Game", "OUT"]


MANIFEST = {"container": message("raw"), "type": None, "creator": None, "flags": None, "created": None, "modified": None, "extra": "00" * 240, "map_attributes": 0}


def manifest(entries):
    return json.dumps({**MANIFEST, "resources": entries}).encode()


def ready(folder):
    """What the commands of every_command need beside their file."""
    write(GAME, folder, "Game")
    write(b"in", folder, "in")
    os.mkdir(os.path.join(folder, "folder"))
    write(manifest([]), folder, "folder", "resources.json")


def too_much(took, seconds, memory, slow):
    """What is wrong with what a run took, or None."""
    if fault := took.ends_well():
        return fault
    if took.seconds > seconds * slow:
        return f"it took {took.seconds:.2f} s of processor time, and {seconds} s are allowed, where the machine is {slow:.1f} times as slow as usual"
    return f"it took {took.memory // MB} MB" if took.memory > memory else None


def making(count):
    """The processor time that this system takes to make so many folders with one file in each."""
    with room() as folder:
        before = os.times()
        for it in range(count):
            os.mkdir(os.path.join(folder, str(it)))
            write(b"", folder, str(it), "file")
        after = os.times()
    return after.user + after.system - before.user - before.system


class Limits:
    """The processor time and the memory that commands may take, and what they are run on."""

    def __init__(self, bench, seconds, memory):
        self.bench, self.seconds, self.memory, self.slow = bench, seconds, memory, slowness()

    def fault_of(self, words, make, statuses=range(5), named=None, files=0):
        """What is wrong with a command in a folder that is made for it: what it takes, its status, and that it names a file. One that writes so many files
        may take what the system takes for making them, too."""
        with room() as folder:
            ready(folder)
            make(folder)
            before = os.listdir(folder)
            took = self.bench.measured([os.path.join(folder, "out") if word == "OUT" else word for word in words], folder, seconds=8)
            fault = too_much(took, self.seconds + MAKING * making(files) / self.slow, self.memory, self.slow)
            if not fault and took.status not in statuses:
                fault = str(took)
            if not fault and named and (named not in took.told or message("no memory") in took.told or "out of memory" in took.told.lower()):
                fault = f"it isn't refused by name: {took}"
            if not fault and took.status in (3, 4) and words[0] != "salvage" and set(os.listdir(folder)) - set(before) - {"out" if words[0] == "unpack" else ""}:
                fault = f"it is refused, and {set(os.listdir(folder)) - set(before)} is there"
            return fault


def overlaps(bench):
    """Forks whose lists overlap: each command ends within 1 s and takes less than 64 MB."""
    small, large = overlapping(1000, 512), overlapping(8000, 512)
    assert (len(small), len(large)) == (14690, 70690)
    limits = Limits(bench, 1, 64 * MB)
    for what, fork in (("of 14,690 bytes", small), ("of 70,690 bytes", large)):
        kept = [(f"a fork {what}", fork)] + [(f"{kind} with a fork {what}", keep(fork)) for keep, kind, _ in KEPT]
        for kind, data in kept:
            for words in every_command():
                yield f"{' '.join(words)}, {kind}", limits.fault_of(words, lambda folder, data=data: write(data, folder, "f"))
        with room() as folder:
            write(fork, folder, "f")
            took = bench.measured(["ls", "f"], folder, seconds=8)
            yield f"ls of a fork {what} is refused", took.says(3, words=("f: ",)) or (None if not took.output else "it wrote something")
            took = bench.measured(["salvage", "f"], folder, seconds=8)
            most = struct.unpack(">I", fork[12:16])[0] // 12
            shown = [line for line in took.output.splitlines() if not pattern("not read", "more").search(line.decode("utf-8", "replace"))]
            yield f"salvage of a fork {what} obeys the bound", took.says(0, 3) or (None if len(shown) <= most else f"{len(shown)} rows, and {most} are allowed")


def sharing(count, length, more=0):
    """A fork of so many resources of one type that share one datum of so many bytes, with some bytes of no resource after it."""
    data = struct.pack(">I", length) + bytes(length + more)
    references = b"".join(struct.pack(">hHI4x", it, 0xFFFF, 0) for it in range(count))
    the_map = bytes(24) + struct.pack(">2H", 28, 38 + 12 * count) + struct.pack(">H4s2H", 0, b"TEXT", count - 1, 10) + references
    header = struct.pack(">4I", 256, 256 + len(data), len(data), len(the_map))
    return header + bytes(240) + data + the_map


def shared_data(bench):
    """Resources that share bytes: they have together no more than the data, or 4,194,304; so each command ends within 1 s and takes less than 64 MB."""
    most = 4194304
    limits = Limits(bench, 1, 64 * MB)
    for count, length, more in ((256, 1000000, 0), (1000, 4190, 0), (4, most // 4 - 4, 0)):
        fork = sharing(count, length, more)
        for words in every_command():
            yield f"{' '.join(words)}, a fork of {count} resources that share {length} bytes", limits.fault_of(words, lambda folder, fork=fork: write(fork, folder, "f"))
    # as many as macheap reads, one byte more, as many as the data has, and one byte more
    for count, length, more, is_read in ((4, most // 4 - 4, 0, True), (4, most // 4 - 3, 0, False), (2, most - 4, most, True), (2, most - 4, most - 1, False)):
        fork = sharing(count, length, more)
        with room() as folder:
            write(fork, folder, "f")
            for words in (["ls", "f"], ["ls", "--json", "f"], ["check", "f"]):
                took = bench.run(words, folder)
                lines = took.output.count(b"\n") == count or words != ["ls", "f"]
                fault = took.says(0) or (None if lines else "it doesn't list them") if is_read else took.says(3)
                yield f"{' '.join(words)} of {count} resources that share {length} bytes, in {length + 4 + more} bytes of data", fault


def rows_bound(bench):
    """A map of so many bytes may have as many rows as twelfths, and not one more; lists that don't overlap are always read."""
    for count in (4, 20, 300):
        more = 12 * count - 46
        for bytes_less, is_read in ((0, True), (1, False)):
            fork = overlapping(2, count, more - bytes_less)
            assert struct.unpack(">I", fork[12:16])[0] == 24 * count - bytes_less
            with room() as folder:
                write(fork, folder, "f")
                took = bench.run(["ls", "f"], folder)
                fault = took.says(0) or (None if took.output.count(b"\n") == 2 * count else "it doesn't list them") if is_read else took.says(3, words=("f: ",))
                yield f"{2 * count} rows in a map of {24 * count - bytes_less} bytes", fault
    for types, count in ((1, 5450), (1, 1), (3000, 1)):
        fork = overlapping(1, count) if types == 1 else many_types(types)
        with room() as folder:
            write(fork, folder, "f")
            took = bench.run(["ls", "f"], folder)
            yield f"{types} types of {count} rows in lists of their own", took.says(0) or (None if took.output.count(b"\n") == types * count else "it doesn't list them")


def kind_of(number):
    """The type of this number, of four letters."""
    letters = b"ABCDEFGHIJKLMNOPQRSTUVWXYZabcdefghijklmnopqrstuvwxyz0123456789"
    return bytes(letters[number // 62**place % 62] for place in (3, 2, 1, 0))


def many_types(types):
    """A fork of so many types, each with a list of one reference."""
    entries = b"".join(struct.pack(">I2H", 0x41414141 + it, 0, 2 + 8 * types + 12 * it) for it in range(types))
    body = struct.pack(">H", types - 1) + entries + struct.pack(">hHI4x", 1, 0xFFFF, 0) * types
    the_map = bytes(24) + struct.pack(">2H", 28, 0xFFFF) + body
    return struct.pack(">4I", 256, 260, 4, len(the_map)) + bytes(244) + the_map


# input without an end


def bin_hex_of_runs(length):
    """A BinHex text of a data fork of so many zeros, as runs of 255: three bytes for each, which are four characters."""
    head = b"\4Game\0APPLabcd" + struct.pack(">HII", 0, length, len(GAME))
    runs = length // 255
    # zeros have the CRC zero
    rest = bytes(length - 255 * runs) + b"\0\0" + GAME + crc_of(GAME)
    parts = (head + crc_of(head)).replace(b"\x90", b"\x90\0") + b"\0\x90\xff" * runs + rest.replace(b"\x90", b"\x90\0")
    text = b":" + digits_of(parts) + b":"
    return b"(This file must be converted with BinHex 4.0)\n\n" + b"\n".join(text[at : at + 64] for at in range(0, len(text), 64)) + b"\n"


def crc_of(data):
    return struct.pack(">H", binascii.crc_hqx(data, 0))


def digits_of(data):
    """Bytes as BinHex digits, which are base64 in another alphabet."""
    standard = b"ABCDEFGHIJKLMNOPQRSTUVWXYZabcdefghijklmnopqrstuvwxyz0123456789+/"
    return binascii.b2a_base64(data, newline=False).rstrip(b"=").translate(bytes.maketrans(standard, bytes(DIGITS)))


def sparse(folder):
    """A file of 20 GB that takes no room on the disk."""
    write(b"", folder, "sparse")
    os.truncate(os.path.join(folder, "sparse"), 20 << 30)


def endless(bench):
    """A device without an end, a sparse file of 20 GB and a text of runs are refused by name, soon and without much memory."""
    bomb = bin_hex_of_runs(400_000_000)
    assert 6_200_000 < len(bomb) < 6_500_000 and resource_fork(bin_hex_of_runs(10_000)) == GAME
    limits = Limits(bench, 2, 64 * MB)
    for name, make, more in (("/dev/zero", lambda folder: None, LESS), ("sparse", sparse, []), ("runs", lambda folder: write(bomb, folder, "runs"), [])):
        for words in every_command(name):
            is_text = name == "runs" and (words[0] == "rez" or ["-i", name] == words[-2:] or "--data" in words)
            if not is_text and words[:2] != ["pack", name]:  # the text as it is has an end, and a folder is none of these
                yield " ".join(words + more), limits.fault_of(words[:1] + more + words[1:], make, (3, 4), name)
    # three times what the limit is
    most = Limits(bench, 2, 3 << 20)
    for words in (["info", "/dev/zero"], ["put", "Game", "TEXT", "1", "-i", "/dev/zero"]):
        yield f"{' '.join(words)}, with the limit of 1 GB", most.fault_of(words, lambda folder: None, (3, 4), "/dev/zero")


def endless_beside(bench):
    """The standard input, and the files of a folder that is packed."""
    limits = Limits(bench, 2, 64 * MB)
    for name in ("/dev/zero", "sparse"):
        for words in (["ls", *LESS, "-"], ["info", *LESS, "-"], ["put", *LESS, "Game", "TEXT", "1"], ["rez", *LESS, "-o", "out", "-"]):
            with room() as folder:
                sparse(folder)
                write(GAME, folder, "Game")
                with open(os.path.join(folder, name), "rb") as given:
                    took = bench.measured(words, folder, seconds=8, stdin=given)
                fault = too_much(took, limits.seconds, limits.memory, limits.slow) or took.says(3, 4)
                yield f"{' '.join(words)} < {name}", fault or (None if took.told and read(folder, "Game") == GAME else str(took))

    def linked(folder, *names):
        os.makedirs(os.path.join(folder, "packed", "TEXT"))
        write(manifest([{"type": "TEXT", "id": 1, "name": None, "attributes": 0, "file": "TEXT/1.bin"}]), folder, "packed", "resources.json")
        write(b"a", folder, "packed", "TEXT", "1.bin")
        os.unlink(os.path.join(folder, "packed", *names))
        os.symlink("/dev/zero", os.path.join(folder, "packed", *names))

    for what, names in (("the manifest", ["resources.json"]), ("a file", ["TEXT", "1.bin"])):
        yield f"pack where {what} has no end", limits.fault_of(["pack", *LESS, "packed", "OUT"], lambda folder, names=names: linked(folder, *names), (3, 4), names[-1])


def limit_words(bench):
    """A file of as many bytes as --limit says is read, and no longer one; K, M and G count in 1024s."""
    size = len(GAME)
    wanted = {str(size): 0, str(size - 1): 4, "0": 4, "1K": 0, "2M": 0, "20G": 0, "x": 2, "-1": 2, "": 2, "99999999999999999999": 2}
    for command in ("info", "check", "show", "derez", "salvage"):
        for word, status in wanted.items():
            with room() as folder:
                write(GAME, folder, "Game")
                took = bench.run([command, f"--limit={word}", "Game"], folder)
                fault = took.says(status, words=["Game"] if status == 4 else [])
                yield f"{command} --limit={word} of {size} bytes", fault or (f"it printed {took.output!r}" if took.status and took.output else None)


# what would take the square of its size


def squares(bench):
    """Many types in a text, one file that a manifest names often, many entries, many types in a fork: each within 1 s."""
    limits = Limits(bench, 1, MOST)
    for count, statuses in ((200_000, (3, 4)), (3_000, (0,))):
        text = b"".join(b"data '%s' (1) {};\n" % kind_of(it) for it in range(count))
        words = ["rez", "-o", "OUT", "text"]
        yield f"rez of {count} statements with distinct types", limits.fault_of(words, lambda folder, text=text: write(text, folder, "text"), statuses, "text" if statuses[0] else None)
    for size in (1_000_000, 100):

        def packed(folder, size=size):
            os.makedirs(os.path.join(folder, "packed", "TEXT"))
            write(bytes(size), folder, "packed", "TEXT", "1.bin")
            write(manifest([{"type": "TEXT", "id": it, "name": None, "attributes": 0, "file": "TEXT/1.bin"} for it in range(20_000)]), folder, "packed", "resources.json")

        yield f"pack of a manifest that names a file of {size} bytes 20,000 times", limits.fault_of(["pack", "packed", "OUT"], packed, (3, 4) if size > 1000 else (0, 3, 4))
    entries = 65_535
    at = 26 + 12 * entries
    for what, ids in (("distinct ids", range(100, 100 + entries - 1)), ("one id", [3] * (entries - 1))):
        double = struct.pack(">II16xH", 0x51607, 0x20000, entries) + b"".join(struct.pack(">III", it, at, len(GAME)) for it in ids) + struct.pack(">III", 2, at, len(GAME)) + GAME
        for words in every_command():
            yield f"{' '.join(words)}, AppleDouble with {entries} entries of {what}", limits.fault_of(words, lambda folder, double=double: write(double, folder, "f"))
    fork = many_types(3000)
    assert len(read_fork(fork)) == 3000
    for words in every_command():
        files = 3000 if words[0] == "unpack" else 0
        yield f"{' '.join(words)}, a fork of 3,000 types", limits.fault_of(words, lambda folder: write(fork, folder, "f"), files=files)


def rows(bench):
    yield from rows_bound(bench)
    yield from shared_data(bench)
    yield from limit_words(bench)
    if why := bench.cannot_be_bounded():
        yield "what files make a program take", why
        return
    for some in (overlaps, endless, endless_beside, squares):
        yield from some(bench)
