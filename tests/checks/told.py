"""Checks what resfork says of files as a whole: the archive in one without resources, its Finder flags, dates and comment, digests, and names of files.

Files are made here in MacBinary, AppleSingle, AppleDouble and BinHex from their published formats. Dates are those of Python's calendar, digests those of
its hashlib, and the names of flags those of Inside Macintosh. Number: how many random dates.
"""
import binascii
import datetime
import hashlib
import json
import os
import random
import struct
import subprocess
import tempfile

from checks.fork_questions import Difference
from checks.kept import apple, bin_hex_of, filled
from checks.shown import fork_of
from model.fork import Row, listing
from model.messages import message

STUFFIT = b"StuffIt (c)1997-1998 Aladdin Systems, Inc." + bytes(60)
OLD_STUFFIT = b"SIT!\0\1" + struct.pack(">I", 200) + b"rLau" + bytes(186)
NAMES = [
    (0x8000, "isAlias"), (0x4000, "isInvisible"), (0x2000, "hasBundle"), (0x1000, "nameLocked"), (0x0800, "isStationery"), (0x0400, "hasCustomIcon"),
    (0x0200, "bit9"), (0x0100, "hasBeenInited"), (0x0080, "hasNoINITs"), (0x0040, "isShared"), (0x0020, "bit5"), (0x0010, "bit4"), (0x0001, "isOnDesk"),
]
LOCAL, UNIVERSAL = datetime.datetime(1904, 1, 1), datetime.datetime(2000, 1, 1)
TEXT = b"words of a letter that is no fork at all"
ROWS = [Row(b"TEXT", 128, b"Read me", 0x20, b"Hello"), Row(b"snd ", -1, None, 0, b"")]


def must(what, got, wanted):
    if got != wanted:
        raise Difference(f"{what}:\n  {got!r}\n  where there should be\n  {wanted!r}")


def mac_binary(data, fork, flags=0, dates=(0, 0), comment=b""):
    """MacBinary II."""
    head = bytearray(128)
    head[1:6], head[65:73] = b"\4Game", b"APPLMine"
    head[73], head[101] = flags >> 8, flags & 255
    head[83:99] = struct.pack(">4I", len(data), len(fork), *dates)
    head[99:101] = struct.pack(">H", len(comment))
    head[122:124] = bytes([129, 129])
    head[124:126] = struct.pack(">H", binascii.crc_hqx(bytes(head[:124]), 0))
    return bytes(head) + filled(data) + filled(fork) + filled(comment)


def apple_file(magic, data, fork, flags=0, dates=(0, 0), comment=b""):
    parts = [(3, b"Game"), (4, comment), (8, struct.pack(">2I8x", *dates)), (9, b"APPLMine" + struct.pack(">H", flags) + bytes(22)), (2, fork)]
    return apple(magic, ([(1, data)] if data else []) + parts)


class Bench:
    """Runs the program in a folder."""

    def __init__(self, program, folder):
        self.program, self.folder = os.path.abspath(program), folder

    def write(self, name, text):
        with open(os.path.join(self.folder, name), "wb") as file:
            file.write(text)

    def run(self, *words, text=b""):
        done = subprocess.run([self.program, *words], cwd=self.folder, input=text, capture_output=True, check=False)
        return done.returncode, done.stdout.decode(), done.stderr.decode()

    def json(self, *words):
        status, said, told = self.run(*words)
        return status, [json.loads(line) for line in said.splitlines()], told


def try_inside(bench):
    """Files without resources, and an archive in the data fork: by no fork at all, and by a fork without resources."""
    empty = fork_of([])
    for archive, name, command in ((STUFFIT, "StuffIt", "unar"), (OLD_STUFFIT, "StuffIt", "unar"), (b"PK\3\4" + bytes(90), "zip", "unzip")):
        told = message("inside", message(name), message(command).replace("FILE", "'a file.hqx'"))
        for keep in (mac_binary, bin_hex_of, lambda data, fork: apple_file(0x51600, data, fork)):
            bench.write("a file.hqx", keep(archive, b""))
            for words in (["ls"], ["ls", "--types"], ["check"]):
                must(" ".join(words), bench.run(*words, "a file.hqx"), (3, "", f"a file.hqx: {told}\n"))
            for words in (["ls", "--json"], ["check", "--json"]):
                must(" ".join(words), bench.json(*words, "a file.hqx"), (3, [{"file": "a file.hqx", "status": 3, "error": told}], f"a file.hqx: {told}\n"))
            status, said, noted = bench.run("info", "a file.hqx")
            must("info", (status, "resources: 0\n" in said, noted), (0, True, f"a file.hqx: {told}\n"))
            must("info --json", bench.json("info", "--json", "a file.hqx")[1][0]["note"], told)
            bench.write("a file.hqx", keep(archive, empty))
            must("ls of a fork without resources", bench.run("ls", "a file.hqx"), (0, "", f"a file.hqx: {told}\n"))
            must("check of it", bench.run("check", "a file.hqx"), (0, "no fault\n", f"a file.hqx: {told}\n"))
            must("ls --json of it", bench.json("ls", "--json", "a file.hqx")[1][0]["note"], told)
            bench.write("a file.hqx", keep(archive, fork_of(ROWS)))
            must("ls of a fork with resources", bench.run("ls", "a file.hqx"), (0, listing(ROWS), ""))
            must("ls -t of it", bench.run("ls", "-t", "none", "a file.hqx"), (0, "", ""))
    must("ls -", bench.run("ls", "-", text=mac_binary(STUFFIT, b"")), (3, "", f"-: {message('inside', message('StuffIt'), message('unar').replace('FILE', '-'))}\n"))


def try_none(bench):
    """Files without a resource fork have one status in all containers; one without bytes has no resources."""
    for keep, kept_as in (
        (mac_binary, "macbinary II"), (bin_hex_of, "binhex"), (lambda data, fork: apple_file(0x51600, data, fork), "applesingle"),
        (lambda data, fork: apple_file(0x51607, b"", fork), "appledouble"),
    ):
        bench.write("file", keep(TEXT, b""))
        for words in (["ls", "file"], ["check", "file"], ["get", "file", "TEXT", "1"], ["show", "file"]):
            must(f"{words[0]} of {kept_as} without a fork", bench.run(*words), (3, "", f"file: {message(kept_as)}: {message('absent')}\n"))
    bench.write("file", b"")
    must("ls of a file without bytes", bench.run("ls", "file"), (0, "", ""))


def try_unknown(bench):
    """All commands say the same of an archive and of a text."""
    archive = message("archive", message("StuffIt"), message("unar").replace("FILE", "file"))
    for text, told in (
        (OLD_STUFFIT, archive), (STUFFIT, archive),
        (b"hello, this is a text of some lines\n" * 9, message("unknown")), (b"short", message("unknown for", message("header", 16, 5, "000000"))),
    ):
        bench.write("file", text)
        for words in (["ls", "file"], ["check", "file"], ["info", "file"], ["get", "file", "TEXT", "1"], ["show", "file"], ["derez", "file"], ["rm", "file", "TEXT", "1"]):
            must(f"{words[0]} of {text[:9]}", bench.run(*words), (3, "", f"file: {told}\n"))
        status, lines, said = bench.json("check", "--json", "file")
        must(f"check --json of {text[:9]}", (status, lines[0]["status"], said), (3, 3, f"file: {told}\n"))


def shown(base, seconds, zone=""):
    return (base + datetime.timedelta(seconds=seconds)).isoformat() + zone


def about(flags=(), dates=(), comment=None):
    lines = ["flags: " + ",".join(flags)] if flags else []
    lines += [f"{what}: {date}" for what, date in zip(("created", "modified"), dates) if date]
    return "".join(f"{it}\n" for it in lines + ([f'comment: "{comment}"'] if comment else []))


def try_facts(bench, number):
    """Finder flags, dates and comments."""
    start = 'kept as: {}\nname: "Game"\ntype: APPL\ncreator: Mine\n'
    end = "data fork: 0 bytes\nresource fork: {0} bytes\nmap attributes: {1}\nresources: 2\nTEXT      1\nsnd       1\n"
    fork = fork_of(ROWS)
    must("the sample's map", struct.unpack(">H", fork[struct.unpack(">I", fork[4:8])[0] + 22 :][:2]), (3,))
    end = end.format(len(fork), 3)
    dice = random.Random(7)
    dates = [1, 86399, 86400, 59 * 86400, 60 * 86400, 366 * 86400, 2**31 - 1, 2**31 + 1, 2**32 - 1, *(dice.randrange(1, 2**32) for _ in range(number))]
    for date in dates:
        bench.write("file", mac_binary(b"", fork, 0, (date, 0)))
        must(f"MacBinary's date {date}", bench.run("info", "file"), (0, start.format(message("macbinary II")) + about(dates=(shown(LOCAL, date),)) + end, ""))
        signed = date - 2**32 if date >= 2**31 else date
        bench.write("file", apple_file(0x51607, b"", fork, 0, (2**31, date)))
        wanted = start.format(message("appledouble")) + about(dates=(None, shown(UNIVERSAL, signed, "Z"))) + end
        must(f"AppleDouble's date {date}", bench.run("info", "file"), (0, wanted, ""))
    for flags in [*(bit for bit, _ in NAMES), 2, 4, 8, 0x2100, 0xFFFF, *(dice.randrange(65536) for _ in range(number // 4))]:
        names = [name for bit, name in NAMES if flags & bit] + ([f"color:{flags >> 1 & 7}"] if flags & 14 else [])
        bench.write("file", mac_binary(b"", fork, flags, (0, 0), b"Caf\x8e \"x\"\r"))
        must(f"the flags {flags:04X}", bench.run("info", "file"), (0, start.format(message("macbinary II")) + about(names, (), 'Caf\u00e9 \\"x\\"\\x0D') + end, ""))
        said = bench.json("info", "--json", "file")[1][0]
        must(f"the flags {flags:04X} as JSON", (said["flags"], said["created"], said["modified"], said["comment"]), (names, None, None, 'Caf\u00e9 "x"\r'))
    bench.write("file", bin_hex_of(b"", fork))
    status, _, told = bench.run("convert", "file", "new.bin", "--to", "macbinary", "-q")
    must("convert", (status, told), (0, ""))
    must("what is converted from BinHex has no dates", ["created" in bench.run("info", it)[1] for it in ("file", "new.bin")], [False, False])


def digest(data):
    return hashlib.sha256(data).hexdigest()


def try_digests(bench):
    fork, data = fork_of(ROWS), bytes(range(250))
    bench.write("file", mac_binary(data, fork))
    lines = "".join(f"{line} {digest(row.data)}\n" for line, row in zip(listing(ROWS).splitlines(), ROWS))
    must("ls --sha256", bench.run("ls", "--sha256", "file"), (0, lines, ""))
    must("ls --sha256 -t", bench.run("ls", "--sha256", "-t", "snd", "file"), (0, lines.splitlines(keepends=True)[1], ""))
    said = bench.json("ls", "--sha256", "--json", "file")[1][0]["resources"]
    must("ls --sha256 --json", [it["sha256"] for it in said], [digest(row.data) for row in ROWS])
    said = bench.run("info", "--sha256", "file")[1].splitlines()
    for line in (f"data fork: 250 bytes {digest(data)}", f"resource fork: {len(fork)} bytes {digest(fork)}"):
        must("info --sha256", line in said, True)
    said = bench.json("info", "--sha256", "--json", "file")[1][0]
    must("info --sha256 --json", (said["dataForkSha256"], said["resourceForkSha256"]), (digest(data), digest(fork)))


def try_names(bench):
    """Names of files before their lines, and in each line."""
    bench.write("a", fork_of(ROWS))
    bench.write("b", fork_of(ROWS[:1]))
    bench.write("c", fork_of([]))
    lines = listing(ROWS).splitlines(keepends=True)
    must("ls of three files", bench.run("ls", "a", "b", "c"), (0, "a:\n" + "".join(lines) + "b:\n" + lines[0], ""))
    must("ls -t of three files", bench.run("ls", "-t", "snd", "c", "b", "a"), (0, "a:\n" + lines[1], ""))
    must("ls of one that isn't there", bench.run("ls", "no", "b")[1], "b:\n" + lines[0])
    must("ls --paths", bench.run("ls", "--paths", "-t", "snd", "-t", "TEXT", "b", "a"), (0, "".join(f"{name} {line}" for name, line in zip("baa", [lines[0], *lines])), ""))
    must("ls --paths of one file", bench.run("ls", "--paths", "b"), (0, f"b {lines[0]}", ""))
    must("ls --paths --types", bench.run("ls", "--paths", "--types", "a"), (0, "a TEXT      1\na snd       1\n", ""))
    must("ls --paths --sha256", bench.run("ls", "--paths", "--sha256", "b"), (0, f"b {lines[0][:-1]} {digest(b'Hello')}\n", ""))
    must("check of two files", bench.run("check", "a", "b"), (0, "a:\nno fault\nb:\nno fault\n", ""))


def main(resfork, number=40):
    with tempfile.TemporaryDirectory() as folder:
        bench, what = Bench(resfork, folder), ""
        try:
            for what, trial in (("archives", try_inside), ("no fork", try_none), ("unknown files", try_unknown), ("digests", try_digests), ("names", try_names)):
                trial(bench)
            what = "facts"
            try_facts(bench, number)
        except Difference as difference:
            print(f"{what}: {difference}")
            return 1
    print(f"archives in data forks, flags, {number} random dates, comments, digests and names of files are as they should be")
    return 0
