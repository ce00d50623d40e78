#!/usr/bin/env python3
"""Prints the table of docs/FILES.md that has resfork beside other programs, each cell from a try of that program.

    tests/peer_table.py [--resfork PROGRAM] [ARCHIVE..]

It isn't a part of the gate, since it needs programs that a machine may lack; Debian has them: `apt-get install hfsutils macutils unar
python3-fonttools libimage-exiftool-perl`. It says which are missing, and leaves their columns empty.

One file, of a data fork and a fork of 3 resources, is written in each container and in images of disks by tests/model. Each program has to take
the fork out of it, byte for byte; of fontTools and exiftool, which list a fork and don't write it, the list has to be right. Then each writes
what it can of the file, which the model reads again. A program reads an archive, as one that StuffIt made, where it takes a file with resources
out of it. Last, 300 forks of more than 100 resources are read, in each of which one byte of the map is changed, as `tests/run salvage` makes
them: how many of 100 resources come out right on average, of the forks that mean no table any more.
"""
import argparse
import collections
import glob
import json
import os
import random
import shutil
import struct
import subprocess
import sys
import tempfile
from statistics import mean

from checks.salvage import CHANGES, key, large_fork
from checks.shown import fork_of
from model.container import NoContents, resource_fork
from model.contents import WRITERS, Contents
from model.fork import FORMAT, NoFork, Row, read_fork
from model.volume import File, disk_copy, disk_map, hfs, mfs
from peers import EXIF, READ
from places import TOP

FORK = fork_of([Row(b"TEXT", 128, b"Read me", 0, b"Hello"), Row(b"STR ", 1, None, 0, b"\x02Hi"), Row(b"STR ", 2, None, 32, b"\x01A")])
FILE = Contents(name=b"Note", kind=b"TEXT", creator=b"ttxt", data=b"some data", resource=FORK)
VOLUME = hfs(b"Disk", [File(b"Note", b"some data", FORK, b"TEXT", b"ttxt")], blocks=1600)
FLAT = mfs(b"Disk", [File(b"Note", b"some data", FORK, b"TEXT", b"ttxt")], blocks=380)
ENDINGS = {"macbinary": "bin", "binhex": "hqx", "raw": "rsrc", "applesingle": "as", "appledouble": "ad"}
CONTAINERS = {"a fork alone": "raw", "AppleSingle": "applesingle", "AppleDouble": "appledouble", "MacBinary": "macbinary", "BinHex": "binhex"}
IMAGES = {
    "an HFS volume": VOLUME,
    "in DiskCopy 4.2": disk_copy(VOLUME),
    "in a partition map": disk_map([(b"Apple_HFS", VOLUME)]),
    "an MFS volume": FLAT,
}
PEERS = ["resfork", "hfsutils", "macutils", "unar", "fontTools", "exiftool"]
NEEDS = {"hfsutils": "hcopy", "macutils": "macunpack", "unar": "unar", "fontTools": "/usr/bin/python3", "exiftool": "exiftool"}


class Tried:
    """Runs programs in a folder of their own."""

    def __init__(self, resfork):
        self.resfork, self.folder = resfork, tempfile.mkdtemp()

    def begin(self):
        """An empty folder."""
        shutil.rmtree(self.folder)
        os.mkdir(self.folder)

    def run(self, *words, to=None):
        """Whether a program ends well; what it prints may go to a file."""
        environment = {**os.environ, "HOME": self.folder}
        done = subprocess.run(words, cwd=self.folder, env=environment, stdin=subprocess.DEVNULL, capture_output=True, timeout=60, check=False)
        if to:
            self.put(to, done.stdout)
        self.said = done.stdout
        return done.returncode == 0

    def first(self, *ways):
        """Whether one of these runs ends well; after it there are no more."""
        return any(self.run(*words) for words in ways)

    def each(self, *steps):
        """Whether each of these runs ends well, in turn."""
        return all(self.run(*words) for words in steps)

    def put(self, name, data):
        with open(os.path.join(self.folder, name), "wb") as file:
            file.write(data)

    def forks(self):
        """The resource forks of all files in the folder but the given one, also those in containers."""
        for path in glob.glob(f"{self.folder}/**/*", recursive=True) + glob.glob(f"{self.folder}/**/.*", recursive=True):
            if os.path.isfile(path) and not os.path.basename(path).startswith("given"):
                with open(path, "rb") as file:
                    data = file.read()
                try:
                    yield resource_fork(data)
                except NoContents:
                    yield data


def lists_by_font_tools(tried, path):
    """The rows that fontTools reads."""
    if not tried.run("/usr/bin/python3", "-c", READ, path):
        return None
    rows = json.loads(tried.said)
    return [Row(bytes.fromhex(it[0]), it[1], None if it[3] is None else bytes.fromhex(it[3]), it[2], bytes.fromhex(it[4])) for it in rows]


def lists_by_exif_tool(tried, path):
    """Types, ids and lengths that exiftool lists."""
    tried.run("exiftool", "-v3", "-m", path)
    return [(kind.encode("latin-1"), int(ident, 16), int(length)) for kind, ident, length, _ in EXIF.findall(tried.said.decode("latin-1"))]


def takes(tried, peer, path, image):
    """Whether a program gets the fork out of a file."""
    if peer == "fontTools":
        rows = lists_by_font_tools(tried, path)
        return rows is not None and [key(it) for it in rows] == [key(it) for it in read_fork(FORK, FORMAT)]
    if peer == "exiftool":
        return sorted(lists_by_exif_tool(tried, path)) == sorted((it.kind, it.ident, len(it.data)) for it in read_fork(FORK, FORMAT))
    if peer == "resfork":
        convert, given = [tried.resfork, "convert", "--lossy", "--to", "raw"], f"{path}:Note" if image else path
        tried.first([*convert, "--data", "out.data", given, "out.rsrc"], [*convert, given, "out.rsrc"])
    elif peer == "unar":
        tried.run("unar", "-q", "-f", "-k", "hidden", path)
    elif peer == "macutils":
        tried.first(["macunpack", "-r", path], ["hexbin", "-r", path])
    elif image:
        for part in ([], ["0"], ["1"]):
            if tried.each(["hmount", path, *part], ["hcopy", "-m", ":Note", "out.bin"]):
                break
    else:
        # into a volume, and out of it again
        tried.put("given.disk", bytes(819200))
        mode = "-b" if path.endswith("hqx") else "-m"
        tried.each(["hformat", "given.disk"], ["hcopy", mode, path, ":Note"], ["hcopy", "-m", ":Note", "out.bin"])
    return FORK in tried.forks()


def writes(tried, peer, kind):
    """Whether a program writes the fork in a container, by the ways that its pages have."""
    path = f"out.{ENDINGS[kind]}"
    tried.put("given.rsrc", FORK)
    tried.put("given.bin", WRITERS["macbinary"](FILE))
    if peer == "resfork":
        convert = [tried.resfork, "convert", "--lossy", "--to", kind]
        tried.first([*convert, "--data", "given.data", "given.bin", path], [*convert, "given.bin", path])
    elif peer == "macutils" and kind in ("macbinary", "binhex"):
        tried.run({"macbinary": "macstream", "binhex": "binhex"}[kind], "-r", "given.rsrc", to=path)
    elif (peer, kind) in (("macutils", "raw"), ("unar", "appledouble")):
        return takes(tried, peer, "given.bin", False)
    elif peer == "hfsutils" and kind in ("macbinary", "binhex"):
        tried.put("given.disk", VOLUME)
        tried.each(["hmount", "given.disk"], ["hcopy", "-m" if kind == "macbinary" else "-b", ":Note", path])
    return os.path.exists(os.path.join(tried.folder, path)) and FORK in tried.forks()


def changes_a_volume(tried, peer):
    """Whether a program puts a file into a volume."""
    tried.put("given.disk", VOLUME)
    tried.put("given.bin", WRITERS["macbinary"](Contents(**{**vars(FILE), "name": b"New"})))
    if peer == "hfsutils":
        tried.each(["hmount", "given.disk"], ["hcopy", "-m", "given.bin", ":New"], ["hcopy", "-m", ":New", "out.bin"])
    if peer == "resfork":
        convert = [tried.resfork, "convert", "--lossy", "--to"]
        tried.each([*convert, "macbinary", "given.bin", "given.disk:New"], [*convert, "raw", "given.disk:New", "out.bin"])
    return FORK in tried.forks()


def changes_a_resource(tried, peer):
    """Whether a program changes one resource of a fork."""
    tried.put("given.rsrc", FORK)
    tried.put("given.bytes", b"Others")
    if peer != "resfork" or not tried.run(tried.resfork, "put", "given.rsrc", "TEXT", "128", "-i", "given.bytes"):
        return False
    with open(os.path.join(tried.folder, "given.rsrc"), "rb") as file:
        return [it.data for it in read_fork(file.read(), FORMAT)] == [b"Others", b"\x02Hi", b"\x01A"]


def damaged():
    """Forks of which one byte of the map is changed, so that they mean no table, each with its rows."""
    fork, rows = large_fork(0)
    choices, map_at = random.Random(1000), struct.unpack(">I", fork[4:8])[0]
    for _ in range(CHANGES):
        changed = bytearray(fork)
        changed[choices.randrange(map_at, len(fork))] ^= choices.randrange(1, 256)
        try:
            read_fork(bytes(changed), FORMAT)
        except NoFork:
            yield bytes(changed), rows


def salvages(tried, peer):
    """How many of 100 resources come out of damaged forks, on average."""
    shares = []
    for fork, rows in damaged():
        tried.begin()
        tried.put("given.rsrc", fork)
        found = None
        if peer == "fontTools":
            found = lists_by_font_tools(tried, "given.rsrc")
        elif tried.run(tried.resfork, "salvage", "given.rsrc", "-o", "out"):
            with open(os.path.join(tried.folder, "out"), "rb") as file:
                found = read_fork(file.read(), FORMAT)
        right = collections.Counter(map(key, rows)) & collections.Counter(map(key, found or []))
        shares.append(sum(right.values()) / len(rows))
    return f"{100 * mean(shares):.0f} of 100"


def opens(tried, peer, archive):
    """Whether a program takes a file with resources out of an archive."""
    given = shutil.copy(archive, os.path.join(tried.folder, "given" + os.path.splitext(archive)[1]))
    if peer in ("unar", "macutils"):
        takes(tried, peer, given, False)
    elif peer == "resfork":
        tried.run(tried.resfork, "convert", "--lossy", "--to", "raw", given, "out.rsrc")
    return any(has_rows(fork) for fork in tried.forks())


def has_rows(fork):
    try:
        return bool(read_fork(fork, FORMAT))
    except NoFork:
        return False


def rows_of(tried, archives):
    """The rows of the table: a name, and what is to be found out of each program."""
    for name, kind in CONTAINERS.items():
        yield f"reads {name}", lambda peer, kind=kind: reads(tried, peer, f"given.{ENDINGS[kind]}", WRITERS[kind](FILE), False)
    for name, data in IMAGES.items():
        yield f"reads {name}", lambda peer, data=data: reads(tried, peer, "given.img", data, True)
    for archive in archives:
        yield f"opens {os.path.basename(archive)}", lambda peer, archive=archive: opens(tried, peer, archive)
    for name, kind in CONTAINERS.items():
        yield f"writes {name}", lambda peer, kind=kind: writes(tried, peer, kind)
    yield "puts a file on an HFS volume", lambda peer: changes_a_volume(tried, peer)
    yield "changes one resource", lambda peer: changes_a_resource(tried, peer)
    yield "reads damaged forks", lambda peer: peer in ("resfork", "fontTools") and salvages(tried, peer)


def reads(tried, peer, name, data, image):
    tried.put(name, data)
    return takes(tried, peer, name, image)


def main():
    words = argparse.ArgumentParser(description=__doc__, formatter_class=argparse.RawDescriptionHelpFormatter)
    words.add_argument("--resfork", default=f"{TOP}/crates/resfork/out/resfork")
    words.add_argument("archives", nargs="*", metavar="ARCHIVE")
    asked = words.parse_args()
    missing = [it for it, needed in NEEDS.items() if not shutil.which(needed)]
    for it in missing:
        print(f"there is no {it}", file=sys.stderr)
    tried = Tried(os.path.abspath(asked.resfork))
    print("| |", " | ".join(PEERS), "|")
    print("|---|" + "---|" * len(PEERS))
    for name, found_out in rows_of(tried, [os.path.abspath(it) for it in asked.archives]):
        cells = []
        for peer in PEERS:
            tried.begin()
            found = "" if peer in missing else found_out(peer)
            cells.append({True: "yes", False: "-"}.get(found, found))
        print(f"| {name} |", " | ".join(cells), "|", flush=True)
    shutil.rmtree(tried.folder)


if __name__ == "__main__":
    main()
