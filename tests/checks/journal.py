"""Checks what a macheap program leaves on forks and their journals, and which words it takes for them."""
import os
import struct
import subprocess
import tempfile

from checks.files import AB
from model.toolbox import File, Row, journal_of

# the fork of one resource 'TEXT' 128 with the bytes "Hi"
HI = (
    struct.pack(">4I", 256, 262, 6, 50)
    + bytes(240)
    + struct.pack(">I2s", 2, b"Hi")
    + struct.pack(">4I", 256, 262, 6, 50)
    + bytes(8)
    + struct.pack(">2H", 28, 50)
    + struct.pack(">H4s2H", 0, b"TEXT", 0, 10)
    + struct.pack(">2H", 128, 0xFFFF)
    + bytes(8)
)
WRITES = "h = NewHandle 2\nPoke h 0 \"Hi\"\nAddResource h 'TEXT' 128\nUpdateResFile\n"
WRITTEN = "1 NewHandle $0010003C 0\n2 Poke 0\n3 AddResource 0\n4 UpdateResFile 0\n"
# the same fork in the place of a longer one
REPLACES = "a = GetIndResource 'TEXT' 1\nb = GetIndResource 'TEXT' 2\nRemoveResource a\nRemoveResource b\n" + WRITES + "GetResource 'TEXT' 128\n"
REPLACED = "1 GetIndResource $0010003C 0\n2 GetIndResource $00100040 0\n3 RemoveResource 0\n4 RemoveResource 0\n5 NewHandle $00100044 0\n6 Poke 0\n"
REPLACED += "7 AddResource 0\n8 UpdateResFile 0\n9 GetResource $00100044 0\n"
READS = "h = GetResource 'TEXT' 128\nPeek h 0 2\n"
READ = '1 GetResource $0010003C 0\n2 Peek "Hi" 0\n'
REFUSED = "0 OpenResFile -199\n"
TEXT = struct.pack(">I", len(HI)) + HI
OPEN, SHUT = b"\1" + TEXT, b"\0" + TEXT
# a fork of some 4,000,000 bytes, the same with that resource after the others, and its journal open
DATA = [Row(b"DATA", ident, None, 0, bytes([ident]) * 400_000) for ident in range(1, 11)]
LARGE, LARGER = (File(1, rows).fork(lambda row: row.disk) for rows in (DATA, [*DATA, Row(b"TEXT", 128, None, 0, b"Hi")]))
LARGER_OPEN = journal_of(1, LARGER)

# what it is; the forks before, the journals before, the script; what is printed, the forks after, the journals after. None: no such file
ROWS = [
    ("an update leaves a shut gate, a length and the fork", [b""], [b""], WRITES, WRITTEN, [HI], [SHUT]),
    ("a shorter fork is put in the place of a longer one", [AB], [b""], REPLACES, REPLACED, [HI], [SHUT]),
    ("files that are missing are made", [None], [None], WRITES, WRITTEN, [HI], [SHUT]),
    ("a start writes the fork of an open journal, and shuts it", [HI[:100]], [OPEN], "", "", [HI], [SHUT]),
    ("which reads back", [HI[:100]], [OPEN], READS, READ, [HI], [SHUT]),
    ("also where bytes follow the text", [b"x" * 400], [OPEN + b"more"], "", "", [HI], [SHUT + b"more"]),
    ("a gate of 2 is shut", [HI[:100]], [b"\2" + TEXT], "", REFUSED, [HI[:100]], [b"\2" + TEXT]),
    ("a text that lacks its last byte isn't used", [HI[:100]], [OPEN[:-1]], "", REFUSED, [HI[:100]], [OPEN[:-1]]),
    ("four bytes are no journal", [HI], [OPEN[:4]], "", "", [HI], [OPEN[:4]]),
    ("a shut journal is left alone", [HI], [SHUT], "", "", [HI], [SHUT]),
    ("an open gate without a whole text is shut by an update", [b""], [b"\1"], WRITES, WRITTEN, [HI], [SHUT]),
    ("an update cuts the journal", [b""], [SHUT + b"more"], WRITES, WRITTEN, [HI], [SHUT]),
    ("a large fork gets one more resource", [LARGE], [b""], WRITES, WRITTEN, [LARGER], [journal_of(0, LARGER)]),
    ("a start writes a large fork", [LARGE], [LARGER_OPEN], READS, READ, [LARGER], [journal_of(0, LARGER)]),
    ("also over a part of it", [LARGER[:1_000_000]], [LARGER_OPEN], READS, READ, [LARGER], [journal_of(0, LARGER)]),
    ("and a large text that lacks its last byte isn't used", [LARGE], [LARGER_OPEN[:-1]], "", "", [LARGE], [LARGER_OPEN[:-1]]),
    ("a second file waits for its opening", [HI, b""], [SHUT, OPEN], "", "", [HI, b""], [SHUT, OPEN]),
    ("and is recovered by it", [HI, b""], [b"", OPEN], "OpenResFile 2\n", "1 OpenResFile 2 0\n", [HI, HI], [b"", SHUT]),
    ("a script that is none recovers nothing", [b"", None], [OPEN, None], "?\n", "script fault at line 1\n", [b"", b""], [OPEN, b""]),
]

# words, the status that they end with, and which files are there then
WORDS = [
    (["--journal", "j1"], 2, []),
    (["--fork", "f1", "--fork", "f2", "--journal", "j1"], 2, []),
    (["--fork", "f1", "--journal", "j1", "--journal", "j2"], 2, []),
    (["--fork", "f1", "--journal"], 2, []),
    (["--fork", "f1", "--journal", "none/j1"], 1, ["f1"]),
    (["--fork", "none/f1", "--journal", "j1"], 1, []),
    (["--fork", "f1", "--fork", "f2", "--journal", "j1", "--journal", "none/j2"], 1, ["f1", "f2", "j1"]),
    (["--fork=f1", "--journal=j1"], 0, ["f1", "j1"]),
    (["--journal", "j1", "--fork", "f1", "--zone", "2048"], 0, ["f1", "j1"]),
]


def ran(program, words, script, folder):
    return subprocess.run([program, *words], input=script.encode(), capture_output=True, cwd=folder, check=False)


def row_fault(program, forks, journals, script, printed, forks_left, journals_left):
    """What is wrong with a row, or ''."""
    with tempfile.TemporaryDirectory() as folder:
        words, names = [], []
        for option, disks in (("fork", forks), ("journal", journals)):
            for number, disk in enumerate(disks, 1):
                names.append(f"{option}{number}")
                words += [f"--{option}", names[-1]]
                if disk is not None:
                    with open(os.path.join(folder, names[-1]), "wb") as file:
                        file.write(disk)
        end = ran(program, words, script, folder)
        left = []
        for name in names:
            with open(os.path.join(folder, name), "rb") as file:
                left.append(file.read())
        wanted = 3 if printed.startswith("script fault") else 0
        if end.returncode != wanted or end.stdout != printed.encode():
            return f"status {end.returncode}, {end.stdout!r}, {end.stderr!r}"
        if left != forks_left + journals_left:
            return f"files of {[len(it) for it in left]} bytes, {[it[:5] for it in left]}"
    return ""


def words_fault(program, words, status, there):
    """What is wrong with these words, or ''."""
    with tempfile.TemporaryDirectory() as folder:
        end = ran(program, words, "", folder)
        left = sorted(os.listdir(folder))
        if (end.returncode, left) != (status, there) or end.stdout or bool(end.stderr) != bool(status):
            return f"status {end.returncode}, {end.stdout!r}, {end.stderr!r}, files {left}"
    return ""


def main(program):
    found = [(name, row_fault(program, *row)) for name, *row in ROWS]
    found += [(" ".join(words), words_fault(program, words, status, there)) for words, status, there in WORDS]
    faults = [(name, fault) for name, fault in found if fault]
    for name, fault in faults:
        print(f"{name}: {fault}")
    print(f"forks and their journals: {len(found) - len(faults)} rows as they should be, {len(faults)} not")
    return 1 if faults else 0
