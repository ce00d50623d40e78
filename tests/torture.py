#!/usr/bin/env python3
"""Replaces one resource by several programs, with each call of the system failing in turn, and ends the program at each.

    tests/torture.py [--resfork PROGRAM] [--most N]

It isn't a part of the gate, since it needs programs that a machine may lack: `apt-get install strace hfsutils macutils python3-fonttools`. It
says which are missing, and goes on without them. Each program replaces the bytes of 'STR ' 128 in a file that has 50,000 bytes of another
resource: `resfork put`; a script over fontTools that reads all resources and writes the file; `cp` of a file that was made elsewhere; macunpack
of macutils, which takes a MacBinary file apart again; hcopy of hfsutils, which puts the file on an HFS volume in an image once more.

A line for each shows how many calls failed, or were the program's last; and what was there after them: the old file, the new one, or neither;
and how often it was neither after status 0. N calls of each kind are tried at most, 40 if left out.
"""
import argparse
import binascii
import collections
import os
import re
import shutil
import subprocess
import sys
import tempfile

from model.toolbox import File, Row
from places import TOP

# the calls that write, name, close or sync files
CALLS = [
    "openat", "creat", "write", "pwrite64", "writev", "ftruncate", "truncate", "rename", "renameat", "renameat2", "link", "linkat",
    "unlink", "unlinkat", "fsync", "fdatasync", "fchmod", "fchown", "copy_file_range", "sendfile", "fallocate", "close",
]  # fmt: skip
BIG = bytes(range(250)) * 200
SCRIPT = """
import sys
from fontTools.misc.macRes import ResourceReader
sys.path.insert(0, sys.argv[4])
from model.toolbox import File, Row
reader, rows = ResourceReader(sys.argv[1]), []
for kind, ident in ((b'BIG ', 1), (b'STR ', 128)):
    data = reader['BIG '][0].data if kind == b'BIG ' else open(sys.argv[2], 'rb').read()
    rows.append(Row(kind, ident, None, 0, data))
with open(sys.argv[1], 'wb') as file:
    file.write(File(1, rows).fork(lambda row: row.disk))
"""


def fork_with(text):
    """A fork of the large resource and of this text."""
    rows = [Row(b"BIG ", 1, None, 0, BIG), Row(b"STR ", 128, None, 0, text)]
    return File(1, rows).fork(lambda row: row.disk)


OLD, NEW = fork_with(b"\3old"), fork_with(b"\3new")


def mac_binary(fork):
    """A MacBinary II file of a resource fork alone."""
    head = bytearray(128)
    head[1:3] = b"\1f"
    head[65:73] = b"APPLTEST"
    head[87:91] = len(fork).to_bytes(4, "big")
    head[122:124] = b"\x81\x81"
    head[124:126] = binascii.crc_hqx(head[:124], 0).to_bytes(2, "big")
    return bytes(head) + fork + bytes(-len(fork) % 128)


def put(path, data):
    with open(path, "wb") as file:
        file.write(data)


def read(path):
    try:
        with open(path, "rb") as file:
            return file.read()
    except OSError:
        return None


class Way:
    """A program that replaces the resource: its words, how its folder begins, and the fork that is in it after."""

    def __init__(self, name, words, begin, found):
        self.name, self.words, self.begin, self.found = name, words, begin, found


def plain(folder):
    put(f"{folder}/f", OLD)
    put(f"{folder}/made", NEW)
    put(f"{folder}/bytes", b"\3new")


def taken_apart(folder):
    put(f"{folder}/f.rsrc", OLD)
    put(f"{folder}/f.bin", mac_binary(NEW))


def on_a_volume(folder):
    put(f"{folder}/disk", bytes(819200))
    put(f"{folder}/f.bin", mac_binary(OLD))
    home = {**os.environ, "HOME": folder}
    for words in (["hformat", "disk"], ["hmount", "disk"], ["hcopy", "-m", "f.bin", ":f"]):
        subprocess.run(words, cwd=folder, env=home, capture_output=True, check=True)
    put(f"{folder}/f.bin", mac_binary(NEW))


def of_the_volume(folder):
    home = {**os.environ, "HOME": folder}
    subprocess.run(["hmount", "disk"], cwd=folder, env=home, capture_output=True, check=False)
    subprocess.run(["hcopy", "-m", ":f", "out.bin"], cwd=folder, env=home, capture_output=True, check=False)
    found = read(f"{folder}/out.bin") or b""
    return found[128 : 128 + int.from_bytes(found[87:91], "big")]


def ways(resfork):
    yield Way("resfork put", [resfork, "put", "f", "STR ", "128", "-i", "bytes"], plain, lambda it: read(f"{it}/f"))
    yield Way("a script over fontTools", ["/usr/bin/python3", "-c", SCRIPT, "f", "bytes", "", f"{TOP}/tests"], plain, lambda it: read(f"{it}/f"))
    yield Way("cp", ["cp", "made", "f"], plain, lambda it: read(f"{it}/f"))
    yield Way("macunpack of macutils", ["macunpack", "-r", "f.bin"], taken_apart, lambda it: read(f"{it}/f.rsrc"))
    yield Way("hcopy of hfsutils", ["hcopy", "-m", "f.bin", ":f"], on_a_volume, of_the_volume)


def run(way, options):
    """Runs a program below strace with these options: its status, what it says, and the fork that is there after."""
    with tempfile.TemporaryDirectory() as folder:
        way.begin(folder)
        home = {**os.environ, "HOME": folder}
        words = ["strace", "-f", "-qq", "-o", f"{folder}/trace", "-e", f"trace={','.join(CALLS)}", *options, *way.words]
        done = subprocess.run(words, cwd=folder, env=home, capture_output=True, check=False, timeout=60)
        trace = read(f"{folder}/trace").decode(errors="replace")
        return done.returncode, trace, way.found(folder)


def calls_of(trace):
    """How many calls of each kind a program made, of those that a change of files may take."""
    counted = collections.Counter()
    for line in trace.splitlines():
        made = re.match(r"\d+ +(\w+)\(", line)
        if made:
            counted[made.group(1)] += 1
    return counted


def torture(way, most):
    status, trace, found = run(way, [])
    if status != 0 or found != NEW:
        sys.exit(f"{way.name} doesn't replace the resource: status {status}")
    after = collections.Counter()
    for call, count in calls_of(trace).items():
        # the first calls of a program open its libraries: the last ones count
        for number in range(max(1, count - most + 1), count + 1):
            for how in ("error=ENOSPC", "error=EIO", "signal=KILL"):
                status, _, found = run(way, ["-e", f"inject={call}:{how}:when={number}"])
                what = {OLD: "old", NEW: "new"}.get(found, "neither")
                after["ended" if "KILL" in how else "failed"] += 1
                after[what] += 1
                after["said"] += status == 0 and what != "new"
    row = [after[it] for it in ("failed", "ended", "old", "new", "neither", "said")]
    print(f"| {way.name} |", " | ".join(map(str, row)), "|", flush=True)


def main():
    words = argparse.ArgumentParser(description=__doc__, formatter_class=argparse.RawDescriptionHelpFormatter)
    words.add_argument("--resfork", default=f"{TOP}/crates/resfork/out/resfork")
    words.add_argument("--most", type=int, default=40)
    given = words.parse_args()
    print("| Program | Calls that failed | Ended at a call | Old file | New file | Neither | Status 0 without the new file |")
    print("|---|---|---|---|---|---|---|")
    for way in ways(os.path.abspath(given.resfork)):
        if shutil.which(way.words[0]):
            torture(way, given.most)
        else:
            print(f"there is no {way.words[0]}", file=sys.stderr)


if __name__ == "__main__":
    main()
