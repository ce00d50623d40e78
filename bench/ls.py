#!/usr/bin/env python3
"""Measures `resfork ls` beside bench/ls.c, which reads the same file and walks it, both as whole processes, on forks of several sizes:

    bench/ls.py [RESFORK] [RUNS]

A line for each fork: how many resources, how many bytes, the best milliseconds of both and their ratio, and the most memory that resfork had,
as a multiple of the file. The two take turns. It needs a C compiler, and makes the forks in a temporary folder; the seed of their bytes is
fixed. Their lists are compared. `--limit RATIO` makes it fail where 1,282 resources of 730 KB take more than that.
"""
import argparse
import os
import random
import struct
import subprocess
import sys
import tempfile
import time

TOP = os.path.dirname(os.path.dirname(os.path.abspath(__file__)))


def fork_of(count, size, kinds, named):
    """A fork of so many resources of about this size, of so many types."""
    choices = random.Random(count)
    data, names, lists, entries = b"", b"", b"", b""
    pieces, at, first = [], 0, 2 + 8 * kinds
    for kind in range(kinds):
        rows = count // kinds + (kind < count % kinds)
        entries += struct.pack(">4s2H", b"K%03d" % kind, rows - 1, first)
        for row in range(rows):
            name_at = 0xFFFF
            if named and len(names) < 60000:
                name_at, name = len(names), b"resource %d" % row
                names += bytes([len(name)]) + name
            lists += struct.pack(">hHB", row, name_at, 32 if row % 3 == 0 else 0) + at.to_bytes(3, "big") + bytes(4)
            length = choices.randrange(max(1, size // 2), size + size // 2 + 1)
            pieces.append(struct.pack(">I", length) + bytes(length))
            at += 4 + length
        first += 12 * rows
    data = b"".join(pieces)
    body = struct.pack(">H", kinds - 1) + entries + lists
    the_map = bytes(24) + struct.pack(">2H", 28, min(28 + len(body), 65535)) + body + names
    return struct.pack(">4I", 256, 256 + len(data), len(data), len(the_map)) + bytes(240) + data + the_map


# how many resources, bytes of each, types, and whether they have names
FORKS = [(10, 500, 2, True), (1282, 560, 12, True), (5000, 100, 20, False), (5458, 3000, 1, False), (40, 380000, 4, True)]


def run(words):
    """The output of a run, and its seconds."""
    start = time.perf_counter()
    done = subprocess.run(words, stdout=subprocess.PIPE)
    seconds = time.perf_counter() - start
    if done.returncode:
        sys.exit(f"{' '.join(words)}: status {done.returncode}")
    return done.stdout, seconds


def memory(helper, words):
    """The most bytes of memory that a run had."""
    done = subprocess.run([helper, *words], stdout=subprocess.DEVNULL, stderr=subprocess.PIPE)
    return 1024 * int(done.stderr.split()[-1])


def main():
    words = argparse.ArgumentParser(description=__doc__, formatter_class=argparse.RawDescriptionHelpFormatter)
    words.add_argument("resfork", nargs="?", default=os.path.join(TOP, "crates/resfork/out/resfork"))
    words.add_argument("runs", nargs="?", type=int, default=100)
    words.add_argument("--limit", type=float)
    asked = words.parse_args()
    with tempfile.TemporaryDirectory() as folder:
        plain, helper, path, empty = (f"{folder}/{it}" for it in ("ls", "most_memory", "fork", "empty"))
        for name in ("ls", "most_memory"):
            subprocess.run(["cc", "-O2", "-o", f"{folder}/{name}", f"{TOP}/bench/{name}.c"], check=True)
        open(empty, "wb").close()
        bare = memory(helper, [asked.resfork, "ls", empty])
        print(f"resfork with an empty file: {bare // 1024} KB of memory")
        print("resources      bytes   resfork ms   C ms   ratio   memory above that, as a multiple of the file")
        for count, size, kinds, named in FORKS:
            with open(path, "wb") as file:
                fork = fork_of(count, size, kinds, named)
                file.write(fork)
            ours, theirs = [], []
            for _ in range(asked.runs):
                shown, seconds = run([asked.resfork, "ls", path])
                listed, other = run([plain, path])
                ours.append(seconds), theirs.append(other)
                if shown != listed:
                    sys.exit(f"{count} resources: the lists differ")
            ratio = min(ours) / min(theirs)
            multiple = (memory(helper, [asked.resfork, "ls", path]) - bare) / len(fork)
            print(f"{count:9} {len(fork):10} {min(ours) * 1e3:12.2f} {min(theirs) * 1e3:6.2f} {ratio:7.2f}   {multiple:.2f}")
            if asked.limit and count == 1282 and ratio > asked.limit:
                sys.exit(f"1,282 resources take {ratio:.2f} times as long, and more than {asked.limit}")


if __name__ == "__main__":
    main()
