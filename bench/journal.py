#!/usr/bin/env python3
"""Times updates with a journal beside those without one: journal.py PROGRAM [RUNS].

Forks of 1 KB to 4 MB lie in memory (/dev/shm), where a sync costs nothing, so that only the work counts. Each script changes a small
resource and updates the file, over and over; the processor time of a script that makes no update is taken off. The least of RUNS
(five, if left out) counts. With a journal an update may take 2.5 times as long: it writes the fork twice, and checks a byte and a length.
"""
import os
import struct
import subprocess
import sys
import tempfile

MOST = 2.5
SIZES = (1 << 10, 1 << 14, 1 << 17, 1 << 20, (1 << 22) - 1024)
WORK = 1 << 28
MOST_UPDATES = 4000


def fork_of(size):
    """A fork of about so many bytes: resources 'TEXT' from 1 on, the first of 64 bytes."""
    left, rows = size - 400, [64]
    while left > 0:
        rows.append(min(left, 1 << 16))
        left -= rows[-1]
    data = b"".join(struct.pack(">I", it) + b"x" * it for it in rows)
    references, at = b"", 0
    for number, it in enumerate(rows, 1):
        references += struct.pack(">hH", number, 0xFFFF) + at.to_bytes(4, "big") + bytes(4)
        at += 4 + it
    entries = struct.pack(">2H", 28, 38 + len(references)) + struct.pack(">H4s2H", 0, b"TEXT", len(rows) - 1, 10) + references
    header = struct.pack(">4I", 256, 256 + len(data), len(data), 24 + len(entries))
    return header + bytes(240) + data + header + bytes(8) + entries


def seconds(program, words, script, fork, path, runs):
    least = None
    for _ in range(runs):
        with open(path, "wb") as file:
            file.write(fork)
        run = subprocess.Popen([program, "--fork", path, *words], stdin=subprocess.PIPE, stdout=subprocess.DEVNULL)
        run.stdin.write(script)
        run.stdin.close()
        _, status, used = os.wait4(run.pid, 0)
        run.returncode = status
        if status:
            sys.exit(f"the program ended with {status}")
        took = used.ru_utime + used.ru_stime
        least = took if least is None else min(least, took)
    return least


def main(program, runs):
    worst = 0
    with tempfile.TemporaryDirectory(dir="/dev/shm" if os.path.isdir("/dev/shm") else None) as folder:
        path, journal = os.path.join(folder, "fork"), os.path.join(folder, "journal")
        print("fork, bytes | an update, us | with a journal, us | times")
        for size in SIZES:
            fork, updates = fork_of(size), min(MOST_UPDATES, WORK // size)
            change = b"ChangedResource h\nUpdateResFile\n"
            load = b"h = GetResource 'TEXT' 1\n"
            took = []
            for words in ([], ["--journal", journal]):
                # the same number of lines, without an update
                none = seconds(program, words, load + b"ChangedResource h\nResError\n" * updates, fork, path, runs)
                took.append((seconds(program, words, load + change * updates, fork, path, runs) - none) / updates)
            times = took[1] / took[0]
            worst = max(worst, times)
            print(f"{len(fork)} | {took[0] * 1e6:.1f} | {took[1] * 1e6:.1f} | {times:.2f}")
    print(f"at most {worst:.2f} times, where {MOST} are allowed")
    return 1 if worst > MOST else 0


if __name__ == "__main__":
    if len(sys.argv) not in (2, 3) or not os.access(sys.argv[1], os.X_OK):
        sys.exit("usage: bench/journal.py PROGRAM [RUNS]")
    sys.exit(main(os.path.realpath(sys.argv[1]), int(sys.argv[2]) if len(sys.argv) == 3 else 5))
