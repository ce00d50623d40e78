#!/usr/bin/env python3
"""Times calls on resource files: resources.py PROGRAM [RUNS].

First a fork of 744 KB with 500 resources is opened, listed, loaded and updated, beside a plain program (bench/plain_file.rs) that
reads the same bytes from a file, or writes them to one and syncs it: once by the processor time after the start of both, and once by the clock,
with it, on a disk, and beside a plain program that makes the same calls on the file, too. Then calls are made on each of so many resources, with the time of one call; where it
doubles with their number, the calls together take four times as long. A fork that was written has 5,458 resources of one type
at most, so the calls that add and write are timed up to there.

PROGRAM is a macheap, as `rt run` in crates/macheap builds it; `rustc` must be there. Each script runs RUNS times (three, if left out) over
a fresh copy of its fork; the least processor time counts, without that of the script that only makes what is needed before.
"""
import os
import struct
import subprocess
import sys
import tempfile
import time

HERE = os.path.dirname(os.path.abspath(__file__))
ZONE = 1048576
COUNT, LENGTH = 500, 1458
# how often the plain program does its work, and how many updates a script makes
TURNS = 100
UPDATES = 10
WRITTEN = (1364, 2729, 5458)
OPENED = (2000, 4000, 8000)


def fork_of(count, length, is_named):
    """The bytes of a fork with so many resources 'TEXT' of so many bytes, from the id 1 on."""
    references = names = b""
    for it in range(1, count + 1):
        name = b"Resource %04d" % it
        references += struct.pack(">hH", it, len(names) if is_named else 0xFFFF)
        references += ((it - 1) * (4 + length)).to_bytes(4, "big") + bytes(4)
        names += bytes([len(name)]) + name if is_named else b""
    # a fork without names may have more references than its name list's place can pass
    names_at = min(38 + len(references), 65535)
    entries = struct.pack(">3H4s2H", 28, names_at, 0, b"TEXT", count - 1, 10) + references + names
    data = (struct.pack(">I", length) + b"x" * length) * count
    header = struct.pack(">4I", 256, 256 + len(data), len(data), 24 + len(entries))
    return header + bytes(240) + data + header + bytes(8) + entries


def spent(words, given):
    """Seconds of processor time of one run, and what it wrote."""
    with tempfile.TemporaryFile() as output:
        child = subprocess.Popen(words, stdin=given, stdout=output)
        _, status, used = os.wait4(child.pid, 0)
        output.seek(0)
        if status != 0:
            sys.exit(f"{words} ended with {status}")
        return used.ru_utime + used.ru_stime, output.read()


class Bench:
    """Runs of a program in a folder."""

    def __init__(self, program, runs, folder):
        self.program, self.runs = program, runs
        self.fork, self.script, self.plain = (os.path.join(folder, it) for it in ("fork", "script", "plain"))

    def least(self, fork, lines):
        """The least time of a script over a fork."""
        with open(self.script, "w") as file:
            file.write("".join(f"{line}\n" for line in lines))
        least = float("inf")
        for _ in range(self.runs):
            with open(self.fork, "wb") as file:
                file.write(fork)
            with open(self.script, "rb") as given:
                taken, printed = spent([self.program, "--zone", str(ZONE), "--fork", self.fork], given)
            least = min(least, taken)
        # each line has a reply, and none is a refusal
        if printed.count(b" 0\n") != len(lines):
            sys.exit("a call was refused")
        return least

    def behind(self, fork, before, lines, first=None):
        """The time of lines after others; those may run over another fork."""
        return self.least(fork, before + lines) - self.least(fork if first is None else first, before)

    def plainly(self, what, fork):
        """The time of the plain program for one turn."""
        with open(self.fork, "wb") as file:
            file.write(fork)
        times = [min(spent([self.plain, what, self.fork, str(turns)], None)[0] for _ in range(self.runs)) for turns in (0, TURNS)]
        return (times[1] - times[0]) / TURNS


def whole(bench):
    """A fork of 500 resources, beside plain reads and writes of its bytes."""
    fork, here = fork_of(COUNT, LENGTH, True), ["CurResFile"]
    each = [f"GetIndResource 'TEXT' {it}" for it in range(1, COUNT + 1)]
    change = ["Poke h 0 \"y\"", "ChangedResource h", "UpdateResFile"]
    read, write = bench.plainly("read", fork), bench.plainly("write", fork)
    print(f"{COUNT} resources, {len(fork)} bytes\n{'':34} {'ms':>8} {'plain, ms':>10} {'ratio':>7}")
    rows = [
        ("opened", bench.behind(fork, here, [], b""), read),
        ("opened and listed", bench.behind(fork, here, ["SetResLoad 0", *each], b""), read),
        ("opened, and all loaded", bench.behind(fork, here, each, b""), read),
        ("one changed, and updated", bench.behind(fork, ["h = GetResource 'TEXT' 1"], change * UPDATES) / UPDATES, read + write),
        ("all loaded, one changed, updated", bench.behind(fork, [*each, "h = GetResource 'TEXT' 1"], change * UPDATES) / UPDATES, read + write),
    ]
    for title, taken, plain in rows:
        print(f"{title:34} {taken * 1e3:8.2f} {plain * 1e3:10.2f} {taken / plain:7.1f}")


def clocked(words, script, fork, path):
    """Milliseconds by the clock of a whole run over a fresh copy of the fork: the least of many."""
    least = float("inf")
    for _ in range(TURNS):
        with open(path, "wb") as file:
            file.write(fork)
        with open(script, "rb") as given, open(os.devnull, "wb") as output:
            start = time.perf_counter()
            if subprocess.run(words, stdin=given, stdout=output).returncode != 0:
                sys.exit(f"{words} failed")
            least = min(least, time.perf_counter() - start)
    return least * 1e3


def by_clock(bench):
    """The whole program by the clock, with its start, on a disk: beside plain programs."""
    fork = fork_of(COUNT, LENGTH, True)
    each = [f"GetIndResource 'TEXT' {it}" for it in range(1, COUNT + 1)]
    change = ["h = GetResource 'TEXT' 1", "Poke h 0 \"y\"", "ChangedResource h", "UpdateResFile"]
    rows = [
        ("opened and listed", ["SetResLoad 0", *each], ("read", "0"), "list"),
        ("opened, and all loaded", each, ("read", "0"), "load"),
        ("one changed, and updated", change, ("write", "1"), "update"),
        ("all loaded, one changed, updated", [*each, *change], ("write", "1"), "update"),
    ]
    print(f"\n{'the whole program, by the clock':34} {'ms':>8} {'plain, ms':>10} {'ratio':>7} {'same calls':>11} {'ratio':>7}")
    with tempfile.TemporaryDirectory(dir=HERE) as folder:
        script, path = os.path.join(folder, "script"), os.path.join(folder, "fork")
        for title, lines, (what, turns), calls_made in rows:
            with open(script, "w") as file:
                file.write("".join(f"{line}\n" for line in lines))
            taken = clocked([bench.program, "--zone", str(ZONE), "--fork", path], script, fork, path)
            plain = clocked([bench.plain, what, path, turns], script, fork, path)
            same = clocked([bench.plain, calls_made, path, "1"], script, fork, path)
            print(f"{title:34} {taken:8.2f} {plain:10.2f} {taken / plain:7.2f} {same:11.2f} {taken / same:7.2f}", flush=True)


def calls(bench):
    """Calls on each of so many resources: what is timed, how many there are, the fork, the lines before and the lines."""
    def numbered(count, line):
        return [line.format(it) for it in range(1, count + 1)]

    def table(count):
        return fork_of(count, 1, False)

    def nothing(_):
        return b""

    def made(count):
        return numbered(count, "h{0} = NewHandle 1")

    def got(count):
        return ["SetResLoad 0"] + numbered(count, "h{0} = GetResource 'TEXT' {0}")

    def changed(count):
        return got(count) + numbered(count, "ChangedResource h{0}")

    rows = [
        ("AddResource", WRITTEN, nothing, made, lambda it: numbered(it, "AddResource h{0} 'TEXT' {0}")),
        ("UpdateResFile, all changed", WRITTEN, table, changed, lambda _: ["UpdateResFile"]),
        ("UpdateResFile, none changed", WRITTEN, table, lambda _: [], lambda _: ["UpdateResFile"]),
        ("WriteResource of one, 10 times", WRITTEN, table, lambda _: ["h = GetResource 'TEXT' 1"], lambda _: ["ChangedResource h", "WriteResource h"] * 10),
        ("RemoveResource", OPENED, table, got, lambda it: numbered(it, "RemoveResource h{0}")),
        ("UniqueID", WRITTEN, table, lambda _: [], lambda it: ["UniqueID 'TEXT'"] * it),
        ("opened", OPENED, table, lambda _: [], lambda _: []),
        ("GetIndResource", OPENED, table, lambda _: ["SetResLoad 0"], lambda it: numbered(it, "GetIndResource 'TEXT' {0}")),
        ("GetResource", OPENED, table, lambda _: ["SetResLoad 0"], lambda it: numbered(it, "GetResource 'TEXT' {0}")),
        ("GetResource, again", OPENED, table, got, lambda it: numbered(it, "GetResource 'TEXT' {0}")),
        ("LoadResource", OPENED, table, got, lambda it: numbered(it, "LoadResource h{0}")),
        ("GetResAttrs, four times", OPENED, table, got, lambda it: numbered(it, "GetResAttrs h{0}") * 4),
        ("ChangedResource, four times", OPENED, table, got, lambda it: numbered(it, "ChangedResource h{0}") * 4),
        ("DisposeHandle", OPENED, table, got, lambda it: numbered(it, "DisposeHandle h{0}")),
        ("CloseResFile", WRITTEN, table, got, lambda _: ["CloseResFile"]),
    ]
    print(f"\n{'ns for each resource':34}" + "".join(f" {'':>16}" for _ in OPENED) + "   growth")
    for title, counts, fork, before, lines in rows:
        first = b"" if title == "opened" else None
        each = [bench.behind(fork(it), before(it), lines(it), first) * 1e9 / it for it in counts]
        shown = "".join(f" {taken:9.0f} ({it:4})" for taken, it in zip(each, counts))
        # where the first is lost in the noise there is no growth to show
        growth = f"{100 * each[-1] / each[0]:7.0f}%" if each[0] > 0 else f"{'-':>8}"
        print(f"{title:34}{shown} {growth}", flush=True)


def main():
    if not 2 <= len(sys.argv) <= 3 or not os.access(sys.argv[1], os.X_OK):
        sys.exit(__doc__)
    runs = int(sys.argv[2]) if len(sys.argv) == 3 else 3
    # in memory, where there is such a folder: a sync waits for no disk
    with tempfile.TemporaryDirectory(dir="/dev/shm" if os.path.isdir("/dev/shm") else None) as folder:
        bench = Bench(os.path.realpath(sys.argv[1]), runs, folder)
        subprocess.run(["rustc", "-O", os.path.join(HERE, "plain_file.rs"), "-o", bench.plain], check=True)
        whole(bench)
        by_clock(bench)
        calls(bench)


main()
