"""Ends a macheap program by force in the middle of its updates, and looks what the next start finds.

A script changes one resource, its length too, and updates the file, over and over, over a fork with a journal. It is killed at a random
moment (SIGKILL). An empty script then has to leave a fork that was there before or after an update: the one that the last `UpdateResFile 0`
reported, or the next. Number: how many times, 300 if left out. Where the system stays up, what a program wrote stays written: this shows nothing of
power failures. It isn't part of the gate, since where it is killed is up to chance.
"""
import os
import random
import re
import struct
import subprocess
import tempfile
import time

UPDATES = 400
ZONE = ["--zone", "262144"]
SEED = 7


def size_of(number):
    return 8 + number * 7919 % 100000


def fork_of(number):
    """The fork after the update of a number: one resource 'TEXT' 128, with that number first and last."""
    data = bytearray(size_of(number))
    data[:4] = data[-4:] = struct.pack(">I", number)
    length = 4 + len(data)
    header = struct.pack(">4I", 256, 256 + length, length, 50)
    entries = struct.pack(">2H", 28, 50) + struct.pack(">H4s2H", 0, b"TEXT", 0, 10) + struct.pack(">2H", 128, 0xFFFF)
    return header + bytes(240) + struct.pack(">I", len(data)) + data + header + bytes(8) + entries + bytes(8)


def script(number):
    """A script that makes the updates after the one of this number."""
    lines = ["h = GetResource 'TEXT' 128"]
    for it in range(number + 1, number + 1 + UPDATES):
        size, mark = size_of(it), struct.pack(">I", it).hex()
        lines += ["SetHandleSize h 0", f"SetHandleSize h {size}"]
        lines += [f'Poke h 0 $"{mark}"', f'Poke h {size - 4} $"{mark}"', "ChangedResource h", "UpdateResFile"]
    return "\n".join(lines).encode()


def read(path):
    with open(path, "rb") as file:
        return file.read()


def main(program, rounds=300):
    chance = random.Random(SEED)
    opened = torn = faults = number = 0
    with tempfile.TemporaryDirectory() as folder:
        fork, journal, said = (os.path.join(folder, it) for it in ("fork", "journal", "said"))
        words = [program, *ZONE, "--fork", fork, "--journal", journal]
        with open(fork, "wb") as file:
            file.write(fork_of(0))
        for _ in range(rounds):
            with open(said, "wb") as output:
                run = subprocess.Popen(words, stdin=subprocess.PIPE, stdout=output)
                run.stdin.write(script(number))
                run.stdin.close()
                time.sleep(chance.uniform(0.005, 0.1))
                run.kill()
                run.wait()
            told = number + len(re.findall(rb" UpdateResFile 0\n", read(said)))
            choice = (fork_of(told), fork_of(told + 1))
            opened += read(journal)[:1] == b"\1"
            torn += read(fork) not in choice
            end = subprocess.run(words, input=b"", capture_output=True, check=False)
            found = read(fork)
            if end.returncode or end.stdout or found not in choice or read(journal)[:1] == b"\1":
                faults += 1
                print(f"behind update {told}: status {end.returncode}, {end.stdout!r}, a fork of {len(found)} bytes")
                return 1
            number = told + (found == choice[1])
    print(f"{rounds} ends by force in {number} updates: the gate was open {opened} times and the fork half written {torn} times; {faults} starts found anything else than a whole fork")
    return 0
