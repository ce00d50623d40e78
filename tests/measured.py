"""Programs that are run, and what each took. A small program of C starts and counts them, since the kernel counts as a program's memory also what the
process had before it became that program, and these checks may have much. Needs a C compiler: `cc`, or $CC.
"""
import os
import subprocess
import tempfile
import time
from typing import NamedTuple

from places import INTERPOSE

# after so many seconds of processor time a program is ended, if nothing else is said
HANG = 20


class Run(NamedTuple):
    """What a run did: its status, below zero for a signal; its outputs; the seconds of processor time and the kilobytes of memory that it took."""

    status: int
    output: bytes
    told: bytes
    seconds: float
    memory: int


class Measure:
    """The program that counts, built in a folder."""

    def __init__(self, folder):
        self.path = os.path.join(folder, "measure")
        subprocess.run([os.environ.get("CC", "cc"), "-O1", "-o", self.path, os.path.join(INTERPOSE, "measure.c")], check=True)
        os.chmod(self.path, 0o755)

    def run(self, words, most, seconds=HANG, **how):
        """Runs a program, with at most so many bytes of memory. `how` is what subprocess takes."""
        how = {"stdin": subprocess.DEVNULL, "stdout": subprocess.PIPE, "stderr": subprocess.PIPE, **how}
        with tempfile.TemporaryFile() as line:
            start = [self.path, str(line.fileno()), str(seconds), str(most)]
            done = subprocess.run([*start, *words], check=False, pass_fds=[line.fileno()], **how)
            line.seek(0)
            status, milliseconds, memory = map(int, line.read().split())
        return Run(os.waitstatus_to_exitcode(status), done.stdout or b"", done.stderr or b"", milliseconds / 1000, memory)


def slowness():
    """How much slower than usual this machine is now: 1 or more."""
    start = time.process_time()
    total = 0
    for number in range(1_000_000):
        total += number * number % 7
    return max(1.0, (time.process_time() - start) / 0.1)
