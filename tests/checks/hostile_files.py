"""Checks that resfork and macheap are safe beside other users of the machine, and against hostile files.

A command that reads writes nothing but what it names, whatever lies beside the file. A new file gives nobody more than the old one did, and a file that
has other names, or gets another owner, is reported first. No fork is lost where one file is named in two spellings. Nothing is written through a link
that another user has put where a folder, a pipe or a file was: races are run 250 times. Names can't steer a terminal or a shell. What a program that
was ended has left is removed, and what others hold stays. Time and memory are bounded by the file. And files that are changed by chance, in each
container, make no command crash, hang, or print something that it then refuses.

Where it runs as root it makes users of its own, by their numbers; else those rows are skipped, and it says so. Number: how many files are changed by
chance; each command is run on each, or where they are over 4,000 a fourth of the commands. Needs a C compiler: `cc`, or $CC; and bash.
"""
import tempfile
import time

from hostile import bounds, mutated, names, owners, planted, races, spellings
from hostile.bench import Bench, Skipped

GROUPS = [planted, owners, spellings, races, names, bounds]
# the most faults of one group that are printed
SHOWN = 12


class Count:
    """How many rows are as they should be, and the faults of the others."""

    def __init__(self):
        self.right, self.skipped, self.faults = 0, {}, 0

    def add(self, group, rows):
        """Counts the rows of a group, and prints what is wrong with some."""
        faults, start = [], time.monotonic()
        for what, fault in rows:
            if isinstance(fault, Skipped):
                self.skipped.setdefault(str(fault), []).append(what)
            elif fault:
                faults.append(f"{group}: {what}: {fault}")
            else:
                self.right += 1
        for it in faults[:SHOWN]:
            print(it)
        if len(faults) > SHOWN:
            print(f"{group}: and {len(faults) - SHOWN} more, after {time.monotonic() - start:.0f} s")
        self.faults += len(faults)


def main(resfork, macheap, number=400):
    """Tries all rows, and so many changed files."""
    count = Count()
    with tempfile.TemporaryDirectory() as folder:
        bench = Bench(folder, resfork, macheap)
        for group in GROUPS:
            count.add(group.__name__.split(".")[-1], group.rows(bench))
        count.add("mutated", mutated.rows(bench, number))
    for why, rows in count.skipped.items():
        print(f"skipped, since {why}: {'; '.join(rows)}")
    print(f"hostile_files: {count.right} rows as they should be, {count.faults} not")
    return 1 if count.faults or not count.right else 0
