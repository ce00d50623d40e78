"""Checks what a program in C writes of the forks of tests/cases/forks.txt: the same bytes as macheap, or the same code.

PROGRAM, tests/c/forks.c, is given each fork of a few resources that an update writes or refuses to write, and a file to write to.
"""
import os
import subprocess
import tempfile

from checks.fork_table import MOST_ROWS, TABLE, read_table


def written(program, folder, fork):
    """What the program writes of a fork, or the code that it gets."""
    path, target = os.path.join(folder, "fork"), os.path.join(folder, "written")
    with open(path, "wb") as file:
        file.write(fork)
    done = subprocess.run([program, path, target], capture_output=True, check=False)
    code = done.stdout.rstrip().rpartition(b"\n")[2].decode()
    if done.returncode or done.stderr or code != "0":
        return code
    with open(target, "rb") as file:
        return file.read()


def main(program):
    with open(TABLE, encoding="utf-8") as table:
        forks, cases = read_table(table)
    tried = [case for case in cases if case.written in forks and len(case.answer) <= MOST_ROWS and case.fork]
    failed = 0
    with tempfile.TemporaryDirectory() as folder:
        for case in tried:
            if written(program, folder, case.fork) != forks[case.written].fork:
                failed += 1
                print(f"{case.name}: other bytes are written")
    print(f"forks of the table: {len(tried) - failed} are written from C as they should be, {failed} not")
    return 1 if failed or not tried else 0
