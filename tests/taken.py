#!/usr/bin/env python3
"""Takes the texts of files and puts them back, outside the gate:

    tests/taken.py PROGRAM FILE..

PROGRAM is resfork. The lines of each file are compared with those of the model; put back, they change no byte; and with an x after each text that
has room for it, the same lines are read again.
"""
import os
import shutil
import subprocess
import sys
import tempfile

sys.path.insert(0, os.path.dirname(os.path.abspath(__file__)))
from model.fork import FORMAT, NoFork, read_fork  # pylint: disable=wrong-import-position
from model.texts import lines  # pylint: disable=wrong-import-position


def run(*words):
    done = subprocess.run(words, stdin=subprocess.DEVNULL, stdout=subprocess.PIPE, stderr=subprocess.PIPE)
    return done.returncode, done.stdout, done.stderr.decode(errors="replace")


def read(path):
    with open(path, "rb") as file:
        return file.read()


def try_file(program, path, folder):
    """What is wrong with a file, if something is; and how many texts it has."""
    copy, text = os.path.join(folder, "copy"), os.path.join(folder, "text")
    shutil.copy(path, copy)
    status, taken, told = run(program, "texts", copy)
    if status != 0:
        return f"status {status}: {told.strip()}", 0
    count = taken.count(b"\n")
    try:
        if taken != lines(read_fork(read(path), FORMAT)).encode():
            return "other lines than the model's", count
    except NoFork:
        # a fork in a container, which the model doesn't read
        pass
    with open(text, "wb") as file:
        file.write(taken)
    if run(program, "texts", copy, "--put", text) != (0, b"", "") or read(copy) != read(path):
        return "it changes where its own texts are put", count
    longer = b"".join(line[:-1] + b'x"\n' if len(line) < 200 else line + b"\n" for line in taken.split(b"\n")[:-1])
    with open(text, "wb") as file:
        file.write(longer)
    status, _, told = run(program, "texts", copy, "--put", text, "-q")
    if status != 0 or run(program, "texts", copy)[1] != longer:
        return f"other texts aren't read again: {told.strip()}", count
    return None, count


def main():
    program, files = sys.argv[1], sys.argv[2:]
    bad = 0
    for path in files:
        with tempfile.TemporaryDirectory() as folder:
            wrong, count = try_file(program, path, folder)
        bad += wrong is not None
        print(f"{path}: {wrong or f'{count} texts'}")
    return 1 if bad else 0


if __name__ == "__main__":
    sys.exit(main())
