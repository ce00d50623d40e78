#!/usr/bin/env python3
"""Shows files that hold resource forks: how many bytes each has, its list of resources as `resfork ls` prints it, and all bytes.

    tests/show_forks.py FILE..

The list is that of the small model in tests/model/fork.py. Of a file in AppleSingle, AppleDouble, MacBinary or BinHex it shows the fork in it.
In the bytes a `*` stands for lines that are the same as the one before it.
"""
import sys

from model.container import NoContents, resource_fork
from model.fork import NoFork, listing, read_fork
from model.messages import message


def resources(fork):
    """The list of a fork's resources, or why there is none."""
    if not fork:
        return ""
    try:
        return listing(read_fork(fork))
    except NoFork as fault:
        return f"no fork: {message(fault.args[0])}\n"


def dump(fork):
    """The bytes in lines of 16: where they are, their digits, and those that are printable."""
    before, is_told, text = None, False, ""
    for at in range(0, len(fork), 16):
        line = fork[at : at + 16]
        if line != before:
            printable = "".join(chr(it) if 0x20 <= it <= 0x7E else "." for it in line)
            text += f"{at:06X}  {line.hex(' ').upper():47}  {printable}\n"
        elif not is_told:
            text += "*\n"
        before, is_told = line, line == before
    return text


def main(paths):
    for path in paths:
        with open(path, "rb") as file:
            whole = file.read()
        try:
            fork = resource_fork(whole)
        except NoContents:
            print(f"{path}: {len(whole)} bytes, a container out of which no fork can be taken")
            continue
        print(f"{path}: {len(fork)} bytes\n{resources(fork)}{dump(fork)}", end="")


if __name__ == "__main__":
    main(sys.argv[1:])
