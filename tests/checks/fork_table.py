"""Checks what resfork and macheap read of the forks of tests/cases/forks.txt, and what macheap writes of them.

Of each fork resfork's list and the bytes of every resource are compared, and what macheap says of each resource: its type, id, name,
attributes and bytes. Where the bytes are no fork, resfork names the condition, and macheap's OpenResFile its code. Nothing
but an update changes the file.
"""
import os
import re
import tempfile

from checks.fork_questions import Difference, expect, opening_is_refused, play, questions
from checks.forks import compare, run
from model.fork import MESSAGES, Row, listing, open_code, quoted, told_of
from places import CASES

TABLE = os.path.join(CASES, "forks.txt")
ROW = re.compile(r"(?:(\d+) ([*+]) )?'(.{4})' (-?\d+) (-|\"[^\"]*\") ([0-9A-F]{2})(?: ((?:[0-9A-F]{2})+))?")
# of a longer fork the first and the last resource alone are extracted
MOST_ROWS = 24


def bytes_of(word):
    """The bytes of a word: HEX, N*HEX or N*HEX+STEP."""
    count, _, digits = word.rpartition("*")
    first, _, step = digits.partition("+")
    item, step = int(first, 16), int(step or "0", 16)
    return b"".join((item + index * step).to_bytes(len(first) // 2, "big") for index in range(int(count or "1")))


def rows_of(text):
    """The rows of a text."""
    rows = []
    for part in text.split(" / ") if text else []:
        count, mark, kind, ident, name, attributes, data = ROW.fullmatch(part).groups()
        for index in range(int(count or "1")):
            shown = None if name == "-" else name[1:-1].encode()
            number = int(ident) + (index if mark == "+" else 0)
            rows.append(Row(kind.encode(), number, shown, int(attributes, 16), bytes.fromhex(data or "")))
    return rows


def answer_of(text):
    """The rows that are wanted, or the word for the condition that doesn't hold."""
    return text if text in MESSAGES else rows_of(text)


class Case:
    """Bytes, what is read of them, what an update writes, and the script that makes them."""

    def __init__(self, name, fork=b"", answer=None):
        self.name, self.fork, self.answer, self.refused, self.written, self.script = name, fork, answer, None, None, None


def changed(forks, name, line):
    """The case of a line of changes of the fork of this name."""
    changes, _, answer = line.partition(":")
    fork, words = bytearray(forks[name].fork), changes.split(" ")
    for at, word in zip(words[::2], words[1::2]):
        piece = bytes_of(word)
        fork[int(at) : int(at) + len(piece)] = piece
    return Case(f"{name} {changes}", bytes(fork), answer_of(answer.strip()))


def cut(forks, words):
    """The case of each length of a fork that is cut."""
    name, number, early, later = words
    for length in range(len(forks[name].fork)):
        yield Case(f"{name} of {length} bytes", forks[name].fork[:length], early if length < int(number) else later)


def read_table(table):
    """The forks by their names, and all cases."""
    forks, cases, case, base = {}, [], None, None
    for line in table.read().split("\n"):
        mark, _, rest = line.partition(" ")
        if mark == ">":
            name, base = rest.partition(":")[0], None
            case = forks[name] = Case(name)
            cases.append(case)
        elif mark in ("=", "!"):
            case.answer = answer_of(rest)
        elif mark == "?":
            case.refused = rest
        elif mark == "w":
            case.written = rest
        elif mark == "m":
            case.script = rest.split(" / ")
        elif mark == "~":
            base = rest
        elif mark == "<":
            cases += cut(forks, rest.split(" "))
        elif line and mark != "#":
            if base:
                cases.append(changed(forks, base, line))
            else:
                case.fork += b"".join(map(bytes_of, line.partition("#")[0].split()))
    return forks, cases


def try_list(program, path, case):
    """Compares what resfork writes of a fork, with the bytes of the first resource of each type and id."""
    with open(path, "wb") as file:
        file.write(case.fork)
    # a file without bytes has no resources
    answer = case.answer if case.fork else []
    if isinstance(answer, str):
        compare("ls", run(program, ["ls", path]), 3, b"", told_of(answer, case.fork))
        return
    compare("ls", run(program, ["ls", path]), 0, listing(answer).encode(), "")
    first = {}
    for row in answer if len(answer) <= MOST_ROWS else answer[:: len(answer) - 1]:
        first.setdefault((row.kind, row.ident), row.data)
    for (kind, ident), data in first.items():
        compare(f"get {kind} {ident}", run(program, ["get", path, quoted("'", kind), str(ident)]), 0, data, "")


def try_open(program, path, case, forks):
    """Compares what macheap reads of a fork, writes of it, and makes by the case's script."""
    fork = case.fork
    refused = case.refused or case.answer
    if isinstance(refused, str) and fork:
        opening_is_refused(program, path, fork, open_code(refused))
        return
    # a file without bytes isn't refused, since a new one has none
    expect(program, path, fork, *questions(case.answer if fork else []), fork)
    if case.written in forks:
        expect(program, path, fork, ["UpdateResFile"], ["1 UpdateResFile 0"], forks[case.written].fork)
    elif case.written:
        expect(program, path, fork, ["UpdateResFile"], [f"1 UpdateResFile {case.written}"], fork)
    if case.script and play(program, path, b"", case.script)[1] != fork:
        raise Difference("its script makes other bytes")


def main(resfork, macheap):
    with open(TABLE, encoding="utf-8") as table:
        forks, cases = read_table(table)
    failed = 0
    with tempfile.TemporaryDirectory() as folder:
        path = os.path.join(folder, "fork")
        for case in cases:
            try:
                try_list(resfork, path, case)
                try_open(macheap, path, case, forks)
            except Difference as difference:
                failed += 1
                print(f"{case.name}: {difference}")
    print(f"forks of the table: {len(cases) - failed} are read and written as they should be, {failed} not; {len(forks)} stand there whole")
    return 1 if failed or not cases else 0
