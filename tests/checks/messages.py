"""Checks that the table of tests/model/messages.py has each text that resfork's sources say of an error, and no other.

Rows are the texts of `#[error(..)]`, of what is printed on the standard error and of errors that are made as the system's are; and the words of each
file that shows something by a `Display` of its own, where a row may be made of several. A value is `{}`, and a name before a line isn't part of it.
"""
import glob
import os
import re

from model.messages import TEXTS
from places import TOP

LITERAL = re.compile(r'"((?:[^"\\]|\\.)*)"')
# what is before a text that is a row as a whole; a letter, and a comment
SAID = re.compile(r"(?:#\[error\(|eprint(?:ln)?!?\((?:[^;\"]*;)?|Error::new\(\s*ErrorKind::\w+,)\s*\Z")
NO_TEXT = re.compile(r"b?'(?:\\.|[^'\\])'|^\s*//.*$", re.M)


def crates():
    """The crates that resfork is made of, but for that of the calls' codes, and for those of pictures and of types, whose faults aren't printed."""
    with open(os.path.join(TOP, "crates.txt"), encoding="utf-8") as file:
        lines = {name.split()[0]: needed.split() for name, _, needed in (line.partition(":") for line in file if ":" in line)}
    found = {"resfork"}
    while more := {it for name in found for it in lines[name] if it in lines} - found:
        found |= more
    return sorted(found - {"mac_base", "fork_pictures", "res_types"})


def plain(text):
    """A text of which values are `{}`, those with a blank between them as one, without the name before it."""
    return re.sub(r"\A(?:(?:error|\{\}): )+", "", re.sub(r"\{[^}]*\}( \{[^}]*\})*", "{}", text).strip())


def pieces(text, fewest=2):
    """The words between values and ends of lines, where there are so many together."""
    parts = (it.strip(" :;,.?$()-") for it in re.split(r"\{\}|\n", text))
    return {it for it in parts if it and it.count(" ") >= fewest - 1}


def texts():
    """The texts of the sources: all of them, those that are rows as a whole, and those of files with a `Display` of their own."""
    every, whole, shown = set(), set(), set()
    for path in (it for name in crates() for it in glob.glob(f"{TOP}/crates/{name}/src/**/*.rt", recursive=True)):
        with open(path, encoding="utf-8") as file:
            source = NO_TEXT.sub("", file.read())
        for found in LITERAL.finditer(source):
            text = plain(re.sub(r"\\(.)", lambda it: "\n" if it[1] == "n" else it[1], found[1]))
            every.add(text)
            if SAID.search(source, 0, found.start()):
                whole |= {text} if pieces(text) else set()
            elif re.search(r"\bDisplay for\b", source):
                shown.add(text)
    return every, whole, shown


def main():
    rows = [plain(text) for text in TEXTS.values()]
    every, whole, shown = texts()
    known = re.compile(r"(?<!\w)(?:" + "|".join(sorted(map(re.escape, {it for text in shown for it in pieces(text, 1)}), key=len, reverse=True)) + r")(?!\w)")
    lacking = {it for it in whole | shown if it not in rows and not (it in shown and all(any(piece in row for row in rows) for piece in pieces(it)))}
    stale = {it for it in rows if it not in every and re.search(r"\w", known.sub("", it))}
    twice = {it for it in rows if rows.count(it) > 1}
    for what, some in (("the table hasn't", lacking), ("no source has", stale), ("the table has twice", twice)):
        for it in sorted(some):
            print(f"messages: {what} {it!r}")
    print(f"messages: {len(rows)} texts, {len(lacking)} lacking, {len(stale)} stale, {len(twice)} twice")
    return 1 if lacking or stale or twice else 0
