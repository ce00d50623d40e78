#!/usr/bin/env python3
"""Writes tools/trusted.txt: the functions that call the system, and those that note in a record what only clauses read.

No contract can say of them that they make the calls that they note, and no others, so each is to be read. So is each that begins such a
record, since a call in a record of its own is noted nowhere else. The functions of tests and of crates that no program needs are left out.
"""
import glob
import os
import re

TOP = os.path.dirname(os.path.dirname(os.path.abspath(__file__)))
LIST = os.path.join(TOP, "tools", "trusted.txt")
LEFT_OUT = ("container_tests/", "paint_trace/", "script_tests/")
OWN_CRATES = ("file_acts/", "fork_saves/", "resfork/")
FUNCTION = re.compile(r"\s*(?:pub(?:\(\w+\))? )?(?:const )?(?:extern \"C\" )?fn (\w+)")
CALL = re.compile(
    r"\bfs::[a-z_]+\(|\bFile::(?:open|create|create_new)\b|\bOpenOptions::new|\.metadata\(\)|\.sync_all\(|\.try_lock\(|\.set_len\(|\.read_exact_at\("
    r"|\.write_all_at\(|\.write_all\([^,]*\)|\.read_to_end\(|\.stdin\(|\.stdout\(|\.stderr\(|\.e?print(?:ln)?\(|\benv::[a-z_]+\(|\bfchown\("
    r"|\.set_permissions\(|\.is_terminal\(|\bio::Write::write"
    r"|Record::of_events_beside\(|\bRecord::new\(|\b(?:Held|Folder|FolderOpen|Host|File|Stream)Calls::new\("
)
# Of resfork and its own crates also those that write to its output.
OWN = re.compile(r"\.output\(\)")
HEAD = """# The functions that call the system, and those that begin or note in a record what only clauses read, each with the first sentence of what it
# does. It is trusted that each does this and makes no other call; everything else is proved on top of it. Written by tools/trusted.py.
"""


def sentence(lines, at):
    """The first sentence of the comment before a line."""
    said = []
    while at > 0 and re.match(r"\s*(///|#\[)", lines[at - 1]):
        at -= 1
        if "///" in lines[at]:
            said.insert(0, lines[at].split("///")[1].strip())
    text = " ".join(said) or "as its trait says"
    return re.split(r"(?<=[.:]) (?=[A-Z])", text)[0]


def trusted():
    """The lines of the list."""
    for path in sorted(glob.glob(f"{TOP}/crates/*/src/**/*.rt", recursive=True)):
        name = os.path.relpath(path, f"{TOP}/crates")
        if name.startswith(LEFT_OUT) or name.endswith("tests.rt"):
            continue
        lines = open(path, encoding="utf-8").read().split("\n")
        found = None
        for at, line in enumerate(lines):
            if start := FUNCTION.match(line):
                found = (start[1], at)
            calls = CALL.search(line) or name.startswith(OWN_CRATES) and OWN.search(line)
            if found and not re.match(r"\s*(//|use |ghost )", line) and calls:
                yield f"{name.replace('/src/', ': ').removesuffix('.rt')}: {found[0]}: {sentence(lines, found[1])}"
                found = None


def text_now():
    """The list as it should be."""
    return HEAD + "".join(f"{line}\n" for line in trusted())


def compare():
    """Prints what isn't as the list says, and returns whether something is."""
    with open(LIST, encoding="utf-8") as file:
        was = file.read().split("\n")
    now = text_now().split("\n")
    for line in sorted(set(now) - set(was)):
        print(f"it calls the system, and isn't in tools/trusted.txt: {line}")
    for line in sorted(set(was) - set(now)):
        print(f"it is in tools/trusted.txt, and isn't so any more: {line}")
    if now == was:
        print(f"trusted: {len(now) - 3} functions")
    return 0 if now == was else 1


def main():
    with open(LIST, "w", encoding="utf-8") as file:
        file.write(text_now())


if __name__ == "__main__":
    main()
