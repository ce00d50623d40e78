"""Asks a macheap program what it reads of a fork: a script, the lines that it prints, and the bytes that it leaves on the file."""
import re
import subprocess

from checks.runs import numbered
from model.toolbox import shown_type
from model.zone import shown

CHANGED = 2
# of a longer fork the first and the last resource of each type are asked for, and of larger resources no bytes
MOST_ROWS, MOST_BYTES = 24, 256
ADDRESS = "$........"


class Difference(Exception):
    """What a program did isn't what it should."""


def questions_of_row(handle, kind, row, loads):
    """The lines that ask for a resource of which this is the handle, and what they print."""
    size, name = len(row.data), "none" if row.name is None else shown(row.name)
    lines = [f"GetResInfo {handle}", f"GetResAttrs {handle}", f"SizeResource {handle}"]
    printed = [f"GetResInfo {row.ident} {kind} {name} 0", f"GetResAttrs {row.attributes & ~CHANGED} 0", f"SizeResource {size} 0"]
    if loads:
        lines.append(f"Peek {handle} 0 {size}")
        printed.append(f"Peek {shown(row.data)} 0")
    return lines, printed


def questions(rows):
    """The lines of a script that asks for resources, and what it prints."""
    kinds, loads = list(dict.fromkeys(row.kind for row in rows)), all(len(row.data) <= MOST_BYTES for row in rows)
    lines, printed = [f"SetResLoad {int(loads)}", "CountTypes"], ["SetResLoad 0", f"CountTypes {len(kinds)} 0"]
    for number, kind in enumerate(kinds, 1):
        of_kind, word = [row for row in rows if row.kind == kind], shown_type(kind)
        lines += [f"GetIndType {number}", f"CountResources {word}"]
        printed += [f"GetIndType {word} 0", f"CountResources {len(of_kind)} 0"]
        for index, row in enumerate(of_kind, 1):
            if len(rows) <= MOST_ROWS or index in (1, len(of_kind)):
                handle = f"h{len(lines)}"
                asked, told = questions_of_row(handle, word, row, loads)
                lines += [f"{handle} = GetIndResource {word} {index}", *asked]
                printed += [f"GetIndResource {ADDRESS} 0", *told]
    return lines, numbered(" / ".join(printed)) if printed else []


def play(program, path, fork, lines):
    """What a script prints over a file with these bytes, and the bytes that it leaves."""
    with open(path, "wb") as file:
        file.write(fork)
    done = subprocess.run([program, "--fork", path], input="\n".join(lines), capture_output=True, text=True, check=False)
    with open(path, "rb") as file:
        left = file.read()
    if done.returncode != 0:
        raise Difference(f"macheap ended with {done.returncode} and told {done.stderr!r}")
    return done.stdout, left


def expect(program, path, fork, lines, printed, wanted):
    """Plays a script, and compares the lines that it prints and the bytes that it leaves. Any address stands for ADDRESS."""
    said, left = play(program, path, fork, lines)
    text = "".join(f"{it}\n" for it in printed)
    if not re.fullmatch(re.escape(text).replace(re.escape(ADDRESS), r"\$[0-9A-F]{8}"), said):
        raise Difference(f"macheap printed {said[:600]!r} and not {text[:600]!r}")
    if left != wanted:
        raise Difference(f"macheap left {len(left)} bytes, which aren't the {len(wanted)} that are wanted")


def opening_is_refused(program, path, fork, code):
    """Compares what macheap does with bytes that are no fork."""
    expect(program, path, fork, ["CurResFile"], [f"0 OpenResFile {code}", "1 CurResFile 0 0"], fork)
