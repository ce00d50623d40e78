"""Checks tools/trace.py: that the logs tests/cases/traps.log and resource_traps.log, written by hand from the books,
agree with the model of Python, that each wrong value in them is shown at its line, and that bad lines are refused.
"""
import contextlib
import io
import os
import re
import sys
import tempfile

from places import CASES, TOP

# the library of Python has a module of this name, too
sys.path.insert(0, f"{TOP}/tools")
import trace  # noqa: E402

sys.path.remove(f"{TOP}/tools")
sys.path.append(f"{TOP}/tools")
PLAY = f"{sys.executable} tools/play.py -"
# the logs, each with the command that runs its script, how many of its traps are in that, and what is left out
LOGS = [
    ("traps.log", PLAY, "29 traps in the script; left out: 1 of BlockMove, 1 of GetResInfo, 1 of the system zone"),
    (
        "resource_traps.log",
        f"{PLAY} --fork examples/letters.rsrc",
        "28 traps in the script; left out: 1 of UseResFile, 1 of another file",
    ),
]
# lines that are none, each with a part of what is said of it
BAD = [
    ("A122 D0=64", "a line is a trap"),
    ("A122 D0=64 -> A0=1 D0=0 x", "a line is a trap"),
    ("A122 D0=100000000 -> A0=1 D0=0", "a line is a trap"),
    ("A122 D0=64 -> D0=0", "leaves something in A0"),
    ("A122 A0=64 -> A0=1 D0=0", "takes size in D0"),
    ("A029 A0=64 -> A0=64", "leaves something in D0"),
    ("A9A0 stack=0080 -> stack=00000000", "takes kind in the stack (kind)"),
    ("A9A0 stack=008054455854 -> ResErr=0", "leaves something in the stack (handle)"),
    ("A9A0 stack=008 -> stack=00000000", "a line is a trap"),
    ("A9FF -> D0=0", "no trap of these managers has the word $A9FF"),
    ("zone 00100000 4096 4096 16", "a line is a trap"),
    ("A01C -> D0=0\nzone 00100000 4096 4096 24", "a line is a trap"),
]


def ran(*given):
    """The exit status of the tool with these words, and what it prints and says."""
    printed, said = io.StringIO(), io.StringIO()
    with contextlib.redirect_stdout(printed), contextlib.redirect_stderr(said):
        try:
            status = trace.main(list(given))
        except SystemExit as end:
            status = end.code
    return status, printed.getvalue(), said.getvalue()


def traced(folder, text):
    """The trace of a log of this text."""
    path = os.path.join(folder, "log")
    with open(path, "w", encoding="utf-8") as it:
        it.write(text)
    return path, trace.read_log(path)


def wronged(line):
    """A line of a log with another value after the trap."""
    before, _, after = line.partition("->")
    if "ResErr=" in after:
        after = re.sub(r"ResErr=(\w+)", lambda it: f"ResErr={int(it[1], 16) ^ 1:04X}", after)
    elif "stack=" in after:
        after = re.sub(r"stack=(\w+)", lambda it: f"stack={int(int(it[1], 16) == 0):0{len(it[1])}X}", after)
    else:
        after = re.sub(r"D0=(\w+)", lambda it: f"D0={int(it[1], 16) ^ 1:08X}", after)
    return f"{before}->{after}"


def unseen(log, command, folder):
    """The lines of a log of which a wrong value after the trap isn't shown."""
    with open(log, encoding="utf-8") as it:
        lines = it.read().split("\n")
    made = trace.read_log(log)
    found = trace.replies(command, made)
    for step in made.steps:
        wrong = wronged(lines[step.at - 1])
        _, changed = traced(folder, "\n".join([*lines[: step.at - 1], wrong, *lines[step.at :]]))
        shown = trace.difference(changed, found, [])
        if wrong == lines[step.at - 1] or shown is None or not shown.startswith(f"line {step.at} of the log:"):
            yield f"{log}, line {step.at}, {wrong}: {shown}"


def wrong_logs(folder):
    """What is wrong with the runs of the logs."""
    for name, command, left in LOGS:
        log = os.path.join(CASES, name)
        found = ran(log, "--run", command)
        if found[:2] != (0, f"the log and the model agree: {left}\n"):
            yield f"of {name} it ends with {found}"
        status, printed, said = ran(log)
        count = len([it for it in printed.split("\n") if it and not it.startswith("#")])
        if status or said != f"{left}\n" or count != int(left.split(" ")[0]):
            yield f"the script of {name} is {printed}, with {said}"
        yield from unseen(log, command, folder)


def main():
    faults = []
    with tempfile.TemporaryDirectory() as folder:
        faults += wrong_logs(folder)
        path = os.path.join(folder, "log")
        for text, wanted in BAD:
            with open(path, "w", encoding="utf-8") as it:
                it.write(f"{text}\n")
            found = ran(path)
            if (
                found[0] != 3
                or found[1]
                or wanted not in found[2]
                or f"line {text.count(chr(10)) + 1}: " not in found[2]
            ):
                faults.append(f"{text!r}: {found}")
        if ran(os.path.join(folder, "none"))[0] != 3 or ran(path, "--run", "false")[0] != 3:
            faults.append("a log that isn't there isn't refused")
    log = os.path.join(CASES, LOGS[0][0])
    if ran(log, "--run", "false")[0] != 3:
        faults.append("a program that fails isn't refused")
    for it in faults:
        print(f"traced: {it}")
    if not faults:
        print(f"traced: {len(LOGS)} logs agree with the model, each wrong value is shown, {len(BAD)} bad lines refused")
    return 1 if faults else 0
