#!/usr/bin/env python3
"""Makes a script of a log of an emulator's traps, or shows the first trap at which the log and the model differ:

    tools/trace.py LOG                       prints the script
    tools/trace.py LOG --run COMMAND         runs it, as by 'crates/macheap/out/macheap' or, without a toolchain,
                                             'tools/play.py -', and compares the replies with the log
    tools/trace.py LOG --ignore FreeMem ..   leaves out the results of these traps, for a zone of another layout

docs/EMULATORS.md has the format of a log. Handles and pointers have other addresses in the model: the script gives each
a name. Compared are codes, sizes, states and room. Traps that a script has no call for, that work on addresses, on the
system zone or on another file than the first, are left out; the last line says how many. The exit status is 0 if all
agree, 1 if not, 2 for bad words, 3 for a bad log.
"""
from __future__ import annotations

import argparse
import re
import shlex
import subprocess
import sys
from typing import NamedTuple

import traps

VALUE = r" +(?:stack=(?:[0-9A-Fa-f]{2})*|(?!stack=)\w+=\$?[0-9A-Fa-f]{1,8})(?= |$)"
LINE = re.compile(rf"\$?([0-9A-Fa-f]{{4}})((?:{VALUE})*) *->((?:{VALUE})*)")
STACK = re.compile(r"stack=([0-9A-Fa-f]*)")
REGISTER = re.compile(r"(?!stack=)(?<= )(\w+)=\$?([0-9A-Fa-f]+)")
ZONE = re.compile(r"zone \$?([0-9A-Fa-f]{1,8}) (\d{1,10}) (\d{1,10}) (24|32)")
MOST_BYTES = 16777216
# the calls of a script that have other names than their traps
CALLS = {
    "ReallocHandle": "ReallocateHandle",
    "ResrvMem": "ReserveMem",
    "Get1IxResource": "GetIndResource",
    "Count1Types": "CountTypes",
    "Count1Resources": "CountResources",
    "SizeRsrc": "SizeResource",
    "RmveResource": "RemoveResource",
}
# the traps on the stack that a script has a call for, which looks where they do
ON_FILES = {
    *("GetResource", "Get1Resource", "Get1IxResource", "Count1Types", "Count1Resources", "LoadResource"),
    *("ReleaseResource", "DetachResource", "AddResource", "RmveResource", "ChangedResource", "WriteResource"),
    *("UpdateResFile", "SetResLoad", "GetResAttrs", "SetResAttrs", "SizeRsrc"),
}
SIZES = {"MH_WORD": 2, "MH_BOOLEAN": 2, "MH_LONG": 4, "MH_TEXT": 4}
# what a script has no call for, or what works on addresses: a log has no address of a handle's contents
LEFT_OUT = {"SetGrowZone", "BlockMove", "RecoverHandle", "PtrAndHand"}
# the operands that name a block, and the results that are a new one
BLOCKS = {"handle", "pointer", "one", "other"}
MADE = {"NewHandle": "h", "NewEmptyHandle": "h", "HandToHand": "h", "PtrToHand": "h", "NewPtr": "p"}
# without a live pointer at the address, such a trap makes what a call on a size makes
OF_SIZE = {"PtrToHand": "NewHandle", "PtrToXHand": "SetHandleSize"}
ON_STACK = 0x0800
FLAGS = 0x0700
SYSTEM = 0x0400


class BadLog(Exception):
    """A line of the log is none: its number, and why."""


class Expected(NamedTuple):
    """What the log has after a trap: the code, if it says that; the numbers of results; whether a handle is nil."""

    code: int | None
    numbers: list[int]
    is_nil: bool | None = None


class Step(NamedTuple):
    """A line of the script, and where it comes from."""

    at: int
    said: str
    line: str
    expected: Expected
    name: str


def signed(number: int) -> int:
    """A word of four bytes as a number below or above zero."""
    return number - (1 << 32) if number >> 31 else number


def key_of(place: traps.Place) -> str:
    """Where an operand or a result is: a register, or its name on the stack."""
    return f"the stack ({place.names[0]})" if place.place in SIZES else place.place[3:].removesuffix("_BYTE")


def on_stack(places: list[traps.Place], digits: str) -> dict[str, int]:
    """The values of places on the stack, the last of which is at its top, as far as there are bytes."""
    found, at = {}, 0
    for it in reversed(places):
        part = digits[at : at + 2 * SIZES.get(it.place, 0)]
        at += 2 * SIZES.get(it.place, 0)
        if part and len(part) == 2 * SIZES[it.place]:
            found[key_of(it)] = int(part, 16)
    return found


def values(text: str, places: list[traps.Place]) -> dict[str, int]:
    """The registers of one side of a line, and what is on the stack there, in these places."""
    stack = STACK.search(text)
    registers = {name: int(digits, 16) for name, digits in REGISTER.findall(text)}
    return {**registers, **(on_stack(places, stack[1]) if stack else {})}


def left_out(word: int, row: traps.Trap) -> str | None:
    """What a trap is of that no line of a script is made of, if so."""
    is_on_stack = any(it.place not in ("MH_A0", "MH_A1", "MH_D0", "MH_D0_BYTE") for it in [*row.operands, *row.results])
    if row.name in LEFT_OUT or (is_on_stack and row.name not in ON_FILES):
        return row.name
    return "the system zone" if not word & ON_STACK and word & SYSTEM else None


class Trace:
    """The script of a log, made line by line."""

    def __init__(self):
        self.rows = {it.word if it.word & ON_STACK else it.word & ~FLAGS: it for it in traps.traps()}
        self.options: list[str] = []
        self.names: dict[int, str] = {}
        self.counts: dict[str, int] = {}
        self.steps: list[Step] = []
        self.left_out: dict[str, int] = {}
        self.file: int | None = None

    def row(self, at: int, word: int) -> traps.Trap:
        """The row of a trap's word."""
        found = self.rows.get(word if word & ON_STACK else word & ~FLAGS)
        if found is None:
            raise BadLog(at, f"no trap of these managers has the word ${word:04X}")
        return found

    def new_name(self, letter: str) -> str:
        self.counts[letter] = self.counts.get(letter, 0) + 1
        return f"{letter}{self.counts[letter]}"

    def operand(self, name: str, value: int) -> str:
        """An operand as a script has it."""
        if name in BLOCKS:
            return self.names.get(value, f"${value:08X}" if value else "0")
        if name == "kind":
            return f'$"{value:08X}"'
        if name == "id":
            return str(value - 0x10000 if value & 0x8000 else value)
        return str({"state": value & 0xFF, "load": value >> 8}.get(name, value))

    def call(self, at: int, row: traps.Trap, before: dict[str, int]) -> tuple[str, list[str]]:
        """The name and the operands of the call that a trap makes; it leaves out a resource's name, and the file."""
        name, operands = CALLS.get(row.name, row.name), []
        for it in row.operands:
            if key_of(it) not in before:
                raise BadLog(at, f"{row.name} takes {it.names[0]} in {key_of(it)}, which isn't there before the trap")
            if it.names[0] not in ("name", "file"):
                operands.append(self.operand(it.names[0], before[key_of(it)]))
        if row.name in OF_SIZE and before["A0"] not in self.names:
            return OF_SIZE[row.name], operands[1:]
        return name, operands

    def expected(self, at: int, row: traps.Trap, after: dict[str, int]) -> Expected:
        """What a trap left."""
        of_files = row.name in ON_FILES
        needed = {key_of(it) for it in row.results} | (set() if of_files else {"D0"})
        if missing := sorted(needed - after.keys()):
            raise BadLog(at, f"{row.name} leaves something in {missing[0]}, which isn't there after the trap")
        if of_files:
            code = after.get("ResErr")
            code = code if code is None else signed(code | (0xFFFF0000 if code & 0x8000 else 0))
        else:
            in_d0 = any(it.place in ("MH_D0", "MH_D0_BYTE") for it in row.results)
            code = min(signed(after["D0"]), 0) if in_d0 else signed(after["D0"])
        numbers = [after[key_of(it)] for it in row.results if it.names[0] not in (*BLOCKS, "new_handle")]
        nil = [after[key_of(it)] == 0 for it in row.results if of_files and it.names[0] == "handle"]
        shown_numbers = [it & 0xFF if row.name == "HGetState" else it for it in numbers]
        return Expected(code, [] if code else shown_numbers, nil[0] if nil else None)

    def assigned(self, row: traps.Trap, expected: Expected, after: dict[str, int]) -> str:
        """The name that the script gives to a trap's handle or pointer, if it has one."""
        if row.name in MADE and expected.code == 0:
            self.names[after["A0"]] = self.new_name(MADE[row.name])
            return f"{self.names[after['A0']]} = "
        if expected.is_nil is False:
            number = after[key_of(row.results[0])]
            if number not in self.names:
                self.names[number] = self.new_name("r")
            return f"{self.names[number]} = "
        return ""

    def leaves_out(self, word: int, row: traps.Trap, before: dict[str, int]) -> str | None:
        """What a trap is of that isn't in the script, if so; the first file that is named is the one of the script."""
        file = next((before.get(key_of(it)) for it in row.operands if it.names[0] == "file"), None)
        self.file = file if self.file is None else self.file
        return left_out(word, row) or ("another file" if file != self.file and file is not None else None)

    def trap(self, at: int, text: str, word: int, before: str, after: str) -> None:
        """Adds what a trap makes."""
        row = self.row(at, word)
        was, left = (values(it, places) for it, places in ((before, row.operands), (after, row.results)))
        why = self.leaves_out(word, row, was)
        if why:
            self.left_out[why] = self.left_out.get(why, 0) + 1
            return
        name, operands = self.call(at, row, was)
        expected = self.expected(at, row, left)
        line = f"{self.assigned(row, expected, left)}{name}"
        self.steps.append(Step(at, text, " ".join([line, *operands]), expected, row.name))

    def add(self, at: int, text: str) -> None:
        """Adds a line of the log."""
        zone, found = ZONE.fullmatch(text), LINE.fullmatch(text)
        if zone and not self.steps:
            words = ("--base", str(int(zone[1], 16)), "--zone", zone[2], "--limit", zone[3], "--mode", zone[4])
            self.options = list(words)
        elif found:
            self.trap(at, text, int(found[1], 16), found[2], found[3])
        else:
            raise BadLog(at, "a line is a trap, as `A122 D0=64 -> A0=10003C D0=0`, or first `zone 100000 4096 4096 24`")


def read_log(path: str) -> Trace:
    """The trace of a log."""
    made = Trace()
    with open(0 if path == "-" else path, encoding="utf-8", errors="replace") as log:
        text = log.read(MOST_BYTES + 1)
    if len(text) > MOST_BYTES:
        raise BadLog(0, f"a log has at most {MOST_BYTES} bytes; make two of it")
    for at, line in enumerate(text.split("\n"), 1):
        line = line.split("#")[0].strip()
        if line:
            made.add(at, line)
    return made


def replies(command: str, trace: Trace) -> dict[int, list[str]]:
    """The words of each reply of a run of the script, by its line."""
    script = "".join(f"{it.line}\n" for it in trace.steps)
    ran = subprocess.run(
        [*shlex.split(command), *trace.options], input=script, capture_output=True, text=True, check=False
    )
    if ran.returncode:
        raise OSError(f"{command} ended with status {ran.returncode}: {(ran.stdout + ran.stderr)[:300].strip()}")
    lines = [it.split(" ") for it in ran.stdout.split("\n") if it and not it.startswith(" ")]
    return {int(it[0]): it[2:] for it in lines}


def of_model(words: list[str]) -> Expected:
    """The code and the numbers of a reply."""
    return Expected(int(words[-1]), [int(it) for it in words[:-1] if re.fullmatch(r"\d+", it)])


def shown(it: Expected) -> str:
    nil = {True: ["nil"], False: ["a handle"], None: []}[it.is_nil]
    code = [] if it.code is None else [f"code {it.code}"]
    return ", ".join([*code, *nil, *map(str, it.numbers)]) or "no code"


def agree(model: Expected, wanted: Expected) -> bool:
    """Whether the model's reply is what the log has, as far as the log says it."""
    codes = wanted.code is None or wanted.code == model.code
    nil = wanted.is_nil is None or wanted.is_nil == (model.code != 0)
    return codes and nil and (wanted.is_nil is not None or model.numbers == wanted.numbers)


def difference(trace: Trace, found: dict[int, list[str]], ignored: list[str]) -> str | None:
    """The first step whose reply isn't what the log has, in words."""
    for number, step in enumerate(trace.steps, 1):
        model = of_model(found[number])
        wanted = step.expected
        if step.name in ignored:
            model, wanted = model._replace(numbers=[]), wanted._replace(numbers=[])
        if not agree(model, wanted):
            return (
                f"line {step.at} of the log: {step.said}\n  in the script, line {number}: {step.line}\n"
                f"  the log has   {shown(wanted)}\n  the model has {shown(model)}"
            )
    return None


def counted(trace: Trace) -> str:
    left = ", ".join(f"{count} of {what}" for what, count in sorted(trace.left_out.items()))
    return f"{len(trace.steps)} traps in the script; left out: {left or 'none'}"


def main(given: list[str]) -> int:
    """Does what the words ask for, and returns the exit status."""
    words = argparse.ArgumentParser(description=__doc__, formatter_class=argparse.RawDescriptionHelpFormatter)
    words.add_argument("log", metavar="LOG")
    words.add_argument("--run", metavar="COMMAND")
    words.add_argument("--ignore", metavar="NAME", nargs="+", default=[])
    asked = words.parse_args(given)
    try:
        trace = read_log(asked.log)
        if asked.run is None:
            head = [f"# macheap {' '.join(trace.options)}"] if trace.options else []
            print("".join(f"{it}\n" for it in [*head, *(it.line for it in trace.steps)]), end="")
            print(counted(trace), file=sys.stderr)
            return 0
        found = difference(trace, replies(asked.run, trace), asked.ignore)
    except BadLog as bad:
        print(f"tools/trace.py: {asked.log}: line {bad.args[0]}: {bad.args[1]}", file=sys.stderr)
        return 3
    except OSError as error:
        print(f"tools/trace.py: {error}", file=sys.stderr)
        return 3
    print(found or f"the log and the model agree: {counted(trace)}")
    return 1 if found else 0


if __name__ == "__main__":
    sys.exit(main(sys.argv[1:]))
