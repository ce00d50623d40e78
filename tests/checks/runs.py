"""Checks what a macheap program prints on the scripts of tests/cases/runs.txt and on the calls of tests/cases/memory_refusals.txt, what the
steps of tests/cases/steps.txt make of a zone's blocks, and which texts of tests/cases/lines.txt are scripts.

"""
import itertools
import os
import re
import subprocess

from places import CASES

FAULT = "script fault at line "


def lines_of(text):
    """The lines of a script: NAME*N stands for N lines NAME."""
    for line in text.split(" / "):
        times = re.fullmatch(r"(.*)\*(\d+)", line)
        yield from [times[1]] * int(times[2]) if times else [line]


def rows(table):
    """The rows of the table: the program's options, the script and the lines that are wanted."""
    given = None
    for line in table.read().split("\n"):
        if line.startswith("> "):
            options, _, script = line[2:].rpartition(" : ") if line.startswith("> --") else ("", "", line[2:])
            given = options.split(), "\n".join(lines_of(script))
        elif line.startswith("= "):
            yield *given, line[2:].split(" / ") if line[2:] else []


def calls_of(line):
    """The calls of a line: A|B stands for A and for B, and n*256 for 256 letters n."""
    line = re.sub(r"(\w)\*(\d+)", lambda it: it[1] * int(it[2]), line)
    return map(" ".join, itertools.product(*(word.split("|") for word in line.split(" "))))


def refusals(table):
    """A row for each call of tests/cases/memory_refusals.txt, as the rows of tests/cases/runs.txt."""
    for line in table.read().split("\n"):
        mark, _, rest = line.partition(" ")
        if mark == ">":
            script = list(lines_of(rest))
        elif mark == "=":
            seen = rest.split(" / ")
        elif line and mark != "#":
            calls, code = line.split(": ")
            for call in calls_of(calls):
                at = len(script) + 1
                said = [f"{at + 1} {call.split(' ')[0]} {code}", f"{at + 2} MemError {code} 0"]
                blocks = [f"{at} {seen[0]}", *seen[1:]], [f"{at + 3} {seen[0]}", *seen[1:]]
                yield [], "\n".join([*script, "ZoneMap", call, "MemError", "ZoneMap"]), ["..", *blocks[0], *said, *blocks[1]]


def numbered(lines):
    """Printed lines with the numbers of the script's lines. Those of a map, which begin with blanks, have none."""
    numbers = itertools.count(1)
    return [line if line.startswith("  ") else f"{next(numbers)} {line}" for line in lines.split(" / ")]


def unescaped(text):
    """The bytes of a text in which \\n, \\r, \\t and \\xHH stand for a byte each."""
    return text.encode("latin-1").decode("unicode_escape").encode("latin-1")


def repeated(text):
    """Those bytes, of which the last one is there N times where the text ends with *N."""
    times = re.fullmatch(r"(.*)\*(\d+)", text)
    data = unescaped(times[1] if times else text)
    return data[:-1] + data[-1:] * (int(times[2]) if times else 1)


def texts(table):
    """The rows of tests/cases/lines.txt: a text, and the first line that is none, or None where it is a script."""
    for row in table.read().split("\n"):
        line, mark, text = row.partition(": ")
        if mark and not row.startswith("# "):
            yield repeated(text), None if line == "ok" else int(line)


def wrongs(table):
    """The rows of tests/cases/wrong.txt: a text, the first line that is none, and what is wrong with it."""
    for row in table.read().split("\n"):
        said, mark, text = row.partition(" <- ")
        if mark and not row.startswith("# "):
            line, _, wrong = said.partition(": ")
            yield repeated(text), line, wrong


# a line that makes a call: one that isn't empty, a comment or a queued answer, with the name of its call
MAKES_CALL = re.compile(rb"[ \t]*(?:\w+[ \t]*=[ \t]*|(?!gz\b))([A-Z]\w*)")


def calls_in(text):
    """The calls of a script, each with the number of its line."""
    lines = ((number, MAKES_CALL.match(line)) for number, line in enumerate(text.split(b"\n"), 1))
    return [[b"%d" % number, found[1]] for number, found in lines if found]


def is_read(program, text, line):
    """Whether a text is a script, each call of which has its reply, or has its first fault in this line."""
    ran = subprocess.run([program], input=text, capture_output=True, check=False)
    if line is None:
        replies = [it.split(b" ")[:2] for it in ran.stdout.split(b"\n") if it and not it.startswith(b"  ")]
        return ran.returncode == 0 and replies == calls_in(text)
    return (ran.returncode, ran.stdout) == (3, f"{FAULT}{line}\n".encode()) and ran.stderr.startswith(f"error: line {line}: ".encode())


def is_told(program, text, line, wrong):
    """Whether a run says that this is wrong with a text, and writes nothing but which line is the first that is none."""
    ran = subprocess.run([program], input=text, capture_output=True, check=False)
    return (ran.returncode, ran.stdout, ran.stderr) == (3, f"{FAULT}{line}\n".encode(), f"error: line {line}: {wrong}\n".encode())


# the calls of steps that name a block, of those that have a number, and of the others
ON_BLOCKS = {"L": "HLock", "U": "HUnlock", "P": "HPurge", "H": "MoveHHi"}
WITH_NUMBER = {"+": "NewHandle", "*": "NewPtr", "R": "ReserveMem", "C": "CompactMem", "Q": "PurgeMem"}
ALONE = {"A": "CompactMem 8388608", "G": "MaxApplZone", "X": "MaxMem"}


def line_of(word, made):
    """The line of a step, where blocks were made by these letters so far."""
    what, rest = word.lstrip("!")[0], word.lstrip("!")[1:]
    if what in "+*":
        made.append(what)
        return f"b{len(made) - 1} = {WITH_NUMBER[what]} {rest}"
    if what in "-S":
        block, _, size = rest.partition(":")
        kind = "Handle" if made[int(block)] == "+" else "Ptr"
        return f"Dispose{kind} b{block}" if what == "-" else f"Set{kind}Size b{block} {size}"
    return ALONE.get(what) or (f"{ON_BLOCKS[what]} b{rest}" if what in ON_BLOCKS else f"{WITH_NUMBER[what]} {rest}")


def zone_steps(table):
    """The rows of tests/cases/steps.txt: the options, the steps and the blocks that are there then."""
    for row in table.read().split("\n"):
        if row.startswith("> "):
            options = row[2:].split()
        elif " | " in row:
            yield options, *(it.split(" ") for it in row.split(" | "))


def block_word(line, numbers):
    """A line of ZoneMap in a word, where these numbers have these blocks."""
    address, size, kind, *rest = line.split()
    number = {"rel": rest[0] if rest else "", "ptr": f"${int(address[1:], 16) + 8:08X}"}.get(kind)
    return f"{size}:" + {"free": ".", "master": "m"}.get(kind, str(numbers.get(number)))


def step_fault(program, options, steps, blocks):
    """What isn't as it should be after these steps, or None."""
    made = []
    script = [line_of(step, made) for step in steps]
    ran = subprocess.run([program, *options], input="\n".join([*script, "ZoneMap"]), capture_output=True, text=True, check=False)
    replies = [line.split() for line in ran.stdout.split("\n")]
    for step, reply in zip(steps, replies):
        if reply[-1:] != ["-108" if step[0] == "!" else "0"]:
            return f"{step} answers {reply}"
    # a number may be given again
    numbers = {number: index for index, number in enumerate(reply[2] for step, reply in zip(steps, replies) if step[0] in "+*")}
    found = [block_word(line, numbers) for line in ran.stdout.split("\n") if line.startswith("  ")]
    return None if found[1:] == blocks else f"the blocks are {found}"


def read(name, by):
    with open(os.path.join(CASES, name), encoding="utf-8") as table:
        return list(by(table))


def are_wanted(printed, wanted):
    """Whether these lines are printed, where `..` stands for any lines."""
    text = "".join(".*" if line == ".." else re.escape(f"{line}\n") for line in wanted)
    return re.fullmatch(text, printed, re.DOTALL) is not None


def main(program):
    failed = 0
    runs, refused = read("runs.txt", rows), read("memory_refusals.txt", refusals)
    for options, script, wanted in runs + refused:
        ran = subprocess.run([program, *options], input=script, capture_output=True, text=True, check=False)
        status = 3 if wanted and wanted[0].startswith(FAULT) else 0
        if ran.returncode != status or not are_wanted(ran.stdout, wanted):
            failed += 1
            print(f"{script!r} {' '.join(options)} ended with {ran.returncode} and printed {ran.stdout!r}")
    stepped, scripts, told = read("steps.txt", zone_steps), read("lines.txt", texts), read("wrong.txt", wrongs)
    for options, steps, blocks in stepped:
        fault = step_fault(program, options, steps, blocks)
        if fault:
            failed += 1
            print(f"{' '.join(steps)}: {fault}")
    for text, line in scripts:
        if not is_read(program, text, line):
            failed += 1
            print(f"{text[:200]!r}, of {len(text)} bytes, isn't {'a script' if line is None else f'refused at line {line}'}")
    for text, line, wrong in told:
        if not is_told(program, text, line, wrong):
            failed += 1
            print(f"{text[:200]!r}, of {len(text)} bytes: it isn't told that {wrong}")
    count = len(runs) + len(refused) + len(stepped) + len(scripts) + len(told)
    print(f"runs: {count - failed} as they should be, {failed} not; {len(refused)} are of calls that are refused, {len(scripts)} of texts that are scripts or none, {len(told)} of what is told")
    return 1 if failed or not runs or not refused or not stepped or not scripts or not told else 0
