"""Checks a macheap program with resource files against a small model, on random scripts in zones of both modes.

The model is written from the rules of docs/SCRIPT.md and docs/DESIGN.md alone, and shares nothing with the program: a file is a
list of rows, a disk the bytes of a fork. What a zone does is the model of a zone, and how a fork is read that of
forks.py. Each script runs over one to three files, which are empty, forks, or damaged. Half of the scripts run with a journal beside each file,
by docs/DESIGN.md: it is empty, shut, cut short, or open with a fork that is to be recovered. The output is compared, and every byte of the files and
their journals after it. By default it runs 40 scripts of 300 lines. Each is made from its number, so a difference can be made again.
Numbers: how many scripts, how many lines, and the number of the first script.
"""
import os
import random
import subprocess
import tempfile

from checks import random_lines
from checks.forks import Choices
from checks.random_lines import Chooser
from model.toolbox import ALL_CALLS, RESOURCE_CALLS, Toolbox, journal_of, opened, shown_type
from model.zone import FLAG_CALLS, Refused

# how often each call is made
WEIGHTS = {
    **dict.fromkeys([*ALL_CALLS, *FLAG_CALLS, "MemError", "ResError"], 1),
    **dict(NewHandle=9, DisposeHandle=5, SetHandleSize=4, Poke=8, Peek=8, EmptyHandle=4, HPurge=4, HUnlock=4, Return=4, gz=5, MaxMem=0.5),
    **dict(GetResource=14, Get1Resource=6, GetIndResource=6, LoadResource=9, AddResource=10, ChangedResource=9, WriteResource=5),
    **dict(UpdateResFile=4, CloseResFile=2, OpenResFile=4, UseResFile=4, SetResAttrs=4, SizeResource=4, GetResInfo=4, ReleaseResource=4),
    **dict(SetResLoad=1, ZoneMap=0.7, MoreMasters=0.3, MaxApplZone=0.2),
}
KINDS = [b"TEXT", b"STR ", b"CODE", b"it's", b"\x00\x01\x02\xff", b"    "]
NAMES = [b"", b"Main", b"a b", b"caf\x8e", b'"q"', b"n" * 255, b"n" * 256]


class Kind(bytes):
    """The operand of a type."""


class Ident(int):
    """The operand of an id."""


class ResourceChooser(Chooser):
    """Chooses a script's calls, mostly such as make sense."""

    def kind(self):
        kinds = [row.kind for _, row in self.zone.all_rows()]
        return Kind(self.random.choice(kinds if kinds and self.random.random() < 0.8 else KINDS))

    def resource(self):
        """A type and an id, mostly of a resource that is there."""
        rows = [row for _, row in self.zone.all_rows()]
        if rows and self.random.random() < 0.85:
            row = self.random.choice(rows)
            return [Kind(row.kind), Ident(row.ident)]
        return [self.kind(), Ident(self.random.choice([0, 1, 128, 129, 130, -1, 32767, -32768]))]

    def file(self):
        return self.random.choice([1, 1, 2, 2, 3, 3, 0, 4, 4294967295])

    def operands(self, name):
        if name not in RESOURCE_CALLS and name != "ResError":
            return super().operands(name)
        owned = [row.handle for _, row in self.zone.all_rows() if row.handle is not None]
        if name in ("GetResource", "Get1Resource"):
            return self.resource()
        if name == "GetIndResource":
            return [self.kind(), self.random.choice([1, 1, 2, 3, 0, 5])]
        if name == "AddResource":
            free = [it for it, owner in self.zone.live.items() if owner.is_handle and it not in owned]
            kind, ident = self.resource()
            name_operand = [self.random.choice(NAMES)] if self.random.random() < 0.5 else []
            return [self.number(free), kind, ident, *name_operand]
        if name in ("UpdateResFile", "CloseResFile"):
            return [self.file()] if self.random.random() < 0.4 else []
        if name in ("UniqueID", "CountResources"):
            return [self.kind()]
        if name in ("CountTypes", "CurResFile", "ResError"):
            return []
        if name == "GetIndType":
            return [self.random.choice([1, 2, 3, 0, 7])]
        if name == "SetResLoad":
            return [self.random.choice([0, 1, 1, 7])]
        if name in ("OpenResFile", "UseResFile"):
            return [self.file()]
        if name == "SetResAttrs":
            attributes = self.random.choice([0, 2, 8, 16, 32, 48, 64, 128, 255, 256, self.random.randrange(256)])
            return [self.number(owned), attributes]
        return [self.number(owned)]

    def line(self):
        name = self.random.choices(list(WEIGHTS), list(WEIGHTS.values()))[0]
        return name, self.answer() if name == "gz" else self.operands(name)


def written(operand, is_hexadecimal):
    if isinstance(operand, Kind):
        return shown_type(operand) if is_hexadecimal or b"'" in operand else '$"' + operand.hex() + '"'
    if isinstance(operand, Ident):
        return str(int(operand))
    return random_lines.written(operand, is_hexadecimal)


def start_fork(number, dice):
    """The bytes of a file: nothing, or a fork, which may be damaged."""
    if dice.random() < 0.3:
        return b""
    choices = Choices(number)
    fork = choices.fork()
    if dice.random() < 0.7:
        for _ in range(20):
            try:
                opened(1, fork)
                break
            except Refused:
                fork = choices.fork()
    return fork


def start_journal(number, dice):
    """The bytes of a journal: nothing, or one that is open, shut or neither, whose text may be cut short or followed by more."""
    if dice.random() < 0.3:
        return b""
    journal = journal_of(dice.choice([1, 1, 1, 1, 0, 2, 255]), start_fork(number, dice))
    if dice.random() < 0.2:
        return journal[: dice.randrange(len(journal))]
    return journal + dice.randbytes(dice.choice([0, 0, 1, 50]))


def start_files(seed, dice):
    """The bytes of one to three files, and those of their journals, or none where the script runs without."""
    count = dice.choice([1, 1, 2, 3])
    disks = [start_fork(seed * 8 + it, dice) for it in range(count)]
    journals = [start_journal(seed * 8 + 4 + it, dice) for it in range(count)] if dice.random() < 0.5 else []
    return disks, journals


class Files:
    """The files of a run in a folder, with the words of the command line that name them."""

    def __init__(self, folder, disks, journals):
        self.words, self.paths = [], []
        for option, files in (("fork", disks), ("journal", journals)):
            for number, data in enumerate(files, 1):
                self.paths.append(os.path.join(folder, f"{option}{number}"))
                self.words += [f"--{option}", self.paths[-1]]
                with open(self.paths[-1], "wb") as file:
                    file.write(data)

    def difference(self, wanted):
        """The first file whose bytes aren't the ones that are wanted, or None."""
        for path, data in zip(self.paths, wanted):
            with open(path, "rb") as file:
                left = file.read()
            if left != data:
                return f"{path} has {len(left)} bytes, {left[:400].hex()}, and not {len(data)}, {data[:400].hex()}"
        return None


def compare(program, seed, lines, folder):
    """Runs one random script by the program and by the model; shows the first line, or the file, in which they differ."""
    dice = random.Random(seed)
    mode, size, base = dice.choice([24, 32]), dice.choice([1024, 2048, 4096, 65536]), dice.choice([0x1000, 0x100000, 0x400000])
    limit = size + dice.choice([0, 0, 16, 1000, size])
    disks, journals = start_files(seed, dice)
    files = Files(folder, disks, journals)
    toolbox = Toolbox(mode, size, limit, base, disks, journals)
    chooser = ResourceChooser(seed, toolbox, size)
    script, wanted = [], []
    try:
        toolbox.open_res_file(1)
    except Refused as refused:
        wanted.append(f"0 OpenResFile {refused.args[0]}")
    for number in range(1, lines + 1):
        name, operands = chooser.line()
        text = lambda it: written(it, dice.random() < 0.5)
        if name == "gz":
            calls, value = operands
            toolbox.answers.append(operands)
            script.append(f"gz {text(value)} " + dice.choice([";", " ; "]).join(f"{call} {text(it)}" for call, it in calls))
            continue
        script.append(" ".join([name, *map(text, operands)]))
        wanted += f"{number} {name} {toolbox.reply(name, operands)}".split("\n")
    words = ["--mode", str(mode), "--zone", str(size), "--limit", str(limit), "--base", str(base), *files.words]
    ran = subprocess.run([program, *words], input="\n".join(script), capture_output=True, text=True, check=False)
    printed = ran.stdout.split("\n")[:-1]
    if printed != wanted:
        at = next((it for it, (left, right) in enumerate(zip(printed, wanted)) if left != right), min(len(printed), len(wanted)))
        print(f"script {seed}, {' '.join(words)}: {printed[at : at + 1]} was printed, and {wanted[at : at + 1]} is right")
        return False
    difference = files.difference(toolbox.disks + toolbox.journals)
    if difference:
        print(f"script {seed}, {' '.join(words)}: {difference}")
    return difference is None


def main(program, scripts=40, lines=300, first=0):
    with tempfile.TemporaryDirectory() as folder:
        failed = [seed for seed in range(first, first + scripts) if not compare(program, seed, lines, folder)]
    print(f"random scripts over resource files: {scripts - len(failed)} as the model has them, {len(failed)} not")
    return 1 if failed else 0
