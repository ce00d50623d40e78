"""Checks a macheap program against a small model, on random scripts in zones of both modes that grow or don't.

By default it runs 40 scripts of 500 lines. Each is made from its number, so a difference can be made again. Numbers: how many
scripts, how many lines, and the number of the first script.
"""
import random
import subprocess

from model.zone import CALLS, FLAG_CALLS, LOCK, MAX_SIZE, Zone, shown

# how often each call is made
WEIGHTS = {
    **dict.fromkeys([*CALLS, *FLAG_CALLS, "MemError"], 2),
    **dict(NewHandle=14, NewPtr=9, DisposeHandle=7, DisposePtr=5, SetHandleSize=6, SetPtrSize=5, HLock=9, Peek=8, Poke=8),
    **dict(Lend=9, LentPeek=6, LentPoke=7, Return=6, ZoneMap=1, MaxApplZone=0.2, MaxMem=1, MoreMasters=0.5, HUnlock=7, HPurge=7, gz=5),
}


class Chooser:
    """Chooses a script's calls, mostly such as make sense."""

    def __init__(self, seed, zone, size):
        self.random, self.zone, self.size = random.Random(seed), zone, size

    def number(self, among):
        """One of these numbers mostly, else 0, a number near one, or any live one."""
        live = list(self.zone.live)
        dice = self.random.random()
        if among and dice < 0.75:
            return self.random.choice(among)
        if live and dice < 0.9:
            return self.random.choice(live)
        if live and dice < 0.96:
            return self.random.choice(live) + self.random.choice([-4, 1, 4, 8])
        return self.random.choice([0, self.random.randrange(2**32)])

    def length(self):
        dice = self.random.random()
        if dice < 0.7:
            return self.random.randrange(80)
        if dice < 0.97:
            return self.random.randrange(700)
        return self.random.choice([self.random.randrange(self.size), MAX_SIZE, MAX_SIZE + 1, 2**32 - 1])

    def offset(self, number):
        owner = self.zone.live.get(number)
        return self.random.randrange((len(owner.contents) if owner and owner.contents is not None else 8) + 3)

    def data(self):
        top = 256 if self.random.random() < 0.3 else 0x7F
        return bytes(self.random.randrange(0x23 if top == 0x7F else 0, top) for _ in range(self.random.randrange(24)))

    def operands(self, name):
        zone, live = self.zone, self.zone.live
        if name in ("NewHandle", "NewPtr", "ReserveMem", "CompactMem", "PurgeMem"):
            return [self.length()]
        if name in ("NewEmptyHandle", "ZoneMap", "MemError", "MoreMasters", "MaxMem", "MaxApplZone", "FreeMem", "MaxBlock", "PurgeSpace"):
            return []
        if name == "BlockMove":
            return self.move()
        if name == "RecoverHandle":
            places = [at + zone.head for at, block in zone.placed() if block.owner in live]
            return [self.number(places)]
        if name in ("LentPeek", "LentPoke", "Return"):
            among = list(zone.lent)
        elif name == "Lend":
            among = [it for it in live if not live[it].is_handle or live[it].flags & LOCK]
        elif name in ("DisposePtr", "SetPtrSize", "GetPtrSize", "PtrToHand", "PtrToXHand", "PtrAndHand"):
            among = [it for it in live if not live[it].is_handle]
        elif name in ("Peek", "Poke"):
            among = list(live)
        else:
            among = [it for it in live if live[it].is_handle]
        number = self.number(among)
        if name in ("SetHandleSize", "SetPtrSize", "ReallocateHandle"):
            return [number, self.length()]
        if name == "PtrToHand":
            return [number, self.offset(number)]
        if name in ("PtrToXHand", "PtrAndHand"):
            return [number, self.number([it for it in live if live[it].is_handle]), self.offset(number)]
        if name == "HandAndHand":
            return [number, self.number(among) if self.random.random() < 0.8 else number]
        if name == "HSetState":
            return [number, self.random.choice([0, 31, 64, 128, 160, 224, 255, 256])]
        if name in ("Peek", "LentPeek"):
            return [number, self.offset(number), self.random.randrange(20)]
        if name in ("Poke", "LentPoke"):
            return [number, self.offset(number), self.data()]
        return [number]

    def move(self):
        """The operands of a BlockMove, often within one block."""
        number = self.number(list(self.zone.live))
        other = self.number(list(self.zone.live)) if self.random.random() < 0.6 else number
        return [number, self.offset(number), other, self.offset(other), self.random.randrange(40)]

    def answer(self):
        """An answer of the grow-zone procedure: its calls, and its value."""
        names = ["DisposeHandle", "DisposePtr", "EmptyHandle"]
        calls = [(name, self.operands(name)[0]) for name in self.random.choices(names, k=self.random.choice([0, 1, 1, 2, 3, 8]))]
        return calls, self.random.choice([0, 1, 2, self.random.randrange(2**32)])

    def line(self):
        name = self.random.choices(list(WEIGHTS), list(WEIGHTS.values()))[0]
        return name, self.answer() if name == "gz" else self.operands(name)


def written(operand, is_hexadecimal):
    if isinstance(operand, bytes):
        return shown(operand)
    return f"${operand:X}" if is_hexadecimal else str(operand)


def play(program, title, sizes, calls, dice):
    """Plays calls by the program and by the model, in a zone of this mode, size, limit and base; shows the first line in which they differ.

    `calls` is a function of the model's zone that yields each call when those before it are made.
    """
    zone = Zone(*sizes)
    script, wanted = [], []
    for number, (name, operands) in enumerate(calls(zone), 1):
        number_text = lambda it: written(it, dice.random() < 0.5)
        if name == "gz":
            answers, value = operands
            zone.answers.append(operands)
            script.append(f"gz {number_text(value)} " + dice.choice([";", " ; "]).join(f"{call} {number_text(it)}" for call, it in answers))
            continue
        script.append(" ".join([name, *map(number_text, operands)]))
        wanted += f"{number} {name} {zone.reply(name, operands)}".split("\n")
    words = [it for word, size in zip(["--mode", "--zone", "--limit", "--base"], sizes) for it in (word, str(size))]
    ran = subprocess.run([program, *words], input="\n".join(script), capture_output=True, text=True, check=False)
    printed = ran.stdout.split("\n")[:-1]
    if printed == wanted:
        return True
    at = next((it for it, (left, right) in enumerate(zip(printed, wanted)) if left != right), min(len(printed), len(wanted)))
    print(f"script {title}, {' '.join(words)}: {printed[at : at + 1]} was printed, and {wanted[at : at + 1]} is right")
    return False


def compare(program, seed, lines):
    """Runs one random script by the program and by the model."""
    dice = random.Random(seed)
    mode, size, base = dice.choice([24, 32]), dice.choice([1024, 2048, 4096, 65536]), dice.choice([0x1000, 0x100000, 0x400000])
    limit = size + dice.choice([0, 0, 16, 1000, size])

    def calls(zone):
        chooser = Chooser(seed, zone, size)
        return (chooser.line() for _ in range(lines))

    return play(program, seed, (mode, size, limit, base), calls, dice)


def main(program, scripts=40, lines=500, first=0):
    failed = [seed for seed in range(first, first + scripts) if not compare(program, seed, lines)]
    print(f"random scripts: {scripts - len(failed)} as the model has them, {len(failed)} not")
    return 1 if failed else 0
