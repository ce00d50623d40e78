"""Checks a macheap program on operands that no program means to give, beside the model of a zone.

For each call, at each operand, zones of both modes are given sizes at their limits and far over them, numbers that were never live or
are not any more, a pointer for a handle and a handle for a pointer, an empty handle, a lent block, and addresses inside blocks; the other
operands are as they should be. Each reply is the model's, and a ZoneMap after each shows the blocks as they are then: where the
call was refused, but for want of room, just as they were before.
"""
import subprocess

from checks.random_lines import written
from model.zone import FULL, Zone

EXTREMES = [0, 1, 0x7FFFFF, 0x800000, 0x800001, 0xFFFFFFFF]

# what each operand is: a handle, a pointer, either, a number of bytes, an offset, a state, an address, or bytes
CALLS = {
    "NewHandle": "n",
    "NewEmptyHandle": "",
    "NewPtr": "n",
    "DisposeHandle": "h",
    "DisposePtr": "p",
    "EmptyHandle": "h",
    "SetHandleSize": "hn",
    "SetPtrSize": "pn",
    "GetHandleSize": "h",
    "GetPtrSize": "p",
    "ReallocateHandle": "hn",
    "HandToHand": "h",
    "PtrToHand": "pn",
    "PtrToXHand": "phn",
    "PtrAndHand": "phn",
    "HandAndHand": "hh",
    "BlockMove": "xnxnn",
    "HLock": "h",
    "HUnlock": "h",
    "HPurge": "h",
    "HNoPurge": "h",
    "HSetRBit": "h",
    "HClrRBit": "h",
    "HGetState": "h",
    "HSetState": "hn",
    "MoveHHi": "h",
    "HLockHi": "h",
    "Deref": "h",
    "RecoverHandle": "a",
    "Peek": "xnn",
    "Poke": "xnb",
    "Lend": "x",
    "LentPeek": "xnn",
    "LentPoke": "xnb",
    "Return": "x",
    "ReserveMem": "n",
    "CompactMem": "n",
    "PurgeMem": "n",
    "MoreMasters": "",
    "MaxMem": "",
    "MaxApplZone": "",
    "MaxBlock": "",
    "PurgeSpace": "",
    "FreeMem": "",
    "MemError": "",
}


class Heap:
    """A zone with a block of each sort, and the script that makes it, with what it prints."""

    def __init__(self, mode):
        self.mode, self.zone, self.script, self.wanted = mode, Zone(mode, 4096, 8192, 0x100000), [], []
        make = lambda *words: int(self.call(*words).split()[0].lstrip("$"), 16)
        self.handle, self.locked, self.empty = make("NewHandle", 20), make("NewHandle", 8), make("NewEmptyHandle")
        self.pointer, self.lent_pointer, self.lent_handle = make("NewPtr", 20), make("NewPtr", 9), make("NewHandle", 7)
        self.gone, self.gone_pointer = make("NewHandle", 6), make("NewPtr", 6)
        for words in (["HLock", self.locked], ["HLock", self.lent_handle], ["Lend", self.lent_pointer], ["Lend", self.lent_handle]):
            self.call(*words)
        self.call("DisposeHandle", self.gone)
        self.call("DisposePtr", self.gone_pointer)

    def call(self, name, *operands):
        """Makes a call in the model, and writes its line; the reply."""
        self.script.append(" ".join([name, *(written(it, False) for it in operands)]))
        reply = self.zone.reply(name, operands)
        self.wanted += f"{len(self.script)} {name} {reply}".split("\n")
        return reply

    def usual(self, sort, is_lent):
        """What an operand of this sort should be."""
        pointer, handle = (self.lent_pointer, self.lent_handle) if is_lent else (self.pointer, self.handle)
        return {"h": handle, "p": pointer, "x": pointer, "n": 2, "a": handle, "b": b"ab"}[sort]

    def unusual(self, sort):
        """What it should not be."""
        inside = self.zone.place_of(self.handle) + self.zone.head + 2
        others = [self.gone, self.gone_pointer, self.empty, self.locked, self.lent_pointer, self.lent_handle, inside, self.zone.first]
        if sort == "b":
            return [b"", bytes(4096)]
        return EXTREMES + others + ([self.pointer] if sort != "p" else []) + ([self.handle] if sort != "h" else [])

    def try_all(self, name, sorts):
        """Makes the call with each operand in turn as it should not be, with the blocks after each."""
        places = [(place, value) for place, sort in enumerate(sorts) for value in self.unusual(sort)] or [(0, None)]
        shown = self.zone.zone_map()
        for place, value in places:
            operands = [self.usual(sort, name in ("LentPeek", "LentPoke", "Return")) for sort in sorts]
            operands[place : place + 1] = [] if value is None else [value]
            reply = self.call(name, *operands)
            self.call("ZoneMap")
            if reply.startswith("-") and not reply.startswith(str(FULL)):
                assert self.zone.zone_map() == shown, f"the model changes the heap in {self.script[-2]}, which it refuses"
            shown = self.zone.zone_map()


    def try_answers(self, name, sorts):
        """Lets an answer of the grow-zone procedure make the call with what its operand should not be."""
        for value in self.unusual(sorts):
            self.zone.answers.append(([(name, value)], 1))
            self.script.append(f"gz 1 {name} {value}")
            self.call("NewHandle", 9000)
            self.call("ZoneMap")


def differs(program, mode, name, sorts):
    """Whether the program prints something else than the model says; then it is reported."""
    heap = Heap(mode)
    heap.try_all(name, sorts)
    if name in ("DisposeHandle", "DisposePtr", "EmptyHandle"):
        heap.try_answers(name, sorts)
    words = [program, "--mode", str(mode), "--zone", "4096", "--limit", "8192"]
    ran = subprocess.run(words, input="\n".join(heap.script), capture_output=True, text=True, check=False)
    printed = ran.stdout.split("\n")[:-1]
    if printed == heap.wanted:
        return False
    at = next((it for it, (left, right) in enumerate(zip(printed, heap.wanted)) if left != right), min(len(printed), len(heap.wanted)))
    print(f"{name}, {' '.join(words[1:])}: {printed[at : at + 1]} was printed, and {heap.wanted[at : at + 1]} is right")
    return True


def main(program):
    tried = [(mode, name) for mode in (24, 32) for name in CALLS]
    failed = [it for it in tried if differs(program, *it, CALLS[it[1]])]
    print(f"hostile operands: {len(tried) - len(failed)} calls as the model has them, {len(failed)} not")
    return 1 if failed else 0
