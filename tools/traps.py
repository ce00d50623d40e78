#!/usr/bin/env python3
"""Makes c/include/macheap_traps.h of tools/traps.txt, and writes it: tools/traps.py. With MAME's mactoolbox.cpp as a word it only compares the words
of the traps with those that MAME has.

`tests/run traps` sees that what is written is what is made, and compares the table with the headers and with the calls of crates/mac_base.
"""
import os
import re
import sys
import textwrap
from typing import NamedTuple

TOP = os.path.dirname(os.path.dirname(os.path.abspath(__file__)))
HEADER = "c/include/macheap_traps.h"
COLUMNS = 120
PLACES = {
    "A0": "MH_A0", "A1": "MH_A1", "D0": "MH_D0", "byte": "MH_D0_BYTE", "word": "MH_WORD", "long": "MH_LONG", "boolean": "MH_BOOLEAN",
    "text": "MH_TEXT", "var_word": "MH_VAR_WORD", "var_long": "MH_VAR_LONG", "var_text": "MH_VAR_TEXT",
}
BEGIN = """\
/* The traps of the classic Macintosh Memory Manager and Resource Manager, for an emulator: their words, where a program
 * puts the operands, and where it finds the results. tools/traps.py makes this file of tools/traps.txt, which has the
 * sources.
 *
 * A word is $A0xx to $A7xx for a trap of the operating system. Its low byte is the trap's number, and bits 8 to 10 are
 * flags: MH_TRAP_A0 where A0 has a result, MH_TRAP_CLEAR where new bytes are zero, and MH_TRAP_SYS for the system zone.
 * Other traps have $A8xx to $ABxx. mh_find_trap finds the row of a word, whatever its flags.
 *
 * A trap whose operands are in registers leaves its code in D0, sign-extended, but a result there where the code is 0;
 * MemErr has the code of the Memory Manager's calls, too, and ResErr that of the Resource Manager's. A trap whose
 * operands are on the stack takes them off, and its result is what lies there then.
 */
"""
TYPES = """\
/* Where an operand or a result is. */
enum {
    MH_NOWHERE = 0, /* there is none */
    MH_A0,
    MH_A1,
    MH_D0,
    MH_D0_BYTE,  /* the low byte of D0 */
    MH_WORD,     /* on the stack, 2 bytes */
    MH_LONG,     /* on the stack, 4 bytes */
    MH_BOOLEAN,  /* on the stack, 2 bytes, of which the first counts */
    MH_TEXT,     /* on the stack, the address of a length byte and as many bytes */
    MH_VAR_WORD, /* on the stack, the address of 2 bytes where a result is written */
    MH_VAR_LONG, /* the same of 4 bytes */
    MH_VAR_TEXT  /* the same of a length byte and as many bytes */
};
typedef struct MhTrapPlace {
    uint8_t place;
    const char *name; /* as the function's header has it; NULL where there is none */
} MhTrapPlace;

/* A trap. Operands on the stack are pushed in this order. `function` makes its call, and is NULL where an emulator
 * answers the trap itself. "a+b" in a place is two operands of that function. */
typedef struct MhTrap {
    uint16_t word;
    bool on_stack; /* where its operands and its result are; else they are in registers */
    const char *name;
    const char *function;
    MhTrapPlace operands[4];
    MhTrapPlace results[2];
} MhTrap;

/* The row of the trap that a word makes, or NULL. */
static inline const MhTrap *mh_find_trap(uint16_t word);
"""
END = """\
static inline const MhTrap *mh_find_trap(uint16_t word) {
    uint16_t same = word & 0x0800 ? 0xFFFF : 0xF8FF;
    for (int at = 0; at < MH_TRAPS_COUNT; at++)
        if (((MH_TRAPS[at].word ^ word) & same) == 0) return &MH_TRAPS[at];
    return NULL;
}

#ifdef __cplusplus
}
#endif
#endif
"""


class Place(NamedTuple):
    """Where an operand or a result is, and the names that the function's header has for it."""

    place: str
    names: list[str]


class Trap(NamedTuple):
    """A row of the table."""

    word: int
    name: str
    function: str | None
    operands: list[Place]
    results: list[Place]


def places(words):
    """The places that PLACE:NAME words say."""
    split = [it.split(":") for it in words]
    return [Place(PLACES[place], name.split("+")) for place, name in split]


def lines():
    """The lines of the table that are no comments."""
    with open(os.path.join(TOP, "tools/traps.txt"), encoding="utf-8") as it:
        return [line.strip() for line in it if not line.startswith("#")]


def traps():
    """The rows of the table, in the order of their words."""
    found = []
    for line in (line for line in lines() if not line.startswith("$")):
        given, _, taken = line.partition(" -> ") if " -> " in line else (line.removesuffix(" ->"), "", "")
        word, name, function, *operands = given.split()
        found.append(Trap(int(word, 16), name, None if function == "-" else function, places(operands), places(taken.split())))
    return sorted(found)


def low_memory():
    """The globals of low memory: address, name, and what each is."""
    return [(int(at, 16), name, what) for at, name, what in re.findall(r"^\$(\w+) (\w+): (.*)$", "\n".join(lines()), re.M)]


def constant(name):
    """A name in the capitals of a constant."""
    return re.sub(r"(?<=[a-z0-9])(?=[A-Z])|(?<=[A-Z])(?=[A-Z][a-z])", "_", name).upper()


def listed(found):
    """Places as an initializer, which has one at least."""
    rows = ", ".join(f'{{{it.place},\0"{"+".join(it.names)}"}}' for it in found)
    return "{" + (rows or "{MH_NOWHERE,\0NULL}") + "}"


def row(trap):
    """A row of the table in C."""
    function = f'"{trap.function}"' if trap.function else "NULL"
    registers = {"MH_A0", "MH_A1", "MH_D0", "MH_D0_BYTE"}
    on_stack = any(it.place not in registers for it in [*trap.operands, *trap.results])
    whole = f'{{0x{trap.word:04X}, {str(on_stack).lower()}, "{trap.name}", {function}, {listed(trap.operands)}, {listed(trap.results)}}},'
    return textwrap.fill(whole, COLUMNS, initial_indent="    ", subsequent_indent="     ", break_long_words=False).replace("\0", " ")


def header():
    """The text of c/include/macheap_traps.h."""
    made = [BEGIN + "#ifndef MACHEAP_TRAPS_H\n#define MACHEAP_TRAPS_H\n\n#include <stdbool.h>\n#include <stddef.h>\n#include <stdint.h>\n"]
    made += ['#ifdef __cplusplus\nextern "C" {\n#endif\n']
    made += ["/* Flags of the operating system's traps. */\nenum { MH_TRAP_A0 = 0x0100, MH_TRAP_CLEAR = 0x0200, MH_TRAP_SYS = 0x0400 };\n"]
    words = [f"    MH_TRAP_{constant(it.name)} = 0x{it.word:04X}" for it in traps()]
    made += ["/* The words, as programs have them without the flags CLEAR and SYS. */\nenum {\n" + ",\n".join(words) + "\n};\n"]
    globals_ = low_memory()
    known = [f"    {f'MH_LOW_{constant(name)} = 0x{at:04X}' + ',' * (at != globals_[-1][0]):<30} /* {what} */" for at, name, what in globals_]
    made += ["/* Globals in low memory, of 4 bytes but where it says so. */\nenum {\n" + "\n".join(known) + "\n};\n"]
    rows = "\n".join(row(it) for it in traps())
    made += [TYPES, f"/* All of them, in the order of their words. */\nenum {{ MH_TRAPS_COUNT = {len(traps())} }};\nstatic const MhTrap MH_TRAPS[MH_TRAPS_COUNT] = {{\n{rows}\n}};\n", END]
    return "\n".join(made)


def other_words(path):
    """The traps that MAME has by no such word."""
    with open(path, encoding="utf-8") as it:
        known = set(re.findall(r'\{ 0x(\w+), "_(\w+)" \}', it.read()))
    return [it for it in traps() if (f"{it.word:04X}", it.name) not in known]


def main():
    if sys.argv[1:]:
        found = other_words(sys.argv[1])
        for it in found:
            print(f"MAME has no _{it.name} ${it.word:04X}")
        return 1 if found else 0
    with open(os.path.join(TOP, HEADER), "w", encoding="utf-8") as it:
        it.write(header())
    return 0


if __name__ == "__main__":
    sys.exit(main())
