"""Compares the table of traps with the library: that c/include/macheap_traps.h is what tools/traps.py makes of tools/traps.txt; that each function
of macheap.h and resman.h which is a call of the Toolbox has one row, with the operands and results of its header; that each call that
crates/mac_base defines has a row with as many operands; and that the guest's programs in examples/guest make the
same words. Functions and calls that no trap makes are listed below.
"""
import re
import sys

from places import TOP

sys.path.append(f"{TOP}/tools")
import traps  # noqa: E402

# what isn't a trap of its own: two traps that programs make one after the other, or one whose word has others, too
OTHER_TRAPS = {
    "mh_hlock_hi": "_MoveHHi and _HLock",
    "mr_dispose_handle": "_DisposeHandle where files are open",
    "mr_read_partial_resource": "_ResourceDispatch",
    "mr_write_partial_resource": "_ResourceDispatch",
    "mr_set_resource_size": "_ResourceDispatch",
}
# the host's own calls
HOST = set(
    """mh_make_zone mh_make_zone_large mh_make_zone_of mh_make_zone_at mh_end_zone mh_end_asleep mh_attach mh_wake mh_wake_written mh_sleep mh_sleep_wrote
    mh_check mh_look mh_repair mh_deref mh_peek mh_poke mh_lend mh_lent_peek mh_lent_poke mh_return mh_window mh_first_block mh_block mh_holder
    mh_image_size mh_image mh_new_handle_of mh_set_handle_to mh_append mh_queue_answer mh_asked mh_ask mh_carried mh_hold_purges mh_would_purge
    mh_purged mr_begin mr_end mr_fork_size mr_fork mr_forget mr_save_size mr_save mr_load mr_other_zone
    mr_set_system_zone mr_first_loaded""".split()
)
# the calls of crates/mac_base that only the host or a script makes
HOST_CALLS = {"Deref", "Poke", "Peek", "ZoneMap", "NewHandleOf", "SetHandleTo", "Append"}
# the calls of other names, by their functions
OTHER_NAMES = {"removeresource": "mr_rmve_resource", "openresfile": "mr_open"}

FUNCTION = re.compile(r"^MhErr (m[hr]_\w+)\((.*?)\);", re.M | re.S)
STRUCT = re.compile(r"\bstruct (\w+) \{\n(.*?)^\}", re.M | re.S)
OPERAND = re.compile(r"(const )?(\w+) (\*?)(\w+)$")
ENUM = re.compile(r"^pub enum \w+(?:<'a>)? \{\n(.*?)^\}", re.M | re.S)
MACRO = re.compile(r"\.macro\s+(\w+)\n\s+\.word\s+0x(\w+)\n")
VARIANT = re.compile(r"^    (\w+)(?:\(([^)]*)\)| \{(.*?)\})?,$", re.M | re.S)


def read(path):
    with open(f"{TOP}/{path}", encoding="utf-8") as it:
        return re.sub(r"/\*.*?\*/|//[^\n]*", "", it.read(), flags=re.S)


def fields_of(header):
    """The names of the fields of each struct."""
    return {name: re.findall(r"(\w+)(?:\[\d+\])?;", fields) for name, fields in STRUCT.findall(header)}


def taken_and_given(operands, fields):
    """The names of a function's operands, and of what it gives. The room for a name is neither."""
    taken, given = [], []
    for it in operands.split(","):
        const, kind, pointer, name = OPERAND.match(it.strip()).groups()
        if kind in ("MhZone", "MrFiles") or name == "room":
            continue
        to = given if pointer and not const else taken
        to += fields.get(kind, [name])
    return taken, given


def of_row(trap):
    """The same of a row. An operand that a trap gives back is no result of the function."""
    taken = [name for it in trap.operands if "VAR" not in it.place for name in it.names]
    var = [name for it in trap.operands if "VAR" in it.place for name in it.names]
    return taken, [name for name in var + [name for it in trap.results for name in it.names] if name not in taken]


def wrong_functions(rows):
    """What is wrong with the rows as the headers have their functions, and the functions that have none."""
    header = read("c/include/macheap.h") + read("c/include/resman.h")
    fields = fields_of(header)
    declared = {name: taken_and_given(operands, fields) for name, operands in FUNCTION.findall(header)}
    for name, (taken, given) in declared.items():
        if name not in rows and name not in HOST and name not in OTHER_TRAPS:
            yield f"{name} has no row"
        if name in rows and (of_row(rows[name])[0], sorted(of_row(rows[name])[1])) != (taken, sorted(given)):
            yield f"{name} takes {taken} and gives {given}, and its row has {of_row(rows[name])}"
    for name in [*rows, *HOST, *OTHER_TRAPS]:
        if name not in declared or (name in rows) + (name in HOST) + (name in OTHER_TRAPS) != 1:
            yield f"{name} is no function, or is listed twice"


def calls():
    """The calls that crates/mac_base defines, each with how many operands it has."""
    text = read("crates/mac_base/src/memory_call.rt") + read("crates/mac_base/src/resource_call.rt")
    for body in ENUM.findall(text):
        for name, one, other in VARIANT.findall(body):
            operands = [it for it in (one or other or "").split(",") if it.strip()]
            if not (operands and re.match(r"\w+Call\b", operands[0])):
                yield name, len(operands)


def wrong_calls(rows):
    """What is wrong with the rows as crates/mac_base has their calls."""
    found = dict(calls())
    by_name = {re.sub(r"^m[hr]|_", "", name): name for name in [*rows, *OTHER_TRAPS]}
    for name, count in found.items():
        function = OTHER_NAMES.get(name.lower()) or by_name.get(name.lower())
        if function is None and name not in HOST_CALLS:
            yield f"the call {name} has no row"
        if function in rows and len([it for it in of_row(rows[function])[0] if it != "length"]) != count:
            yield f"the call {name} has {count} operands, and its row {of_row(rows[function])[0]}"
    if len(found) < 60:
        yield f"crates/mac_base has {len(found)} calls, which are too few"
    yield from (f"{name} is no call" for name in HOST_CALLS - found.keys())


def wrong_words(table):
    """The words of the guest's programs that are others than those of their rows."""
    with open(f"{TOP}/examples/guest/guest.s", encoding="utf-8") as it:
        made = MACRO.findall(it.read())
    words = {it.name: it.word for it in table}
    yield from (f"guest.s makes {name} by ${word}" for name, word in made if words.get(name) != int(word, 16))
    if not made:
        yield "guest.s makes no trap"


def main():
    table = traps.traps()
    rows = {it.function: it for it in table if it.function}
    faults = [*wrong_functions(rows), *wrong_calls(rows), *wrong_words(table)]
    words = [it.word & (0xFFFF if it.word & 0x800 else 0xF8FF) for it in table]
    faults += [f"${word:04X} has two rows" for word in set(words) if words.count(word) > 1]
    if len(rows) != len([it for it in table if it.function]):
        faults.append("a function has two rows")
    with open(f"{TOP}/{traps.HEADER}", encoding="utf-8") as it:
        if it.read() != traps.header():
            faults.append(f"{traps.HEADER} is not what tools/traps.py makes: run it")
    for it in faults:
        print(it)
    if not faults:
        print(f"traps: {len(table)} rows for {len(rows)} functions; {len(HOST) + len(OTHER_TRAPS)} functions and {len(HOST_CALLS)} calls have none")
    return 1 if faults else 0
