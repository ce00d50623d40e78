"""Checks that docs/SCRIPT.md has each call of the program's table of calls, and no other.

The table has names in the form b"NewHandle". On the page calls are in the first column of a table whose header begins with 'Call', as
`NewHandle n` or `CloseResFile [k]`; several in one row have commas between them.
"""
import re

PAGE = "docs/SCRIPT.md"
TABLE = "crates/script_lang/src/table.rt"
NAME = re.compile(r'\bb"([A-Z][A-Za-z0-9]*)"')
CALL = r"`([A-Z][A-Za-z0-9]*)(?: [a-z]+| \[[a-z]+\])*`"
ROW = re.compile(rf"\| {CALL}(?:, {CALL})* \|")


def table():
    """The names of the program's calls."""
    with open(TABLE, encoding="utf-8") as it:
        return set(NAME.findall(it.read()))


def of_page():
    """The calls of the page, in order, and the lines of its tables that name none."""
    calls, strange, is_calls = [], [], False
    with open(PAGE, encoding="utf-8") as it:
        for number, line in enumerate(it, 1):
            if not line.startswith("|"):
                is_calls = False
            elif line.startswith("| Call |"):
                is_calls = True
            elif is_calls and not line.startswith("|---"):
                row = ROW.match(line)
                if row:
                    calls += re.findall(CALL, row[0])
                else:
                    strange.append(number)
    return calls, strange


def main():
    names = table()
    if "NewHandle" not in names:
        print(f'tests/checks/script_page.py: {TABLE} has no b"NewHandle": where is the table of calls?')
        return 1
    calls, strange = of_page()
    faults = [f"{PAGE}:{it}: the row does not begin with calls, as '| `HLock h`, `HUnlock h` |'" for it in strange]
    faults += [f"{PAGE} lacks {it}, which {TABLE} has" for it in sorted(names - set(calls))]
    faults += [f"{PAGE} has {it}, which {TABLE} lacks" for it in sorted(set(calls) - names)]
    faults += [f"{PAGE} has {it} twice" for it in sorted({it for it in calls if calls.count(it) > 1})]
    for it in faults:
        print(it)
    if not faults:
        print(f"script page: {len(calls)} calls, as {TABLE} has them")
    return 1 if faults else 0
