"""Checks that the clauses that README.md and the pages of docs/ name are there, and that tests/cases/bugs.txt says of each edit of the gate
which bug it is.

A page names a clause as `CRATE: function: clause` or `CRATE: Type::function: clause`, and one without a name as `CRATE: function`. What
`tools/list_promises.py` finds in the sources is there.
"""
import glob
import re
import sys

from places import TOP

sys.path.append(f"{TOP}/tools")
from list_promises import crates, edits, functions  # noqa: E402

BUGS = "tests/cases/bugs.txt"
THEOREM = "docs/THEOREM.md"
BLOCK = re.compile(r"^```.*?^```$", re.M | re.S)
CODE = re.compile(r"`([^`\n]+)`")
CLAUSE = re.compile(r"(\w+): (?:(\w+)::)?(\w+)(?:: (\w+))?")
BUG = re.compile(r"(\w+)/(\w+): \S.*")


def lacks(name, known):
    """What is wrong with the name of a clause, if anything."""
    parts = CLAUSE.fullmatch(name)
    if not parts:
        return f"`{name}` is no name of a clause: write `CRATE: function: clause`"
    crate, owner, function, clause = parts[1], parts[2], parts[3], parts[4] or ""
    if crate not in known:
        return f"`{name}`: there is no crate {crate}"
    of_name = [it for it in known[crate] if it.name == function and owner in (None, it.owner)]
    if not of_name:
        return f"`{name}`: {crate} has no such function"
    if not any(clause in it.ensures + it.requires for it in of_name):
        return f"`{name}`: it has no clause {clause or 'without a name'}"
    return None


def clauses_of(page):
    """The names of clauses on a page: what is between ` and ` with a colon and a blank, but for the form itself. And the lines with a
    name that goes on in the next one."""
    with open(page, encoding="utf-8") as it:
        text = BLOCK.sub("", it.read())
    lines = [line for line in text.split("\n") if not line.startswith("    ")]
    names = [name for line in lines for name in CODE.findall(line) if re.match(r"\w+: \w", name)]
    cut = [line for line in lines if line.count("`") % 2 and re.search(r"`\w+: \w[^`]*$", line)]
    return [it for it in names if it != "crate: function: clause"], cut


def wrong_bugs():
    """What is wrong with the list of bugs."""
    with open(BUGS, encoding="utf-8") as it:
        lines = [line.rstrip("\n") for line in it if line.strip() and not line.startswith("#")]
    named = []
    for line in lines:
        bug = BUG.fullmatch(line)
        if bug:
            named.append(f"crates/{bug[1]}/must-fail/{bug[2]}.edit")
        else:
            yield f"{BUGS}: no 'CRATE/EDIT: what the bug is': {line}"
    there = [path for crate in crates() for path in edits(crate)[0]]
    for path in sorted(set(named) - set(there)):
        yield f"{BUGS}: there is no {path}"
    for path in sorted(set(there) - set(named)):
        yield f"{BUGS} does not say which bug {path} is"
    for path in sorted({path for path in named if named.count(path) > 1}):
        yield f"{BUGS} has {path} twice"


def main():
    known = {crate: functions(crate) for crate in crates()}
    faults, clauses = list(wrong_bugs()), 0
    for page in ["README.md", *sorted(glob.glob("docs/*.md"))]:
        names, cut = clauses_of(page)
        clauses += len(names)
        faults += [f"{page}: a name between ` and ` goes on in the next line: {line}" for line in cut]
        faults += [f"{page}: {wrong}" for wrong in (lacks(name, known) for name in names) if wrong]
        if page == THEOREM and not names:
            faults.append(f"{page}: it names no clause")
    for it in faults:
        print(it)
    if not faults:
        count = sum(len(edits(crate)[0]) for crate in crates())
        print(f"promises: {clauses} clauses and {count} edits found")
    return 1 if faults else 0
