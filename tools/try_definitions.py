#!/usr/bin/env python3
"""try_definitions.py [WORD..]: changes one definition of the promises at a time, as tools/definitions.txt says, and sees that the prover then refuses
the laws (those whose name has one of the words, or all). It works on a clone of the last commit, and takes about half a minute for each, and for
the first of a crate the time of all crates below it. The last line counts: 'N refused, M accepted'. An edit that only breaks a name or the grammar
counts as accepted, since it shows nothing of a meaning."""
import pathlib
import re
import subprocess
import sys
import tempfile

TOP = pathlib.Path(__file__).resolve().parent.parent
UNREAD = re.compile(r"not in scope|can be named from here|syntax error|expected a |unexpected ")


def read(text):
    """The edits: each a dictionary of name, file, old and new; one more `old` and `new` belong to the same edit."""
    edits = []
    for block in re.split(r"\n\s*\n", text):
        lines = [line for line in block.splitlines() if line and not line.startswith("#")]
        if not lines:
            continue
        edit = {"changes": []}
        for line in lines:
            word, _, rest = line.partition(": ")
            if word == "new":
                edit["changes"].append((edit.pop("old"), rest))
            else:
                edit[word] = rest
        edits.append(edit)
    return edits


def check(folder):
    """What `rt check` says of a crate, and whether it is proved."""
    run = subprocess.run(["rt", "check"], cwd=folder, capture_output=True, text=True)
    said = run.stdout + run.stderr
    return said, "logic=proved" in said.rsplit("crate ", 1)[-1]


def refused(copy, edit):
    """Makes the edit, sees what the check says, and takes it back. Returns why it counts for nothing, or None."""
    path = copy / edit["file"]
    before = path.read_text()
    after = before
    for old, new in edit["changes"]:
        if after.count(old) != 1:
            return f"the old text stands there {after.count(old)} times"
        after = after.replace(old, new)
    path.write_text(after)
    said, proved = check(copy / edit["in"])
    path.write_text(before)
    if proved:
        return "it is proved"
    errors = [line for line in said.splitlines() if ": error: " in line]
    if not errors:
        return "the check ended without an error: " + said[-300:]
    if UNREAD.search(errors[0]):
        return "it isn't read: " + errors[0][:200]
    print("   ", re.sub(r"\s+", " ", errors[0])[:150])
    return None


def main():
    words = sys.argv[1:]
    edits = [e for e in read((TOP / "tools/definitions.txt").read_text()) if not words or any(w in e["name"] for w in words)]
    accepted = []
    with tempfile.TemporaryDirectory() as room:
        copy = pathlib.Path(room) / "copy"
        subprocess.run(["git", "clone", "-q", TOP, copy], check=True)
        for crate in dict.fromkeys(e["in"] for e in edits):
            if not check(copy / crate)[1]:
                sys.exit(f"{crate} isn't proved as it stands")
        for edit in edits:
            print(edit["name"], flush=True)
            why = refused(copy, edit)
            if why:
                accepted.append(edit["name"])
                print("    ACCEPTED:", why)
    print(f"{len(edits) - len(accepted)} refused, {len(accepted)} accepted")
    return 1 if accepted else 0


if __name__ == "__main__":
    sys.exit(main())
