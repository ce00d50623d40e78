#!/usr/bin/env python3
"""Prints what the public functions of each crate promise, as a Markdown page: tools/list_promises.py > PAGE.

The crates come in the order of crates.txt. The page has each public function and method, each of a public trait, and each of an
`impl` of a trait that has clauses of its own: with the first sentence of its comment, and the names of its `ensures` clauses. After a
crate's functions come its must-fail edits. All of it is read from the sources, and nothing is proved.
"""
import glob
import os
import re
import signal
from collections import namedtuple

Function = namedtuple("Function", "owner name is_public comment ensures requires")
FUNCTION = re.compile(r"\s*(pub(?:\(\w+\))? )?(?:const )?(?:unsafe )?(?:extern \"C\" )?fn (\w+)")
AROUND = re.compile(r"(?:unsafe )?(impl|pub trait|trait)\b(.*)")
CLAUSE = re.compile(r"\s*(ensures|requires)\*? (?:(\w+) )?\{")
HEAD_END = re.compile(r".*;$|(?:.* )?\{\}?$")


def crates():
    """The names of the crates, in the order of crates.txt."""
    with open("crates.txt", encoding="utf-8") as it:
        return [line.split(":")[0].split()[0] for line in it if ":" in line and not line.startswith("#")]


def edits(crate):
    """The files of a crate's must-fail edits: those of the gate, and the others."""
    return [sorted(glob.glob(f"{folder}/*.edit")) for folder in (f"crates/{crate}/must-fail", f"tools/edits/{crate}")]


def without_brackets(text):
    """The text without what is in angle brackets: of `<S: ForkStore> Toolbox<S>` the name."""
    shorter = re.sub(r"<[^<>]*>", "", text)
    return text if shorter == text else without_brackets(shorter)


def owner_of(around):
    """The type or trait that a line `impl ..` or `pub trait ..` names, whether its functions are public as they are, and the trait, if any."""
    word, rest = AROUND.match(around).groups()
    names = re.split(r"[\s:{]", without_brackets(rest.replace("->", "")).strip().replace(" for ", "#"))[0].split("#")
    return names[-1], word == "pub trait" or len(names) == 2, len(names) == 2


def first_sentence(lines):
    """The first sentence of the comment that ends with these lines, before attributes."""
    while lines and lines[-1].strip().startswith("#["):
        lines = lines[:-1]
    comment = []
    while lines and lines[-1].strip().startswith("///"):
        comment.insert(0, lines[-1].strip()[3:].strip())
        lines = lines[:-1]
    return re.split(r"(?<=[^.]\.) ", " ".join(comment))[0]


def functions_of(lines):
    """The functions of a file, in order."""
    owner, shown, of_trait = "", False, False
    for number, line in enumerate(lines):
        if AROUND.match(line):
            owner, shown, of_trait = owner_of(line)
        elif line == "}":
            owner, shown, of_trait = "", False, False
        found = FUNCTION.match(line)
        if not found:
            continue
        clauses = {"ensures": [], "requires": []}
        for below in lines[number:]:
            clause = CLAUSE.match(below)
            if clause:
                clauses[clause[1]].append(clause[2] or "")
            if HEAD_END.match(below) and not (clause and not below.endswith(";")):
                break
        is_public = found[1] == "pub " or shown and (not of_trait or bool(clauses["ensures"]))
        comment = first_sentence(lines[:number]) or ("As its trait says." if of_trait else "(It has no comment.)")
        yield Function(owner, found[2], is_public, comment, clauses["ensures"], clauses["requires"])


def functions(crate):
    """The functions of a crate, in the order of its files."""
    found = []
    for path in sorted(glob.glob(f"crates/{crate}/src/**/*.rt", recursive=True)):
        with open(path, encoding="utf-8") as it:
            found += functions_of(it.read().split("\n"))
    return found


def main():
    print("# What each public function promises\n\nMade by `tools/list_promises.py`. A function's clauses come after its first sentence.")
    for crate in crates():
        print(f"\n## `{crate}`\n")
        public = [it for it in functions(crate) if it.is_public]
        if not public:
            print("No public function.")
        for it in public:
            name = f"{it.owner}::{it.name}" if it.owner else it.name
            clauses = ", ".join(f"`{clause}`" if clause else "one clause without a name" for clause in it.ensures)
            print(f"- `{name}`: {it.comment} **Ensures** {clauses or 'nothing of its own'}.")
        for by, files in zip(("the gate", "`tools/try_edits.sh`"), edits(crate)):
            if files:
                print(f"\nMust-fail edits that {by} tries: " + ", ".join(f"`{os.path.basename(file)}`" for file in files) + ".")


if __name__ == "__main__":
    # who reads the page may stop before its end
    signal.signal(signal.SIGPIPE, signal.SIG_DFL)
    os.chdir(f"{os.path.dirname(os.path.abspath(__file__))}/..")
    main()
