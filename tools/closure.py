#!/usr/bin/env python3
"""Prints what a reader must believe to believe the clauses of a function: the definitions that they name, and those
that these name.

    tools/closure.py                        the definitions that `script_run::run` needs, counted by crate
    tools/closure.py crates/toolbox/src/toolbox.rt step
    tools/closure.py --list ..              each definition with its file and its lines

Definitions are those of specs/. A struct or enum of the code that definitions name counts by the lines of its fields.
The words of the library (`Rattle.std`, ..) are not counted. tools/book.py prints all of it as a page.
"""
from __future__ import annotations

import re
import sys
from pathlib import Path
from typing import Iterator, NamedTuple

ROOT = Path(__file__).resolve().parent.parent
WORD = re.compile(r"[^\s(){}\[\],;.:]+")
# a word, perhaps after the name of a module
NAMED = re.compile(r"(?:([^\s(){}\[\],;.:]+)\.)?([^\s(){}\[\],;.:]+)")
IMPORT = re.compile(r"^(?:ghost )?(?:pub )?use Rattle\.([\w.]+?)(?:\.\{([^}]*)\}|\s+as\s+(\S+?)|)(?:\s*;)?$")
HEAD = re.compile(r"^(?:  )?(?:abbrev pub|abbrev|pub record|pub data|record|data)\s+([^\s(:{]+)")
CONSTRUCTOR = re.compile(r"^\s+([^\s:]+(?:\s+[^\s:]+)*)\s:\s")


class Key(NamedTuple):
    """A definition: its module and its name there."""

    module: str
    name: str


class Piece(NamedTuple):
    """The text of a definition, with the comment before it."""

    path: Path
    lines: list[str]


class Clauses(NamedTuple):
    """A function's head with its clauses, and what its file imports."""

    text: str
    imports: dict


def parts_of(path: Path) -> tuple[dict, list]:
    """The imports of a definition file, and its definitions: name, text."""
    imports, found, comment, current = {}, [], [], None
    for line in path.read_text(encoding="utf-8").splitlines():
        used = IMPORT.match(line.strip())
        if used:
            names(used, imports)
            continue
        head = HEAD.match(line)
        is_comment = line.strip().startswith("--") and not line.startswith("    ")
        if head:
            current = [head.group(1), [*comment, line]]
            found.append(current)
            comment = []
        elif is_comment and (current is None or not line.startswith("  ") or current[1][-1] == ""):
            comment.append(line)
        elif current:
            current[1] += [*comment, line]
            comment = []
    return imports, [(name, [it for it in lines if it.strip()]) for name, lines in found]


def names(used: re.Match, imports: dict) -> None:
    """What an import brings in: each name, and the module and the name there; of a module no name."""
    module, listed, alias = used.groups()
    if listed:
        for it in listed.split(","):
            there, _, here = it.strip().partition(" as ")
            if there:
                imports[here.strip() or there] = Key(module, there)
    else:
        imports[alias or module.rsplit(".", 1)[1]] = Key(module, "")


class Sources:
    """The definitions of all crates."""

    def __init__(self):
        self.files: dict[str, tuple] = {}
        self.known: dict[Key, list[Piece]] = {}
        for path in sorted(ROOT.glob("crates/*/specs/*.antt")):
            module = f"{path.parts[-3]}.specs.{path.stem}"
            imports, found = parts_of(path)
            self.files[module] = (imports, {name for name, _ in found})
            for name, lines in found:
                self.known.setdefault(Key(module, name), []).append(Piece(path, lines))
            for name, lines in found:
                self.constructors(Key(module, name), lines)

    def constructors(self, key: Key, lines: list[str]) -> None:
        """A constructor is known by the definition that it is in."""
        if "data " not in lines[0] + "".join(lines[:3]):
            return
        for made in filter(None, map(CONSTRUCTOR.match, lines)):
            for it in made.group(1).split():
                self.known.setdefault(Key(key.module, it), self.known[key])

    def of_word(self, module: str, word: str) -> Key | None:
        """The definition that a word names in a module."""
        imports, own = self.files[module]
        if word in own or Key(module, word) in self.known:
            return Key(module, word)
        return imports.get(word)

    def named_in(self, line: str, of_word) -> Iterator[tuple[int, int, Key]]:
        """What the words of a line name: from where to where each is, and its definition. `Module.name` is one word."""
        for found in NAMED.finditer(line):
            of_module = of_word(found[1]) if found[1] else None
            if of_module and not of_module.name:
                yield *found.span(2), Key(of_module.module, found[2])
                continue
            for group in (1, 2):
                key = of_word(found[group]) if found[group] else None
                if key and key.name:
                    yield *found.span(group), key


def clauses_of(path: Path, function: str) -> Clauses:
    """A function's clauses."""
    text = path.read_text(encoding="utf-8")
    imports: dict = {}
    for line in re.findall(r"^\s*ghost use [^;]*;", text, re.M | re.S):
        used = IMPORT.match(" ".join(line.split()))
        if used:
            names(used, imports)
    found = re.search(rf"(?:^[ \t]*///[^\n]*\n)*^[^\n/]*fn {function}\b.*?\n\s*\{{\n", text, re.M | re.S)
    if not found:
        sys.exit(f"{path} has no function {function}")
    return Clauses(found.group(0), imports)


def type_of(key: Key) -> tuple[str, str] | None:
    """The crate and the name of the struct or enum of the code that a word of definitions is, or is a variant of."""
    if ".declared." not in key.module:
        return None
    parts = key.module.split(".")
    return parts[0], parts[-2 if parts[-1] == "TheVariants" else -1]


def closure(sources: Sources, all_clauses: list[Clauses]) -> tuple[dict[Key, list[Piece]], set]:
    """The definitions that clauses need, and the types of the code."""
    todo = [key for it in all_clauses for _, _, key in sources.named_in(it.text, it.imports.get)]
    seen: dict[Key, list[Piece]] = {}
    declared = set()
    while todo:
        key = todo.pop()
        if key in seen or key.module.startswith("std"):
            continue
        if type_of(key):
            declared.add(type_of(key))
        if key not in sources.known:
            continue
        seen[key] = sources.known[key]
        for line in (line for piece in seen[key] for line in piece.lines if not line.strip().startswith("--")):
            todo += [it for _, _, it in sources.named_in(line, lambda word: sources.of_word(key.module, word))]
    return seen, declared


def main() -> None:
    words = [it for it in sys.argv[1:] if it != "--list"]
    path = ROOT / (words[0] if words else "crates/script_run/src/running.rt")
    seen, declared = closure(Sources(), [clauses_of(path, words[1] if len(words) > 1 else "run")])
    counted: dict[str, list] = {}
    # a definition is there by its constructors, too
    once = {
        (str(it.path), it.lines[0], len(it.lines)): (key, it) for key in sorted(seen, reverse=True) for it in seen[key]
    }
    for key, piece in sorted(once.values(), key=lambda it: it[0]):
        code = [it for it in piece.lines if not it.strip().startswith("--")]
        crate = counted.setdefault(piece.path.parts[-3], [0, 0, set()])
        crate[0] += 1
        crate[1] += len(code)
        crate[2].add(piece.path)
        if "--list" in sys.argv:
            print(f"{piece.path.relative_to(ROOT)}: {key.name}: {len(code)}")
    for crate, (definitions, lines, files) in sorted(counted.items()):
        print(f"{crate:14} {definitions:4} definitions {lines:5} lines {len(files):3} files")
    total = [sum(it[0] for it in counted.values()), sum(it[1] for it in counted.values())]
    files = sum(len(it[2]) for it in counted.values())
    print(
        f"{'all':14} {total[0]:4} definitions {total[1]:5} lines {files:3} files, and {len(declared)} types of the code"
    )


if __name__ == "__main__":
    main()
