#!/usr/bin/env python3
"""Writes what is promised of the programs, with all definitions that it needs, as one page: tools/book.py > book.html

It has the contracts of macheap's `program` and `script_run::run` and of resfork's `run_asked`. Each word that a
definition gives a meaning is a link to it, and premises are red: what a contract requires, and in it, or in a
definition of a statement, what comes before an arrow. All of it is read from the sources, and nothing is proved.
"""
from __future__ import annotations

import html
import re
import sys
from itertools import takewhile
from pathlib import Path
from string import Template

from closure import ROOT, Clauses, Key, Piece, Sources, clauses_of, closure, type_of
from page_policy import digest, part

FUNCTIONS = [
    ("macheap", "crates/macheap/src/program.rt", "program", "macheap, on any command line"),
    ("run", "crates/script_run/src/running.rt", "run", "a run of a script"),
    ("resfork", "crates/resfork/src/main.rt", "run_asked", "resfork, once its words are read"),
]
# what is a type of arguments of a function, and no premise
TYPES = re.compile(r"[\s()]*(?:(?:ℕ|ℤ|Bool|Type|0|List|Option|[A-Z]\w*)[\s()]*)?(?:ℕ|ℤ|Bool|0)?[\s()]*")
OPENS, CLOSES = "([{", ")]}"
# what a clause of the code begins with
CLAUSE = re.compile(r"^\s*(?:ensures|requires)\b")
ENDS_CLAUSE = re.compile(r"^\s*(?:ensures|requires|//|$)")


class Segment:
    """What is read in one pair of brackets: where the part before the next arrow begins, and whether it is a type."""

    def __init__(self, start: int):
        self.start, self.is_type = start, False


def is_binder(text: str) -> bool:
    """Whether a text has only variables with their types, as `(x y : ℕ) {S = S}`."""
    depth, groups = 0, [""]
    for letter in text:
        depth -= letter in CLOSES
        if depth:
            groups[-1] += letter
        elif letter not in OPENS + CLOSES + " \n":
            return False
        depth += letter in OPENS
        groups += [""] if not depth and letter in CLOSES else []
    return all(" : " in it or " = " in it for it in groups[:-1])


def premises(text: str) -> list[tuple[int, int]]:
    """Where a text has premises: what is before an arrow, but variables with their types."""
    found, segments = [], [Segment(0)]
    for at, letter in enumerate(text):
        if letter in OPENS:
            segments.append(Segment(at + 1))
        elif letter in CLOSES and len(segments) > 1:
            segments.pop()
        elif letter == "→":
            before = text[segments[-1].start : at]
            if not TYPES.fullmatch(before) and not is_binder(before) and not segments[-1].is_type:
                found.append((at - len(before.lstrip()), at - len(before) + len(before.rstrip())))
            segments[-1].start = at + 1
        elif word := re.match(r" = |\. | in ", text[at : at + 4]):
            segments[-1].start = at + len(word[0])
        elif text.startswith(" : ", at) and len(segments) > 1:
            segments[-1].is_type = True
        elif text.startswith(" : ", at):
            segments[-1].start = at + 2
    return found


def marked(text: str, links: list[tuple[int, int, str]], red: list[tuple[int, int]]) -> str:
    """A text with links and with premises in red."""
    opening: dict[int, list[str]] = {}
    closing: dict[int, list[str]] = {}
    for start, end in red:
        opening.setdefault(start, []).append('<b class="premise">')
        closing.setdefault(end, []).append("</b>")
    for start, end, target in links:
        opening.setdefault(start, []).append(f'<a href="#{target}">')
        closing.setdefault(end, []).insert(0, "</a>")
    parts, at = [], 0
    for place in sorted({*opening, *closing, len(text)}):
        parts.append(html.escape(text[at:place], quote=False))
        parts += closing.get(place, []) + opening.get(place, [])
        at = place
    return "".join(parts)


class Book:
    """The definitions that are in the page, and the places of their words."""

    def __init__(self):
        self.sources = Sources()
        self.clauses = {name: clauses_of(ROOT / path, function) for name, path, function, _ in FUNCTIONS}
        seen, self.declared = closure(self.sources, list(self.clauses.values()))
        self.pieces: dict[tuple, tuple[Key, Piece]] = {}
        self.targets: dict[Key, str] = {}
        self.types = {it: found for it in sorted(self.declared) if (found := source_of(*it))}
        for key in sorted(seen):
            self.place(key, seen[key])

    def place(self, key: Key, pieces: list[Piece]) -> None:
        """Gives a definition its place in the page; a constructor has that of its definition."""
        for piece in pieces:
            mark = (str(piece.path), piece.lines[0], len(piece.lines))
            head = re.search(r"(?:abbrev|record|data)\s+(?:pub\s+)?([^\s(:{]+)", "\n".join(piece.lines))
            name = head[1] if head else key.name
            self.pieces.setdefault(mark, (Key(key.module, name), piece))
            self.targets.setdefault(key, anchor(key.module, name))

    def target(self, key: Key) -> str | None:
        """Where a word leads, if it leads anywhere in the page."""
        found = type_of(key)
        if found in self.types:
            return anchor("code", ".".join(found))
        return self.targets.get(key)

    def links(self, text: str, of_word) -> list[tuple[int, int, str]]:
        """The links of a text."""
        found = ((start, end, self.target(key)) for start, end, key in self.sources.named_in(text, of_word))
        return [it for it in found if it[2]]

    def definition(self, key: Key, piece: Piece) -> str:
        """A definition: its comment, and its text."""
        remarks = [it.strip().removeprefix("--").strip() for it in piece.lines if it.startswith("--")]
        lines = [it for it in piece.lines if not it.startswith("--")]
        text = "\n".join(lines)
        links = self.links(text, lambda word: self.sources.of_word(key.module, word))
        place = anchor(key.module, key.name)
        red = [] if lines[0].split()[0:1] == ["data"] or " data " in lines[0] else premises_of(lines)
        # a definition is no link to itself
        links = [it for it in links if it[2] != place]
        said = html.escape(" ".join(remarks))
        return f'<section id="{place}"><p>{said}</p><pre>{marked(text, links, red)}</pre></section>'

    def contract(self, name: str, clauses: Clauses) -> str:
        """A function's comment, and its head with its clauses."""
        head = clauses.text.rstrip().removesuffix("{").rstrip().split("\n")
        remarks = [it.strip().removeprefix("///").strip() for it in head if it.strip().startswith("///")]
        lines = [it for it in head if not it.strip().startswith("///")]
        text, red, at, is_required = "\n".join(lines), [], 0, False
        for line in lines:
            begins = line.lstrip().startswith("requires")
            is_required = begins or is_required and not ENDS_CLAUSE.match(line)
            if is_required:
                red.append((at + len(line) - len(line.lstrip()), at + len(line)))
            elif CLAUSE.match(line) or line.lstrip().startswith(("×", "(")):
                red += [(at + start, at + end) for start, end in premises(line)]
            at += len(line) + 1
        said, code = html.escape(" ".join(remarks)), marked(text, self.links(text, clauses.imports.get), red)
        return f'<section id="contract-{name}"><p>{said}</p><pre>{code}</pre></section>'

    def chapters(self) -> dict[str, list[str]]:
        """The definitions of each crate, those of the highest crates first."""
        order = [line.split(":")[0].split()[0] for line in lines_of("crates.txt") if ":" in line and line[0] != "#"]
        found: dict[str, list[str]] = {}
        for key, piece in sorted(
            self.pieces.values(), key=lambda it: (-order.index(it[0].module.split(".")[0]), it[0])
        ):
            found.setdefault(key.module.split(".")[0], []).append(self.definition(key, piece))
        for (crate, name), text in self.types.items():
            place = anchor("code", f"{crate}.{name}")
            code = html.escape(text, quote=False)
            found.setdefault(crate, []).append(
                f'<section id="{place}"><p>A type of the code.</p><pre>{code}</pre></section>'
            )
        return found

    def page(self) -> str:
        """The whole page."""
        chapters = self.chapters()
        contracts = [
            f"<h2>{html.escape(said)}</h2>{self.contract(name, self.clauses[name])}" for name, _, _, said in FUNCTIONS
        ]
        rest = [f'<h2 id="{crate}">{crate}</h2>{"".join(parts)}' for crate, parts in chapters.items()]
        style = part("book.css")
        values = {
            "STYLE": style,
            "POLICY": f"default-src 'none'; style-src '{digest(style)}'; base-uri 'none'; form-action 'none'",
            "COUNT": str(len(self.pieces)),
            "CRATES": " ".join(f'<a href="#{it}">{it}</a>' for it in chapters),
            "CONTRACTS": "\n".join(contracts),
            "DEFINITIONS": "\n".join(rest),
        }
        return Template(part("book.html")).substitute(values)


def premises_of(lines: list[str]) -> list[tuple[int, int]]:
    """The premises of a definition, but for its head, which has types of arguments."""
    name = re.search(r"(?:abbrev|record|data)\s+(?:pub\s+)?([^\s(:{]+)", lines[0])
    begins = re.compile(rf"\s*(?:--|pub |{re.escape(name[1]) if name else '--'}[\s{{=])|  [^\s:(]+(?: [^\s:(]+)* : ")
    # each equation or field is read as a whole
    units: list[list] = []
    at = len(lines[0]) + 1
    for line in lines[1:]:
        if begins.match(line):
            units.append([at, ""])
        if units:
            units[-1][1] += line + "\n"
        at += len(line) + 1
    read = [(at, text) for at, text in units if not text.strip().startswith("--")]
    return [(at + start, at + end) for at, text in read for start, end in premises(text)]


def anchor(module: str, name: str) -> str:
    """A place in the page, in letters that a link has."""
    return "".join(
        it if it.isascii() and it.isalnum() or it in "._" else f"-{ord(it):x}-"
        for it in f"{module.replace('.specs', '')}.{name}"
    )


def lines_of(path: str) -> list[str]:
    return (ROOT / path).read_text(encoding="utf-8").split("\n")


def source_of(crate: str, name: str) -> str | None:
    """The text of a struct or an enum of a crate, with its comment."""
    head = re.compile(rf"^(?:pub )?(?:struct|enum) {name}\b[^;{{]*(?:;|\{{[^\n]*\}}$|\{{.*?^\}})", re.M | re.S)
    for path in sorted(Path(ROOT / "crates" / crate / "src").rglob("*.rt")):
        text = path.read_text(encoding="utf-8")
        found = head.search(text)
        if found:
            before = text[: found.start()].split("\n")[:-1]
            remarks = list(
                takewhile(lambda it: it.startswith("///"), reversed([it for it in before if it[:2] != "#["]))
            )
            return "\n".join([*reversed(remarks), found[0]])
    return None


if __name__ == "__main__":
    sys.stdout.write(Book().page())
