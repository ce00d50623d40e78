"""A page of a run on the model: the zone's map after each call, for any browser. tools/play.py --html writes it.

The page needs nothing else, and lets nothing out: its policy allows its own style and its own script, by their
digests, and nothing more. The run is in it as JSON without `<`, `>` and `&`, and the script of the page
(heap_page.js) puts texts in as texts.
"""
from __future__ import annotations

import html
import json
import os
from string import Template
from typing import NamedTuple

from model.fork import WORDS
from model.script import Done, Run
from model.toolbox import shown_type
from model.zone import LOCK, PURGE, RESOURCE, address, shown
from page_policy import digest, part

DOCTYPE = "<!doctype html>"
# the most calls, the most blocks in all maps, and the bytes of a block that a page shows
MOST_STEPS, MOST_BLOCKS, MOST_SHOWN = 4096, 100000, 256


class NoPage(Exception):
    """No page is made, for this reason."""


class Block(NamedTuple):
    """A block of a map, as heap_page.js has it."""

    key: str
    kind: str
    at: int
    size: int
    handle: str
    name: str
    length: int
    flags: str
    contents: int
    master: int


class Texts:
    """Texts that come again and again, each once."""

    def __init__(self):
        self.all: list[str] = []
        self.places: dict[str, int] = {}

    def place(self, text: str) -> int:
        """Which text this is."""
        if text not in self.places:
            self.places[text] = len(self.all)
            self.all.append(text)
        return self.places[text]


class Steps:
    """What a page shows: the map at the start and after each call. If no page is asked for nothing is kept."""

    def __init__(self, run: Run, is_asked: bool):
        self.run, self.is_asked = run, is_asked
        self.contents, self.files = Texts(), Texts()
        # how often each number was disposed of, and to which life of which number each name was given
        self.lives: dict[int, int] = {}
        self.named: dict[bytes, tuple[int, int]] = {}
        self.steps: list[dict] = []
        self.blocks, self.is_too_much = 0, False
        self.places: dict[str, int] = {}
        self.keep(0, "", "The zone as it is made, before the first line.", [])

    def name(self, number: int) -> str:
        """The names that a script gave to what has this number now."""
        it = number, self.lives.get(number, 0)
        return ", ".join(name.decode() for name, given in self.named.items() if given == it)

    def called(self, number: int) -> str:
        """A handle or a pointer as events have it."""
        name = self.name(number)
        return f"{name} ({address(number)})" if name else address(number)

    def flags(self, number: int) -> str:
        """The letters of a block's flags, and of a loan."""
        zone = self.run.toolbox
        bits = ((LOCK, "L"), (PURGE, "P"), (RESOURCE, "R"))
        return "".join(letter for bit, letter in bits if zone.live[number].flags & bit) + (
            "O" if number in zone.lent else ""
        )

    def block(self, at: int, size: int, owner: str | int) -> Block:
        """A block of the zone."""
        if owner in ("free", "master"):
            return Block(f"{owner}{at}", owner, at, size, "", "", size - self.run.toolbox.head, "", -1, 0)
        it, life = self.run.toolbox.live[owner], self.lives.get(owner, 0)
        kind = "rel" if it.is_handle else "ptr"
        contents = self.contents.place(bytes(it.contents[:MOST_SHOWN]).hex())
        key = f"{kind}{owner}.{life}"
        return Block(
            key,
            kind,
            at,
            size,
            address(owner),
            self.name(owner),
            len(it.contents),
            self.flags(owner),
            contents,
            owner if it.is_handle else 0,
        )

    def events(self) -> list[list[str]]:
        """What the last call did unasked, in words, each after its kind."""
        said = []
        for kind, *values in self.run.toolbox.happened:
            if kind == "disposed":
                self.lives[values[0]] = self.lives.get(values[0], 0) + 1
            elif kind == "purged":
                said.append([kind, f"{self.called(values[0])} is purged: it keeps its handle, and loses its block"])
            elif kind == "grown":
                said.append([kind, f"the zone grows by {values[0]} bytes"])
            else:
                needed, value, calls = values
                made = "; ".join(f"{name} {self.called(number)}" for name, number in calls) or "no call"
                said.append(
                    [
                        "asked",
                        f"the grow-zone procedure is asked for {needed} bytes: it answers {value}, and makes {made}",
                    ]
                )
        return said

    def moved(self, blocks: list[Block]) -> list[list[str]]:
        """Which blocks have another place than before."""
        before, self.places = self.places, {it.key: it.at for it in blocks if it.kind in ("rel", "ptr")}
        return [
            ["moved", f"{it.name or it.handle} moves from {address(before[it.key])} to {address(it.at)}"]
            for it in blocks
            if before.get(it.key, it.at) != it.at
        ]

    def file_table(self) -> list:
        """The files that a script opened: number, whether it is the current one, and its rows."""
        zone = self.run.toolbox
        if len(zone.disks) == 1 and not zone.disks[0] and not (zone.files and zone.files[0].rows):
            return []
        tables = []
        for file in zone.files:
            rows = [
                [
                    shown_type(row.kind),
                    row.ident,
                    "" if row.name is None else shown(row.name),
                    len(row.disk),
                    ", ".join(word for bit, word in WORDS if row.attributes & bit),
                    "" if row.handle is None else self.called(row.handle),
                ]
                for row in file.rows
            ]
            tables.append([file.number, file.number == zone.current, rows])
        return tables

    def add(self, done: Done) -> None:
        """Keeps what there is after a call."""
        if not self.is_asked:
            return
        events = self.events()
        if done.call.assigned is not None:
            value = self.run.variables[done.call.assigned]
            self.named[done.call.assigned] = value, self.lives.get(value, 0)
        reply = done.reply.split("\n")
        words = reply[0].split(" ")
        mark = "refused" if len(words) == 3 and words[2].startswith("-") else ""
        said = reply[0] if done.call.name == "ZoneMap" else done.reply
        self.keep(done.call.number, mark, said, events, self.number_of(done))

    def number_of(self, done: Done) -> int:
        """The handle or the pointer that a call is about: its result, or the first of its operands that is one."""
        words = done.reply.split("\n")[0].split(" ")
        result = [int(it[1:], 16) for it in words[2:3] if it[:1] == "$" and it[1:2] != '"']
        return next((it for it in [*result, *done.operands] if isinstance(it, int) and it in self.run.toolbox.live), 0)

    def keep(self, line: int, mark: str, reply: str, events: list, number: int = 0) -> None:
        """Keeps a map."""
        if not self.is_asked:
            return
        zone = self.run.toolbox
        self.blocks += len(zone.blocks)
        self.is_too_much = self.is_too_much or len(self.steps) > MOST_STEPS or self.blocks > MOST_BLOCKS
        if self.is_too_much:
            return
        blocks = [self.block(at, block.size, block.owner) for at, block in zone.placed()]
        events += self.moved(blocks)
        marks = [mark, *dict.fromkeys(kind for kind, _ in events)]
        self.steps.append(
            {
                "line": line,
                "reply": reply,
                "marks": [it for it in marks if it],
                "events": [said for _, said in events],
                "blocks": blocks,
                "block": next((it.key for it in blocks if it.handle and it.handle == address(number)), ""),
                "empty": [[address(it), self.name(it)] for it, owner in zone.live.items() if owner.contents is None],
                "files": self.files.place(json.dumps(self.file_table())),
            }
        )


def may_write(path: str) -> None:
    """Sees that no other file than a page is written over."""
    if not os.path.exists(path):
        return
    try:
        with open(path, encoding="utf-8", errors="replace") as file:
            is_page = file.read(len(DOCTYPE)) == DOCTYPE
    except OSError as error:
        raise NoPage(f"{path}: can't be read: {error.strerror}") from error
    if not is_page:
        raise NoPage(f"{path} is there, and is no page that this tool made: name another file")


def data_text(data: dict) -> str:
    """JSON that is the same in a page: nothing in it can end the element that it is in."""
    text = json.dumps(data, separators=(",", ":"))
    for mark in "<>&":
        text = text.replace(mark, f"\\u{ord(mark):04x}")
    return text


def page(title: str, text: bytes, steps: Steps) -> str:
    """The page of a run of this script."""
    zone = steps.run.toolbox
    data = {
        "lines": text.decode("utf-8", "replace").split("\n"),
        "start": zone.first - 52,
        "limit": zone.limit,
        "header": zone.head,
        "contents": steps.contents.all,
        "files": [json.loads(it) for it in steps.files.all],
        "steps": steps.steps,
    }
    style, script = part("heap_page.css"), part("heap_page.js")
    allowed = f"style-src '{digest(style)}'; script-src '{digest(script)}'"
    policy = f"default-src 'none'; {allowed}; base-uri 'none'; form-action 'none'"
    values = {"TITLE": html.escape(title), "POLICY": policy, "STYLE": style, "DATA": data_text(data), "SCRIPT": script}
    return Template(part("heap_page.html")).substitute(values)


def write(path: str, title: str, text: bytes, steps: Steps) -> None:
    """Writes the page of a run, unless that has too much in it."""
    if steps.is_too_much:
        most = f"{MOST_STEPS} calls, or {MOST_BLOCKS} blocks in all maps"
        raise NoPage(f"no page is made: it would have more than {most}; make two scripts of it")
    try:
        with open(path, "w", encoding="utf-8", errors="replace") as file:
            file.write(page(title, text, steps))
    except OSError as error:
        raise NoPage(f"{path}: can't be written: {error.strerror}") from error
