#!/usr/bin/env python3
"""Draws the pictures of the pages. Each is written to the standard output, as SVG:

    tools/pictures.py zone [--script SCRIPT] [OUTPUT]    the maps that a run of macheap printed, one row a map
    tools/pictures.py moves --script SCRIPT [OUTPUT]     the first two maps between which a handle's block moved
    tools/pictures.py fork FORK                          the bytes of a resource fork: each part has a colour
    tools/pictures.py block                              a handle, its master pointer and its block, before and after the block moves
    tools/pictures.py update                             an update with a journal: what is where in each step, and after a crash

OUTPUT is what the program printed (none: standard input). With --script, which is the script of that run, a row says which lines ran
before its map, and blocks have the names of the variables that took their handles and pointers. Widths are to scale. A label is drawn
where there is room for it; a browser shows a block's whole line where the pointer rests on it.

Of a fork rows in which each byte is a zero of the extra bytes are left out. The parts are those of docs/FORMAT.md, and have to be in
order. What can't be read is refused: then nothing is drawn and the exit status is 1.
"""
import argparse
import re
import struct
import sys
import textwrap
from xml.sax.saxutils import escape

MARGIN = 16
GREY, VIOLET, ORANGE, BLUE, GREEN = "#c9c9c9", "#c3b1dd", "#f0b35c", "#8fbdea", "#a9d8a9"
STYLE = (
    "<style>text{font-family:monospace;fill:#111}.label,.said{font-size:11px}.digits{font-size:12px}.letter{font-size:11px;fill:#444}"
    ".address{font-size:9px;fill:#444}.block,.header,.key,.box{stroke:#333;stroke-width:.7}.byte{stroke:#888;stroke-width:.5}"
    ".arrow{fill:none;stroke:#333}</style>"
)
DEFS = (
    '<defs><pattern id="free" width="7" height="7" patternUnits="userSpaceOnUse"><rect width="7" height="7" fill="#fff"/>'
    '<path d="M0 7L7 0" stroke="#ddd"/></pattern><marker id="tip" markerWidth="8" markerHeight="8" refX="7" refY="4" orient="auto">'
    '<path d="M0 0L8 4L0 8z" fill="#333"/></marker></defs>'
)


class NotRead(Exception):
    """What is given can't be drawn."""


def svg(width, height, drawn):
    """A picture of this size with these parts."""
    head = [
        f'<svg xmlns="http://www.w3.org/2000/svg" width="{width}" height="{height}" viewBox="0 0 {width} {height}">',
        STYLE,
        DEFS,
        f'<rect width="{width}" height="{height}" fill="#fff"/>',
    ]
    return "\n".join([*head, *drawn, "</svg>"]) + "\n"


def rectangle(x, y, width, height, kind, colour, title=""):
    """A rectangle, with the text that a browser shows where the pointer rests on it, if any."""
    end = f"><title>{escape(title)}</title></rect>" if title else "/>"
    return f'<rect x="{x:.1f}" y="{y:.1f}" width="{width:.1f}" height="{height:.1f}" class="{kind}" fill="{colour}"' + end


def draw_text(x, y, text, kind):
    return f'<text class="{kind}" x="{x:.1f}" y="{y:.1f}">{escape(text)}</text>'


def draw_legend(keys, top):
    """The meanings of colours: each a name, a colour, and whether it is that of a flag."""
    x = MARGIN
    for name, colour, is_flag in keys:
        yield rectangle(x, top + 4, 14, 5, "flag", colour) if is_flag else rectangle(x, top, 14, 14, "key", colour)
        yield draw_text(x + 20, top + 11, name, "said")
        x += 38 + 6.6 * len(name)


# ---- a zone ----
BLOCK = re.compile(
    r"  \$(?P<address>[0-9A-F]{8}) (?P<size>\d+) "
    r"(?:(?P<plain>free|master)|ptr (?P<bytes>\d+)|rel \$(?P<handle>[0-9A-F]{8}) (?P<length>\d+) (?P<flags>[L-][P-][R-]))"
)
REPLY = re.compile(r"(?P<number>\d+) (?P<call>[A-Za-z]\w*)(?P<results>(?: .*)?) (?P<code>0|-\d+)")
NO_REPLY = re.compile(r"script fault at line \d+|no memory|  gz \d+ \d+")
ASSIGNMENT = re.compile(r"[ \t]*(?P<name>[A-Za-z]\w*)[ \t]*=")

ZONE_HEADER = 52  # the bytes of a zone before its first block
BLOCK_HEADER = 8  # the bytes of a block before its contents

WIDTH = 1000  # of a whole zone, in pixels
BAR = 64
LETTER = 6.7  # the width of a letter of a label
SMALL_LETTER = 5.5  # and of an address
LETTERS = 145  # in a line over a row
NO_BREAK = "\u00a0"
KINDS = {
    "header": ("zone header", "#9a9a9a"),
    "master": ("master block", VIOLET),
    "ptr": ("block of a pointer", ORANGE),
    "rel": ("block of a handle", BLUE),
    "free": ("free", "url(#free)"),
}
FLAGS = {"L": ("locked", "#c0392b"), "P": ("purgeable", "#e8c500"), "R": ("resource", "#2e9e5b")}


class Block:
    def __init__(self, found, names):
        self.line = found[0].strip()
        self.address = int(found["address"], 16)
        self.size = int(found["size"])
        self.kind = found["plain"] or ("ptr" if found["bytes"] else "rel")
        self.length = found["bytes"] or found["length"]
        self.flags = (found["flags"] or "").replace("-", "")
        self.number = ""
        if self.kind == "rel":
            self.number = f"${found['handle']}"
        elif self.kind == "ptr":
            self.number = f"${self.address + BLOCK_HEADER:08X}"
        self.name = names.get(self.number, "")

    def labels(self):
        """The lines of the label, each as the texts that it may be, the longest first."""
        if self.kind == "master":
            return [["master block", "master"], [f"{self.size} bytes", f"{self.size}"]]
        if self.kind == "free":
            return [[f"{self.size} free", f"{self.size}"]]
        return [[self.name], [self.number], [f"{self.length} bytes", f"{self.length}"]]


class Map:
    def __init__(self, line, count, before):
        self.line, self.count, self.before = line, count, before
        self.blocks = []

    def add(self, block):
        if self.blocks:
            last = self.blocks[-1]
            if last.address + last.size != block.address:
                raise NotRead(f"'{block.line}' does not begin where the block before it ends")
        self.blocks.append(block)

    def base(self):
        return self.blocks[0].address - ZONE_HEADER

    def end(self):
        return self.blocks[-1].address + self.blocks[-1].size


def without_comment(line):
    """A line of a script without its comment, which begins at a # outside quotes."""
    at = re.match(r"""(?:"[^"]*"|'[^']*'|[^#"'])*""", line)
    return at[0].strip()


def read(output, script):
    """The maps of an output."""
    maps, names, before, wanted = [], {}, [], 0
    for line in output.split("\n")[:-1]:
        found = BLOCK.fullmatch(line)
        if wanted:
            if not found:
                raise NotRead(f"the map of line {maps[-1].line} has {maps[-1].count} blocks, and this is none: {line!r}")
            maps[-1].add(Block(found, names))
            wanted -= 1
            continue
        reply = REPLY.fullmatch(line)
        if NO_REPLY.fullmatch(line):
            continue
        if found or not reply:
            raise NotRead(f"this is no line that macheap prints: {line!r}")
        number, results = int(reply["number"]), reply["results"].strip()
        text = reply["call"]
        if script is not None:
            if not 0 < number <= len(script):
                raise NotRead(f"the script has no line {number}")
            text = without_comment(script[number - 1])
        if reply["call"] == "ZoneMap" and reply["code"] == "0":
            wanted = int(results)
            maps.append(Map(number, wanted, before))
            before = []
            continue
        before.append(text)
        if reply["call"].startswith("New") and reply["code"] == "0":
            assigned = ASSIGNMENT.match(text)
            names[results] = assigned["name"] if assigned else ""
    if output and not output.endswith("\n"):
        raise NotRead("the last line does not end")
    if wanted:
        raise NotRead(f"the map of line {maps[-1].line} lacks {wanted} of its {maps[-1].count} blocks")
    return [it for it in maps if it.blocks]


def draw_block(block, x, y, width):
    drawn = [rectangle(x, y, width, BAR, "block", KINDS[block.kind][1], block.line)]
    for row, (flag, (_, colour)) in enumerate(FLAGS.items()):
        if flag in block.flags:
            drawn.append(rectangle(x, y + 5 * row, width, 5, "flag", colour))
    below = y + 29
    for texts in block.labels():
        text = next((it for it in texts if it and LETTER * len(it) + 6 <= width), None)
        if text:
            drawn.append(draw_text(x + 4, below, text, "label"))
            below += 13
    return drawn


def draw_map(it, base, scale, top):
    """A row: which lines ran, the blocks, and the addresses of their headers; and where the next row begins."""
    said = f"line {it.line}: ZoneMap"
    if it.before:
        # (no line of the picture ends inside a line of the script)
        said += ", after " + "; ".join(text.replace(" ", NO_BREAK) for text in it.before)
    drawn, y = [], top
    for line in textwrap.wrap(said, LETTERS, max_lines=3, placeholder=" ..", break_on_hyphens=False):
        y += 15
        drawn.append(draw_text(MARGIN, y, line.replace(NO_BREAK, " "), "said"))
    y += 8
    place = lambda address: MARGIN + (address - base) * scale
    start = place(it.base())
    width = ZONE_HEADER * scale
    drawn.append(rectangle(start, y, width, BAR, "header", KINDS["header"][1], "zone header"))
    if LETTER * len("header") + 4 <= width:
        drawn.append(draw_text(start + 4, y + 29, "header", "label"))
    end = 0.0
    for block in it.blocks:
        x = place(block.address)
        drawn += draw_block(block, x, y, block.size * scale)
        label = f"${block.address:08X}"
        if x >= end:
            drawn.append(draw_text(x, y + BAR + 11, label, "address"))
            end = x + SMALL_LETTER * len(label) + 6
    return drawn, y + BAR + 26


def zone_picture(maps):
    base = min(it.base() for it in maps)
    scale = WIDTH / (max(it.end() for it in maps) - base)
    drawn, top = [], 4
    for it in maps:
        row, top = draw_map(it, base, scale, top)
        drawn += row
    keys = [(*it, False) for it in KINDS.values()] + [(*it, True) for it in FLAGS.values()]
    return svg(WIDTH + 2 * MARGIN, top + 28, [*drawn, *draw_legend(keys, top + 4)])


def maps_of(asked):
    """The maps that a run printed."""
    with open(0 if asked.file == "-" else asked.file, encoding="ascii", newline="\n") as it:
        output = it.read()
    script = None
    if asked.script:
        with open(asked.script, encoding="utf-8", errors="replace", newline="\n") as it:
            script = it.read().split("\n")
    maps = read(output, script)
    if not maps:
        raise NotRead("there is no map in it: let the script call ZoneMap")
    return maps


def zone(asked):
    """The picture of what a run printed."""
    return zone_picture(maps_of(asked))


# ---- blocks that move ----
LANE, BETWEEN = 30, 62  # the heights of a row's arrow, and of what is between the rows


def moved(before, after):
    """The blocks of handles that are in both maps, in two places: each as it was and as it is."""
    was = {it.number: it for it in before.blocks if it.kind == "rel"}
    return [(was[it.number], it) for it in after.blocks if it.number in was and was[it.number].address != it.address]


def draw_moved_row(it, place, y):
    """A row of blocks, with the zone's header before them."""
    yield rectangle(place(it.base()), y, place(it.blocks[0].address) - place(it.base()), BAR, "header", KINDS["header"][1], "zone header")
    for each in it.blocks:
        yield from draw_block(each, place(each.address), y, place(each.address + each.size) - place(each.address))


def draw_pointer(it, place, edge, lane):
    """The arrow from a handle's master pointer to its block, and the address that it has."""
    start, end = place(int(it.number[1:], 16)), place(it.address + BLOCK_HEADER)
    yield arrow(f"M{start:.1f} {edge}V{lane}H{end:.1f}V{edge}")
    yield draw_text(end + 5, lane + (11 if lane < edge else -3), f"${it.address + BLOCK_HEADER:08X}", "address")


def draw_band(old, new, place, top, low):
    """What joins a block's two places."""
    points = [(old.address, top), (old.address + old.size, top), (new.address + new.size, low), (new.address, low)]
    corners = " ".join(f"{place(address):.1f},{y}" for address, y in points)
    title = f"<title>{escape(old.name)} moves from ${old.address:08X} to ${new.address:08X}</title>"
    return f'<polygon points="{corners}" fill="{BLUE}" opacity="0.4">{title}</polygon>'


def moves_picture(before, after):
    """Two maps, one above the other, with what moved between them, and the arrow of the first such handle in both."""
    base = min(it.base() for it in (before, after))
    scale = WIDTH / (max(it.end() for it in (before, after)) - base)
    place = lambda address: MARGIN + (address - base) * scale
    pairs, top = moved(before, after), 22 + LANE
    (old, new), low = pairs[0], top + BAR + BETWEEN
    end, ran = low + BAR, "; ".join(after.before)
    drawn = [draw_text(MARGIN, 15, f"before {ran}: the master pointer of {old.name} has the address of its block", "said")]
    drawn += [*draw_moved_row(before, place, top), *draw_moved_row(after, place, low)]
    drawn += [draw_band(*pair, place, top + BAR, low) for pair in pairs]
    drawn += [*draw_pointer(old, place, top, top - 20), *draw_pointer(new, place, end, end + 20)]
    said = f"after it: the same master pointer, at {old.number}, has the new address; the handle and the bytes are as they were"
    drawn.append(draw_text(MARGIN, end + 44, said, "said"))
    keys = [(*KINDS[it], False) for it in ("header", "master", "rel", "free")]
    return svg(WIDTH + 2 * MARGIN, end + 86, [*drawn, *draw_legend(keys, end + 60)])


def moves(asked):
    """The picture of the first two maps of a run between which a handle's block moved."""
    maps = maps_of(asked)
    for before, after in zip(maps, maps[1:]):
        if moved(before, after):
            return moves_picture(before, after)
    raise NotRead("no block of a handle moves between two maps of it")


# ---- a fork ----
ROW = 16  # bytes of a row
BYTE = 40  # the width of a byte, in pixels
HEIGHT = 22  # of a row
LEFT = 80  # where the bytes begin
PARTS = {
    "header": ("header", GREY),
    "extra": ("extra bytes", "#f2f2f2"),
    "length": ("length of data", ORANGE),
    "data": ("data", "#f9dcae"),
    "map": ("map header", VIOLET),
    "types": ("types", BLUE),
    "references": ("references", "#c4def5"),
    "name": ("names", GREEN),
    "other": ("of no part", "#ffffff"),
}


def number(fork, at, size):
    """A big-endian number of so many bytes."""
    if at + size > len(fork):
        raise NotRead(f"it ends before byte {at + size}")
    return int.from_bytes(fork[at : at + size], "big")


def mark(parts, at, length, part):
    """Says that these bytes are of a part."""
    if at + length > len(parts):
        raise NotRead(f"its {PARTS[part][0]} at byte {at} end outside")
    parts[at : at + length] = [part] * length


def type_places(fork, types):
    """Where the entries of the type list are."""
    return [types + 2 + 8 * place for place in range((number(fork, types, 2) + 1) % 65536)]


def references(fork, types):
    """The references of a fork, in order: where each is, where its name is from the name list on, and its bytes from the data on."""
    for at in type_places(fork, types):
        first = types + number(fork, at + 6, 2)
        for place in range((number(fork, at + 4, 2) + 1) % 65536):
            yield first + 12 * place, number(fork, first + 12 * place + 2, 2), number(fork, first + 12 * place + 5, 3)


def parts_of(fork):
    """The part of each byte, and where letters are: in types, names and data."""
    if len(fork) < ROW:
        raise NotRead("it ends within the header")
    data, map_at, data_length, map_length = struct.unpack(">4I", fork[:ROW])
    if not 256 <= data <= data + data_length <= map_at <= map_at + map_length <= len(fork):
        raise NotRead("its parts are not in order")
    parts = ["other"] * len(fork)
    mark(parts, 0, ROW, "header")
    mark(parts, ROW, 240, "extra")
    mark(parts, map_at, 28, "map")
    types, names = (map_at + number(fork, map_at + at, 2) for at in (24, 26))
    places = type_places(fork, types)
    mark(parts, types, 2 + 8 * len(places), "types")
    for at, name, datum in references(fork, types):
        mark(parts, at, 12, "references")
        mark(parts, data + datum, 4, "length")
        mark(parts, data + datum + 4, number(fork, data + datum, 4), "data")
        if name != 0xFFFF:
            mark(parts, names + name, 1 + number(fork, names + name, 1), "name")
    letters = {at + more for at in places for more in range(4)}
    return parts, letters | {at for at, part in enumerate(parts) if part in ("data", "name")}


def draw_byte(byte, part, is_letter, x, y):
    """A byte: its digits, and the letter that it is, if any."""
    yield rectangle(x, y, BYTE, HEIGHT, "byte", PARTS[part][1])
    yield draw_text(x + 5, y + 15, f"{byte:02X}", "digits")
    if is_letter and 0x20 < byte < 0x7F:
        yield draw_text(x + 25, y + 15, chr(byte), "letter")


def fork_picture(fork):
    parts, letters = parts_of(fork)
    drawn, y, gap = [], MARGIN, False
    for first in range(0, len(fork), ROW):
        row = range(first, min(first + ROW, len(fork)))
        if all(parts[at] == "extra" and fork[at] == 0 for at in row):
            gap = True
            continue
        if gap:
            drawn.append(draw_text(LEFT, y + 12, ".. zeros ..", "digits"))
            y, gap = y + 18, False
        drawn.append(draw_text(MARGIN, y + 15, f"{first:06X}", "digits"))
        for at in row:
            drawn += draw_byte(fork[at], parts[at], at in letters, LEFT + BYTE * (at - first), y)
        y += HEIGHT
    drawn += draw_legend([(*PARTS[it], False) for it in dict.fromkeys(parts)], y + 12)
    return svg(LEFT + BYTE * ROW + MARGIN, y + 26 + MARGIN, drawn)


def fork(asked):
    """The picture of a file that is a resource fork and nothing else."""
    with open(asked.file, "rb") as it:
        return fork_picture(it.read())


# ---- a block ----
# a zone at $100000 after `h = NewHandle 100` alone, and after `NewPtr 20`: what ran, and where the block's header is
HEADER, MASTER_POINTER = "#dce9f7", 0x10003C
MOVES = [("h = NewHandle 100", 0x10013C), ("NewPtr 20, which moved the block", 0x100F94)]


def spaced(number):
    """A word of four bytes, as digits: the first byte apart."""
    first, *others = number.to_bytes(4, "big").hex(" ").upper().split()
    return f"{first} | {' '.join(others)}"


def arrow(path):
    return f'<path class="arrow" d="{path}" marker-end="url(#tip)"/>'


def draw_box(x, y, width, colour, text, above, below=""):
    """A box with a text, and what is said above it and below."""
    yield rectangle(x, y, width, 26, "box", colour)
    yield draw_text(x + 8, y + 17, text, "digits")
    yield draw_text(x, y - 6, above, "said")
    yield draw_text(x, y + 40, below, "letter")


def block(_):
    """The picture of a handle whose block moves."""
    drawn, y = [], MARGIN
    for ran, at in MOVES:
        drawn.append(draw_text(MARGIN, y + 11, f"after {ran}", "said"))
        y += 44
        drawn += draw_box(MARGIN, y, 92, GREY, f"${MASTER_POINTER:08X}", "h, a handle")
        drawn.append(arrow(f"M{MARGIN + 92} {y + 13}H177"))
        drawn += draw_box(178, y, 120, VIOLET, spaced(at + BLOCK_HEADER), f"at ${MASTER_POINTER:08X}", "flags | address")
        drawn.append(arrow(f"M298 {y + 13}H330V{y - 34}H583V{y - 20}"))
        drawn += draw_box(346, y, 118, HEADER, spaced(0x80 << 24 | 100 + BLOCK_HEADER), f"at ${at:08X}", "relocatable, 108")
        drawn += draw_box(464, y, 118, HEADER, "00 00 00 3C", "", "handle's offset")
        drawn += draw_box(582, y, 200, BLUE, "100 bytes", f"at ${at + BLOCK_HEADER:08X}", "contents")
        y += 60
    keys = [("handle", GREY), ("master pointer", VIOLET), ("header of the block", HEADER), ("its contents", BLUE)]
    return svg(800, y + 34, [*drawn, *draw_legend([(*it, False) for it in keys], y + 4)])


# ---- an update ----
OLD, NEW, EITHER, ANY = ("old fork", BLUE), ("new fork", GREEN), ("old or new", "#e6e6b0"), ("anything", "#ffffff")
SHUT, OPEN, CHANGING = ("shut", "#ffffff"), ("open", ORANGE), ("shut or open", "#f9dcae")
STEPS = ["1 shut the gate", "2 write the journal", "3 open the gate", "4 write the file", "5 shut the gate"]
LANES = {
    "gate of the journal": [("as it was, or shut", "#ffffff"), SHUT, CHANGING, OPEN, CHANGING],
    "fork in the journal": [("as it was", "#ffffff"), ANY, NEW, NEW, NEW],
    "the file": [OLD, OLD, OLD, ANY, NEW],
    "a start after a crash finds": [OLD, OLD, EITHER, NEW, NEW],
}


def update(_):
    """The picture of an update's steps, and of what is where while each is made."""
    drawn, column, left, y = [], 134, 204, MARGIN + 22
    drawn.append(draw_text(MARGIN, MARGIN + 11, "each step ends with a sync", "letter"))
    for at, step in enumerate(STEPS):
        drawn.append(draw_text(left + 6 + column * at, MARGIN + 11, step, "said"))
    for lane, cells in LANES.items():
        y += 12 if lane == list(LANES)[-1] else 0
        drawn.append(draw_text(MARGIN, y + 17, lane, "said"))
        for at, (text, colour) in enumerate(cells):
            drawn.append(rectangle(left + column * at, y, column, 26, "box", colour))
            drawn.append(draw_text(left + 6 + column * at, y + 17, text, "label"))
        y += 26
    return svg(left + column * len(STEPS) + MARGIN, y + MARGIN, drawn)


def main():
    words = argparse.ArgumentParser(description=__doc__, formatter_class=argparse.RawDescriptionHelpFormatter)
    kinds = words.add_subparsers(dest="kind", required=True)
    for kind in ("zone", "moves"):
        of_zone = kinds.add_parser(kind)
        of_zone.add_argument("--script", help="the script of the run", required=kind == "moves")
        of_zone.add_argument("file", nargs="?", default="-", help="what the run printed (none: standard input)")
    kinds.add_parser("fork").add_argument("file", help="a file that is a resource fork and nothing else")
    for kind in ("block", "update"):
        kinds.add_parser(kind)
    asked = words.parse_args()
    try:
        drawn = {"zone": zone, "moves": moves, "fork": fork, "block": block, "update": update}[asked.kind](asked)
    except (NotRead, OSError, UnicodeDecodeError) as error:
        print(f"tools/pictures.py: {asked.file}: {error}", file=sys.stderr)
        return 1
    sys.stdout.write(drawn)
    return 0


if __name__ == "__main__":
    sys.exit(main())
