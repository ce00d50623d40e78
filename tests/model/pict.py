"""Pictures in QuickDraw's language, written from Inside Macintosh: Imaging With QuickDraw, appendix A: their opcodes, and their dots.

A picture is a list of rows, each a list of colours (red, green, blue). Dots that nothing draws are white.
"""
import struct

END = 0xFF
MOST, MOST_OPCODES = 16777216, 1048576
WHITE, BLACK = (255, 255, 255), (0, 0, 0)

# how many bytes the operands of the opcodes below $30 have; a word says how others are counted
FIRST = [0, "sized", 8, 2, 1, 2, 4, 4, 2, 8, 8, 4, 4, 2, 4, 4, 8, 1, "pattern", "pattern", "pattern", 2, 2, 0, 0, 0, 6, 6, 0, 6, 0, 6]
FIRST += [8, 4, 6, 2] + [("counted", 0)] * 4 + [("text", 4), ("text", 1), ("text", 1), ("text", 2)] + [("counted", 0)] * 4


# the modes of maps that are drawn: srcCopy, and ditherCopy, which is the same in all colours
COPIES = (0, 64)

# what shapes are called, by the first digits of their opcodes, and what other things are that aren't drawn
SHAPES = {3: "rectangle", 4: "rounded rectangle", 5: "oval", 6: "arc", 7: "polygon", 8: "region"}
ORDER = ("line", *SHAPES.values(), "text", "map in another mode", "QuickTime image", "move of the origin")


class Wrong(Exception):
    """What isn't so of a picture: a word for it, and a number or a place."""


def shape(code):
    """How many bytes the operands of an opcode have, or how they are counted."""
    if code < 0x30:
        return FIRST[code]
    if code < 0x90:
        family, same = code >> 4, code & 8
        if family in (3, 4, 5):
            return 0 if same else 8
        if family == 6:
            return 4 if same else 12
        return 0 if same else "sized"
    if code in (0x90, 0x91, 0x98, 0x99, 0x9A, 0x9B):
        return ("bits", code)
    if code < 0xA0 or 0xA2 <= code < 0xB0:
        return ("counted", 0)
    if code == 0xA0:
        return 2
    if code == 0xA1:
        return ("counted", 2)
    if code < 0xD0 or code == END or 0x8000 <= code < 0x8100:
        return 0
    if code < END or code >= 0x8100:
        return "long"
    return (code >> 8) * 2


class Bytes:
    """The bytes of a picture; a place that they don't reach is wrong."""

    def __init__(self, data):
        self.data = data

    def to(self, end):
        if len(self.data) < end:
            raise Wrong("short", end)
        return end

    def number(self, at, count):
        self.to(at + count)
        return int.from_bytes(self.data[at : at + count], "big")

    def rect(self, at):
        return struct.unpack(">4h", self.data[at : self.to(at + 8)])


def sized(data, at):
    """Where a region or a polygon ends."""
    size = data.number(at, 2)
    if size < 10:
        raise Wrong("size", at)
    return data.to(at + size)


def row_end(data, at, row):
    """Where a packed row ends."""
    count = 2 if row > 250 else 1
    return data.to(data.to(at + count) + data.number(at, count))


class Bits:
    """A picture within a picture: its map, its colours, its rectangles, its mask, and where its rows are."""

    def __init__(self, data, at, code):
        direct = code in (0x9A, 0x9B)
        self.table = None
        if direct:
            at = self.pixel_map(data, at + 4)
            if self.depth < 16:
                raise Wrong("depth", at - 46 + 28)
        elif data.number(at, 2) & 0x8000:
            at = self.pixel_map(data, at)
            if self.depth > 8:
                raise Wrong("depth", at - 46 + 28)
            self.table, at = at, data.to(data.to(at + 8) + 8 * ((data.number(at + 6, 2) + 1) & 0xFFFF))
        else:
            data.to(at + 10)
            self.depth, self.at = 1, at
            self.measure(data, at)
            at += 10
        self.kept = self.packing(code)
        data.to(at + 18)
        self.source, self.target, self.mode = data.rect(at), data.rect(at + 8), data.number(at + 16, 2)
        at += 18
        self.mask = at if code & 1 else None
        self.start = sized(data, at) if code & 1 else at
        self.end = self.data_end(data)

    def pixel_map(self, data, at):
        data.to(at + 46)
        self.at, self.depth = at, data.number(at + 28, 2)
        if self.depth not in (1, 2, 4, 8, 16, 32):
            raise Wrong("depth", at + 28)
        self.pack_type, self.parts = data.number(at + 12, 2), data.number(at + 30, 2)
        self.measure(data, at)
        return at + 46

    def measure(self, data, at):
        self.row, self.bounds = data.number(at, 2) & 0x3FFF, data.rect(at + 2)
        top, left, bottom, right = self.bounds
        self.width, self.height = max(right - left, 0), max(bottom - top, 0)
        if 8 * self.row < self.depth * self.width:
            raise Wrong("row bytes", at)

    def packing(self, code):
        """How rows are kept: as they are, without padding, or in packed units of bytes, words or parts of dots."""
        if code in (0x90, 0x91) or self.row < 8:
            return "plain"
        if code in (0x98, 0x99):
            return "bytes"
        if self.pack_type == 1:
            return "plain"
        if self.depth == 16 and self.pack_type in (0, 3):
            return "words"
        if self.depth == 32 and self.pack_type == 2:
            return "no padding"
        if self.depth == 32 and self.pack_type in (0, 4):
            if self.parts not in (3, 4):
                raise Wrong("parts", self.at + 30)
            return "parts"
        raise Wrong("packing", self.at + 12)

    def data_end(self, data):
        if self.kept == "plain":
            return data.to(self.start + self.row * self.height)
        if self.kept == "no padding":
            return data.to(self.start + self.row // 4 * 3 * self.height)
        at = self.start
        for _ in range(self.height):
            at = row_end(data, at, self.row)
        return at

    def rows(self, data):
        """The bytes of each row."""
        at, rows = self.start, []
        for _ in range(self.height):
            if self.kept in ("plain", "no padding"):
                count = self.row if self.kept == "plain" else self.row // 4 * 3
                rows.append(data.data[at : at + count])
                at += count
            else:
                end = row_end(data, at, self.row)
                rows.append(unpack(data.data[at + (2 if self.row > 250 else 1) : end], 2 if self.kept == "words" else 1))
                at = end
        return rows

    def colour(self, data, row, x):
        """The colour of a dot of a row. What the row lacks is 0."""

        def byte(place):
            return row[place] if place < len(row) else 0

        if self.depth == 32:
            if self.kept == "parts":
                first = (self.parts - 3) * self.width + x
                return tuple(byte(first + part * self.width) for part in range(3))
            first = 3 * x if self.kept == "no padding" else 4 * x + 1
            return tuple(byte(first + part) for part in range(3))
        if self.depth == 16:
            word = byte(2 * x) << 8 | byte(2 * x + 1)
            return tuple((part << 3) | (part >> 2) for part in (word >> 10 & 31, word >> 5 & 31, word & 31))
        place = x * self.depth
        value = byte(place >> 3) >> (8 - self.depth - (place & 7)) & ((1 << self.depth) - 1)
        if self.table is None:
            return BLACK if value else WHITE
        return self.entry(data, value)

    def entry(self, data, value):
        """The colour of a value: of its place in the table, or of the last entry that has it."""
        count, first = (data.number(self.table + 6, 2) + 1) & 0xFFFF, self.table + 8
        if data.number(self.table + 4, 2) & 0x8000:
            found = value if value < count else None
        else:
            found = max((place for place in range(count) if data.number(first + 8 * place, 2) == value), default=None)
        return BLACK if found is None else tuple(data.data[first + 8 * found + part] for part in (2, 4, 6))


def unpack(packed, unit=1):
    """What PackBits packed, in units of so many bytes."""
    out, at = b"", 0
    while at < len(packed):
        code = packed[at]
        at += 1
        if code < 128:
            out += packed[at : at + (code + 1) * unit]
            at += (code + 1) * unit
        elif code > 128:
            out += packed[at : at + unit] * (257 - code)
            at += unit
    return out


def pack(row, unit=1):
    """A row as PackBits packs it, in runs and in pieces."""
    out, units = b"", [row[at : at + unit] for at in range(0, len(row), unit)]
    at = 0
    while at < len(units):
        end = at
        while end < len(units) and end - at < 128 and units[end] == units[at]:
            end += 1
        if end - at > 1:
            out += bytes([257 - (end - at)]) + units[at]
        else:
            while end < len(units) and end - at < 128 and units[end] != units[end - 1]:
                end += 1
            out += bytes([end - at - 1]) + b"".join(units[at:end])
        at = end
    return out


def end_of(data, at, kind):
    """Where operands of a shape end."""
    if isinstance(kind, int):
        return data.to(at + kind)
    if kind == "sized":
        return sized(data, at)
    if kind == "long":
        return data.to(data.to(at + 4) + data.number(at, 4))
    if kind == "pattern":
        return pattern_end(data, at)
    what, number = kind
    if what == "bits":
        return Bits(data, at, number).end
    count = 1 if what == "text" else 2
    return data.to(data.to(at + number + count) + data.number(at + number, count))


def pattern_end(data, at):
    """Where a pattern in colour ends."""
    kind = data.number(at, 2)
    if kind == 2:
        return data.to(at + 16)
    if kind != 1:
        raise Wrong("pattern", at)
    bits = Bits.__new__(Bits)
    table = bits.pixel_map(data, at + 10)
    if bits.depth > 8:
        raise Wrong("depth", at + 38)
    bits.start = data.to(data.to(table + 8) + 8 * ((data.number(table + 6, 2) + 1) & 0xFFFF))
    bits.kept = "plain" if bits.row < 8 else "bytes"
    return bits.data_end(data)


def opcodes(resource):
    """The frame, and each opcode: its place, its number, and where its operands begin and end."""
    data = Bytes(resource)
    if len(resource) > MOST:
        raise Wrong("large", None)
    data.to(12)
    if resource[10:12] == b"\x11\x01":
        wide, at = 1, 12
    else:
        data.to(14)
        if resource[10:14] != b"\0\x11\x02\xff":
            raise Wrong("version", 10)
        wide, at = 2, 14
    found = []
    while len(found) < MOST_OPCODES:
        code = data.number(at, wide)
        end = end_of(data, at + wide, shape(code))
        found.append((at, code, at + wide, end))
        if code == END:
            return data.rect(2), found
        at = end + end % 2 * (wide - 1)
    raise Wrong("many", None)


class Region:
    """A region: its rectangle, and its points, at each of which all to the right of it and below it turns over."""

    def __init__(self, data, at):
        size = data.number(at, 2)
        self.box = data.rect(at + 2)
        words = struct.unpack(f">{(size - 10) // 2}h", data.data[at + 10 : at + 10 + (size - 10) // 2 * 2])
        self.points, row = None if size <= 10 else [], None
        for word in words:
            if word == 0x7FFF:
                if row is None:
                    break
                row = None
            elif row is None:
                row = word
            else:
                self.points.append((row, word))

    def has(self, x, y):
        top, left, bottom, right = self.box
        within = top <= y < bottom and left <= x < right
        return within and (self.points is None or sum(row <= y and column <= x for row, column in self.points) % 2 == 1)


def is_map(code):
    """Whether an opcode has a map."""
    return isinstance(shape(code), tuple) and shape(code)[0] == "bits"


def undrawn(data, code, start):
    """What an opcode would draw that isn't drawn, if anything."""
    if 0x20 <= code <= 0x23:
        return "line"
    if 0x28 <= code <= 0x2B:
        return "text"
    if code >> 4 in SHAPES and code & 7 < 5:
        return SHAPES[code >> 4]
    if is_map(code) and Bits(data, start, code).mode not in COPIES:
        return "map in another mode"
    if code in (0x8200, 0x8201):
        return "QuickTime image"
    return "move of the origin" if code == 0x0C and data.number(start, 4) else None


def several(name):
    """What several of a kind are called."""
    if name == "map in another mode":
        return "maps in other modes"
    return "moves of the origin" if name == "move of the origin" else name + "s"


def left(resource):
    """What of a picture isn't drawn, in words; none where all is. It is wrong where none of it is drawn."""
    data, found = Bytes(resource), opcodes(resource)[1]
    names = [undrawn(data, code, start) for _, code, start, _ in found]
    counts = [(names.count(name), name) for name in ORDER if name in names]
    parts = [f"{count} {name if count == 1 else several(name)}" for count, name in counts]
    told = " and ".join(it for it in (", ".join(parts[:-1]), *parts[-1:]) if it)
    if told and not any(is_map(code) and name is None for name, (_, code, _, _) in zip(names, found)):
        raise Wrong("nothing", told)
    return told


def dots(resource):
    """The picture: each dot is the last opcode's that covers it within the clip, else white."""
    (top, left, bottom, right), found = opcodes(resource)
    data = Bytes(resource)
    rows = [[WHITE] * max(right - left, 0) for _ in range(max(bottom - top, 0))]
    clip = None
    for _, code, start, _ in found:
        if code == 1:
            clip = Region(data, start)
        elif is_map(code) and (bits := Bits(data, start, code)).mode in COPIES:
            copy(data, bits, clip, rows, top, left)
    return rows


def copy(data, bits, clip, rows, frame_top, frame_left):
    """Draws a picture within a picture."""
    mask = None if bits.mask is None else Region(data, bits.mask)
    top, left, bottom, right = bits.target
    source_top, source_left, source_bottom, source_right = bits.source
    bounds_top, bounds_left = bits.bounds[:2]
    lines = bits.rows(data)
    for y in range(max(top, frame_top), min(bottom, frame_top + len(rows))):
        down = source_top + (y - top) * max(source_bottom - source_top, 0) // (bottom - top) - bounds_top
        for x in range(max(left, frame_left), min(right, frame_left + len(rows[0]))):
            along = source_left + (x - left) * max(source_right - source_left, 0) // (right - left) - bounds_left
            if 0 <= down < bits.height and 0 <= along < bits.width:
                if all(region is None or region.has(x, y) for region in (mask, clip)):
                    rows[y - frame_top][x - frame_left] = bits.colour(data, lines[down], along)


def rect(top, left, bottom, right):
    return struct.pack(">4h", top, left, bottom, right)


def picture(frame, some, version=2):
    """A picture of opcodes, each with its operands."""
    out = bytes(2) + rect(*frame) + (b"\x11\x01" if version == 1 else b"\0\x11\x02\xff")
    for code, operands in some + [(END, b"")]:
        if version == 1:
            out += bytes([code]) + operands
        else:
            out += struct.pack(">H", code) + operands + bytes(len(operands) % 2)
    return out


def region(box, *lines):
    """A region: its rectangle, and lines of a row and columns, if it has some."""
    words = [it for line in lines for it in (*line, 0x7FFF)] + ([0x7FFF] if lines else [])
    return struct.pack(">H", 10 + 2 * len(words)) + rect(*box) + struct.pack(f">{len(words)}h", *words)


def pixel_map(row, bounds, depth, packing=0, parts=1):
    """A pixel map, without the address before it."""
    each = min(depth, 8) if depth != 16 else 5
    return struct.pack(">H", row | 0x8000) + rect(*bounds) + struct.pack(">2H3I4H3I", 0, packing, 0, 72 << 16, 72 << 16, 16 if depth > 8 else 0, depth, parts, each, 0, 0, 0)


def table(colours, in_order, rng):
    """A table of colours: in their order, or each with its value, by chance."""
    order = list(range(len(colours)))
    if not in_order:
        rng.shuffle(order)
    entries = b"".join(struct.pack(">4H", 0 if in_order else value, *(part * 257 for part in colours[value])) for value in order)
    return struct.pack(">I2H", 0, 0x8000 if in_order else 0, len(colours) - 1) + entries


def spread(part):
    """A part of five bits as one of eight."""
    return part << 3 | part >> 2


class Drawn:
    """An opcode with a map whose dots are chosen by chance: its number, its operands, and the colours of its dots."""

    def __init__(self, rng, code, depth, bounds, row=None, packing=0, parts=3, flat=False, in_order=False, **frames):
        top, left, bottom, right = bounds
        self.code, self.depth, self.packing, self.parts = code, depth, packing, parts
        self.width, self.height = right - left, bottom - top
        self.row = row or (self.width * depth + 15) // 16 * 2
        if depth > 8:
            front = b"\0\0\0\xff" + pixel_map(self.row, bounds, depth, packing, parts)
            rows = self.direct(rng)
        else:
            colours = [WHITE, BLACK] if flat else [tuple(rng.randrange(256) for _ in range(3)) for _ in range(1 << depth)]
            front = struct.pack(">H", self.row) + rect(*bounds) if flat else pixel_map(self.row, bounds, depth) + table(colours, in_order, rng)
            rows = self.indexed(rng, colours)
        source, target = frames.get("source", bounds), frames.get("target", bounds)
        places = rect(*source) + rect(*target) + struct.pack(">H", frames.get("mode", 0))
        self.opcode = (code, front + places + frames.get("mask", b"") + b"".join(rows))

    def indexed(self, rng, colours):
        """Rows of places in a table, packed where they are."""
        values = [[rng.randrange(len(colours)) if rng.random() < 0.5 else 1 for _ in range(self.width)] for _ in range(self.height)]
        self.dots = [[colours[value] for value in line] for line in values]
        lines = ("".join(f"{value:0{self.depth}b}" for value in line).ljust(8 * self.row, "0") for line in values)
        return [self.kept(int(line, 2).to_bytes(self.row, "big"), 1, self.code < 0x98) for line in lines]

    def direct(self, rng):
        """Rows of colours, as their packing has them."""
        if self.depth == 16:
            words = [[rng.randrange(32768) if rng.random() < 0.5 else 0x1234 for _ in range(self.width)] for _ in range(self.height)]
            self.dots = [[tuple(spread(word >> shift & 31) for shift in (10, 5, 0)) for word in line] for line in words]
            return [self.kept(struct.pack(f">{self.width}H", *line).ljust(self.row, b"\0"), 2, self.packing == 1) for line in words]
        self.dots = [[tuple(rng.randrange(256) for _ in range(3)) if rng.random() < 0.5 else (1, 2, 3) for _ in range(self.width)] for _ in range(self.height)]
        if self.packing == 1 or self.row < 8:
            return [b"".join(b"\x55" + bytes(dot) for dot in line).ljust(self.row, b"\0") for line in self.dots]
        if self.packing == 2:
            return [b"".join(map(bytes, line)).ljust(self.row // 4 * 3, b"\0") for line in self.dots]
        planes = [b"\x55" * self.width * (self.parts - 3) + b"".join(bytes(dot[part] for dot in line) for part in range(3)) for line in self.dots]
        return [self.kept(line, 1, False) for line in planes]

    def kept(self, line, unit, is_plain):
        """A row as it is, or packed after its count."""
        if is_plain or self.row < 8:
            return line
        packed = pack(line, unit)
        return len(packed).to_bytes(2 if self.row > 250 else 1, "big") + packed
