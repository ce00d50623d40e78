"""Which bytes are a resource fork, and its rows, as a small model.

It is written from the rules of docs/FORMAT.md alone, and shares nothing with the program.
"""
import re
import struct

from model.messages import message, pattern

MOST_BYTES = 4194304
MOST_ROWS = 8192
# the most bytes of a fork, the most rows, the most bytes of all rows, and how many bytes of the map there must be for each row: for macheap,
# and for resfork, which reads what the format can say; there rows that share bytes have no more than the data, or than macheap reads
MACHEAP = (MOST_BYTES, MOST_ROWS, MOST_BYTES, 0)
FORMAT = (4294967295, 4194304, 268435456, 12)
WORDS = [(128, "bit7"), (64, "sysHeap"), (32, "purgeable"), (16, "locked"), (8, "protected"), (4, "preload"), (2, "changed"), (1, "bit0")]

# what is said of a fork, or of bytes of which nothing looks like one, by the first condition that doesn't hold, in the order in which they are looked at
MESSAGES = {
    "end": pattern("header", "unknown"),
    "parts": pattern("unknown", "data", "map", "map header", "long fork"),
    "types": pattern("type count", "type list", "same type"),
    "references": pattern("reference list"),
    "rows": pattern("row count"),
    "names": pattern("name"),
    "places": pattern("length", "datum"),
    "bytes": pattern("byte count"),
}


def told_of(condition, fork):
    """What is said of bytes that are no fork for this condition. Of a text, whose first bytes aren't zero, it may be that nothing is known."""
    if 0 in fork[:16] or len(fork) < 16:
        return MESSAGES[condition]
    return re.compile(f"{MESSAGES[condition].pattern}|{message('unknown')}\n")


class NoFork(Exception):
    """The bytes are no fork; the argument says which condition is the first that doesn't hold."""


def open_code(condition):
    """What macheap's OpenResFile answers where this condition doesn't hold: eofErr or mapReadErr."""
    return -39 if condition == "end" else -199


class Row:
    def __init__(self, kind, ident, name, attributes, data):
        self.kind, self.ident, self.name, self.attributes, self.data = kind, ident, name, attributes, data


def must(holds, condition):
    if not holds:
        raise NoFork(condition)


def read_fork(fork, limits=MACHEAP):
    """The rows that the bytes stand for, within these limits."""
    most_bytes, most_rows, most_together, map_each = limits
    must(len(fork) >= 16, "end")
    data_at, map_at, data_length, map_length = struct.unpack(">4I", fork[:16])
    must(len(fork) <= most_bytes and data_at + data_length <= len(fork) and map_at + map_length <= len(fork) and map_length >= 28, "parts")
    data, the_map = fork[data_at : data_at + data_length], fork[map_at : map_at + map_length]
    types_at, names_at = struct.unpack(">2H", the_map[24:28])
    must(types_at + 2 <= map_length, "types")
    types = (struct.unpack(">H", the_map[types_at : types_at + 2])[0] + 1) % 65536
    must(types_at + 2 + 8 * types <= map_length, "types")
    entries = [struct.unpack(">4s2H", the_map[at : at + 8]) for at in range(types_at + 2, types_at + 2 + 8 * types, 8)]
    must(len({kind for kind, _, _ in entries}) == types, "types")
    lists = [(kind, (less_one + 1) % 65536, types_at + offset) for kind, less_one, offset in entries]
    must(all(count == 0 or start + 12 * count <= map_length for _, count, start in lists), "references")
    total = sum(count for _, count, _ in lists)
    must(total <= most_rows and map_each * total <= map_length, "rows")
    references = [(kind, start + 12 * it) for kind, count, start in lists for it in range(count)]
    rows = []
    for kind, at in references:
        ident, offset, attributes = struct.unpack(">hHB", the_map[at : at + 5])
        name = None
        if offset != 0xFFFF:
            start = names_at + offset
            must(start < map_length and start + 1 + the_map[start] <= map_length, "names")
            name = the_map[start + 1 : start + 1 + the_map[start]]
        rows.append(Row(kind, ident, name, attributes, int.from_bytes(the_map[at + 5 : at + 8], "big")))
    for row in rows:
        must(row.data + 4 <= data_length, "places")
        length = int.from_bytes(data[row.data : row.data + 4], "big")
        must(row.data + 4 + length <= data_length, "places")
        row.data = data[row.data + 4 : row.data + 4 + length]
    if map_each:
        most_together = min(most_together, max(MOST_BYTES, data_length))
    must(sum(4 + len(row.data) for row in rows) <= most_together, "bytes")
    return rows


def shown(byte, quote, raw):
    """A byte as text: its character in MacRoman, with a backslash before a quote and a backslash, or digits."""
    if chr(byte) in (quote, "\\"):
        return "\\" + chr(byte)
    if 0x20 <= byte <= 0x7E:
        return chr(byte)
    return bytes([byte]).decode("mac_roman") if byte >= 0x80 and not raw else f"\\x{byte:02X}"


def quoted(quote, data, raw=False):
    """Bytes between quotes."""
    return quote + "".join(shown(byte, quote, raw) for byte in data) + quote


def column(kind, raw=False):
    """A type without blanks, but at its end."""
    bare = max(len(kind.rstrip(b" ")), 1)
    return "".join("\\x20" if byte == 0x20 else shown(byte, "'", raw) for byte in kind[:bare]) + " " * (4 - bare)


def line_of(row, raw):
    attributes = ",".join(word for bit, word in WORDS if row.attributes & bit) or "-"
    name = "" if row.name is None else " " + quoted('"', row.name, raw)
    return f"{column(row.kind, raw)} {row.ident:>6} {len(row.data):>8} {attributes}{name}\n"


def listing(rows, raw=False):
    return "".join(line_of(row, raw) for row in rows)


def types(rows):
    """The types in the order of their first rows, each with how many rows have it."""
    kinds = list(dict.fromkeys(row.kind for row in rows))
    return "".join(f"{column(kind)} {sum(row.kind == kind for row in rows):>6}\n" for kind in kinds)
