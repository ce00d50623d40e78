"""Changes of a table of resources, and what of a file is no resource fork, as a small model.

It is written from docs/FORMAT.md, docs/resfork.1 and the published formats of containers alone, and shares nothing with the program.
"""
import struct

from model.container import COMMENT, decoded, mac_binary_version
from model.fork import FORMAT, Row, read_fork


class Taken(Exception):
    """A type and an id are there already."""


class Missing(Exception):
    """A type and an id aren't there."""


def extra_of(fork):
    """The 240 bytes after the header and the map's attributes, which a change keeps."""
    if not fork:
        return bytes(240), 0
    map_at = struct.unpack(">I", fork[4:8])[0]
    return (fork[16:256] + bytes(240))[:240], struct.unpack(">H", fork[map_at + 22 : map_at + 24])[0]


def table_of(fork):
    """The rows of a fork, as tuples, and what else a table has."""
    return [as_tuple(row) for row in (read_fork(fork, FORMAT) if fork else [])], extra_of(fork)


def as_tuple(row):
    return row.kind, row.ident, row.name, row.attributes, row.data


def place(rows, kind, ident):
    """The place of the first row of this type and id, or None."""
    return next((at for at, row in enumerate(rows) if (row[0], row[1]) == (kind, ident)), None)


def with_row(rows, row):
    """The rows with one more, at the end of its type."""
    last = max((at for at, other in enumerate(rows) if other[0] == row[0]), default=len(rows) - 1)
    return rows[: last + 1] + [row] + rows[last + 1 :]


def put(rows, kind, ident, data, name=None, attributes=None, is_new=False):
    """The bytes take the place of those of the first such row; name and attributes stay unless they are given."""
    at = place(rows, kind, ident)
    if at is None:
        return with_row(rows, (kind, ident, name, attributes or 0, data))
    if is_new:
        raise Taken
    old = rows[at]
    row = (kind, ident, old[2] if name is None else name, old[3] if attributes is None else attributes, data)
    return rows[:at] + [row] + rows[at + 1 :]


def remove(rows, kind, idents):
    for ident in idents:
        at = place(rows, kind, ident)
        if at is None:
            raise Missing
        rows = rows[:at] + rows[at + 1 :]
    return rows


def changed(row, new_kind=None, new_ident=None, name=None, attributes=None):
    """The row with another type, id, name or attributes. A name of False takes the name away."""
    kind, ident, old_name, old_attributes, data = row
    return (
        kind if new_kind is None else new_kind,
        ident if new_ident is None else new_ident,
        old_name if name is None else (None if name is False else name),
        old_attributes if attributes is None else attributes,
        data,
    )


def set_row(rows, kind, ident, **what):
    """The first row of a type and id with another type, id, name or attributes; of another type, it goes to the end of that one."""
    at = place(rows, kind, ident)
    if at is None:
        raise Missing
    row = changed(rows[at], **what)
    others = rows[:at] + rows[at + 1 :]
    if (row[0], row[1]) != (kind, ident) and place(others, row[0], row[1]) is not None:
        raise Taken
    return with_row(others, row) if row[0] != kind else rows[:at] + [row] + rows[at + 1 :]


def copied(rows, more, taken=None):
    """The rows with more of another file, in their order; what becomes of those whose type and id are there says `taken`."""
    for row in more:
        at = place(rows, row[0], row[1])
        if at is None:
            rows = with_row(rows, row)
        elif taken == "replace":
            rows = rows[:at] + [row] + rows[at + 1 :]
        elif taken == "renumber":
            free = next(it for it in range(128, 32768) if place(rows, row[0], it) is None)
            rows = with_row(rows, (row[0], free, *row[2:]))
        elif taken != "skip":
            raise Taken
    return rows


def bin_hex_parts(file):
    """The header of a BinHex text but for its lengths, and both forks."""
    colon = file.index(b":", COMMENT.search(file).end())
    values, fault = decoded(file, colon + 1)
    assert not fault, fault
    end = values[0] + 20
    data, resource = struct.unpack(">II", values[end - 8 : end])
    start = end + 2 + data + 2
    return values[: end - 8], values[end + 2 : end + 2 + data], values[start : start + resource]


def rest(file):
    """What of a file is no resource fork: of each kind of container what it says beside it."""
    if file[:4] in (b"\0\5\x16\0", b"\0\5\x16\7"):
        count = struct.unpack(">H", file[24:26])[0]
        entries = [struct.unpack(">III", file[at : at + 12]) for at in range(26, 26 + 12 * count, 12)]
        return file[:24], [(kind, file[start : start + length]) for kind, start, length in entries if kind != 2]
    if version := mac_binary_version(file):
        data, resource, comment = struct.unpack(">IIxxxxxxxxH", file[83:101])
        start = 128 + -(-data // 128) * 128
        after = start + -(-resource // 128) * 128
        return version, file[:87], file[91:124], file[128 : 128 + data], file[after : after + comment]
    if COMMENT.search(file):
        return bin_hex_parts(file)[:2]
    return None
