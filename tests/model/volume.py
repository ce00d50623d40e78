"""Volumes of old Macintosh disks and images of them, written and read by the books' formats: HFS, MFS, partition maps, DiskCopy 4.2.

The writer makes volumes of files and folders, and the reader finds these again by what their bytes say, along the leaves of the catalog:
what is listed, each with its path, and the bytes of each fork.
"""
import datetime
import struct
from dataclasses import dataclass, field

BLOCK = 512
EPOCH = datetime.date(1904, 1, 1)
# 1991-07-14 and 1990-01-01
CREATED, CHANGED = 0xA8000000, 0xA8000000 + 86400 * 500


@dataclass
class File:
    """A file. `pieces` is in how many runs of blocks each fork is, with a block between two of them."""
    name: bytes
    data: bytes = b""
    resource: bytes = b""
    kind: bytes = b"TEXT"
    creator: bytes = b"ttxt"
    flags: int = 0
    pieces: int = 1


@dataclass
class Folder:
    """A folder."""
    name: bytes
    items: list = field(default_factory=list)


def day(seconds):
    """A date as `ls` shows it."""
    return f"{EPOCH + datetime.timedelta(seconds=seconds)}" if seconds else f"{'-':>10}"


def even(row):
    return row + b"\0" * (len(row) % 2)


def filled(row, length):
    assert len(row) <= length, (row, length)
    return row + bytes(length - len(row))


def text(name, length):
    """A name with its length before it, and zeros after it."""
    return filled(bytes([len(name)]) + name, length)


# ---- trees

def node(kind, height, rows, after=0, before=0):
    """A node of a tree."""
    places, row_bytes = [14], b""
    for row in rows:
        row_bytes += row
        places.append(14 + len(row_bytes))
    offsets = b"".join(struct.pack(">H", place) for place in reversed(places))
    head = struct.pack(">IIBBHH", after, before, kind, height, len(rows), 0)
    return filled(head + row_bytes, BLOCK - len(offsets)) + offsets


def in_nodes(rows):
    """Rows in as many nodes as they need: lists of them."""
    lists, room = [], 0
    for row in rows:
        if len(row) + 2 > room:
            lists.append([])
            room = BLOCK - 14 - 2
        lists[-1].append(row)
        room -= len(row) + 2
    return lists


def tree(rows, key_length):
    """The nodes of a tree with these rows of keys and data, sorted."""
    levels, level = [], [(key, even(key) + data) for key, data in rows]
    keys = [key for key, _ in level]
    while level:
        lists, firsts, at = in_nodes([row for _, row in level]), [], 0
        for one in lists:
            firsts.append(keys[at])
            at += len(one)
        levels.append(lists)
        if len(lists) == 1:
            break
        number = 1 + sum(len(others) for others in levels[:-1])
        keys = firsts
        level = [(key, even(bytes([37]) + filled(key[1:], 37) if key_length == 37 else key) + struct.pack(">I", number + it))
                 for it, key in enumerate(firsts)]
    nodes, number = [], 1
    for height, lists in enumerate(levels, 1):
        for it, one in enumerate(lists):
            after = number + 1 if it + 1 < len(lists) else 0
            before = number - 1 if it else 0
            nodes.append(node(255 if height == 1 else 0, height, one, after, before))
            number += 1
    root, leaves = (number - 1, len(levels[0])) if levels else (0, 0)
    used = bytes((0xFF if 8 * it + 8 <= number else 0xFF00 >> max(0, number - 8 * it) & 0xFF) for it in range(256))
    head = struct.pack(">HIIIIHHII", len(levels), root, len(rows), 1 if leaves else 0, leaves, BLOCK, key_length, number, 0) + bytes(76)
    return [node(1, 0, [head, bytes(128), used])] + nodes


# ---- HFS

class Room:
    """The allocation blocks of a volume, taken one after another."""

    def __init__(self, size):
        self.size, self.blocks = size, []

    def take(self, content, pieces=1):
        """Puts bytes into runs of blocks: the extents."""
        size, extents = self.size, []
        count = -(-len(content) // size)
        each = -(-count // pieces) if count else 1
        for first in range(0, count, each):
            if first and pieces > 1:
                self.blocks.append(bytes(size))
            some = content[first * size:(first + each) * size]
            extents.append((len(self.blocks), -(-len(some) // size)))
            self.blocks += [filled(some[at:at + size], size) for at in range(0, len(some), size)]
        return extents


def extents_of(extents):
    """Three extents."""
    return b"".join(struct.pack(">HH", *one) for one in (list(extents[:3]) + [(0, 0)] * 3)[:3])


class Writer:
    """The rows of a catalog and of an extents tree."""

    def __init__(self, size):
        self.room, self.rows, self.extents, self.next_id = Room(size), [], [], 16
        self.files = self.folders = 0

    def add(self, parent, name, data):
        self.rows.append((parent, name, data))

    def new_id(self):
        self.next_id += 1
        return self.next_id - 1

    def fork(self, number, kind, content, pieces):
        """Puts a fork into the room: its three extents, with the rest in the extents tree."""
        extents = self.room.take(content, pieces)
        start = sum(count for _, count in extents[:3])
        for at in range(3, len(extents), 3):
            some = extents[at:at + 3]
            self.extents.append((struct.pack(">BBIH", 7, kind, number, start), extents_of(some)))
            start += sum(count for _, count in some)
        return extents_of(extents)

    def file(self, parent, one):
        number, size = self.new_id(), self.room.size
        data, resource = (self.fork(number, kind, fork, one.pieces) for kind, fork in ((0, one.data), (255, one.resource)))
        lengths = [(len(fork), -(-len(fork) // size) * size) for fork in (one.data, one.resource)]
        body = struct.pack(">BBBB4s4sH6sIHIIHIIIII", 2, 0, 0x80, 0, one.kind, one.creator, one.flags, bytes(6), number,
                           0, *lengths[0], 0, *lengths[1], CREATED, CHANGED, 0)
        self.add(parent, one.name, body + bytes(16) + bytes(2) + data + resource + bytes(4))
        self.files += 1

    def folder(self, parent, one, number):
        body = struct.pack(">BBHHIIII", 1, 0, 0, len(one.items), number, CREATED, CHANGED, 0)
        self.add(parent, one.name, filled(body, 70))
        self.add(number, b"", filled(struct.pack(">BB8sI", 3, 0, bytes(8), parent) + text(one.name, 32), 46))
        for item in one.items:
            if isinstance(item, Folder):
                self.folders += 1
                self.folder(number, item, self.new_id())
            else:
                self.file(number, item)


def catalog_key(parent, name):
    return struct.pack(">BBIB", 6 + len(name), 0, parent, len(name)) + name


def hfs(name, items, size=BLOCK, blocks=None):
    """A volume of HFS with these files and folders, in allocation blocks of this size."""
    writer = Writer(size)
    root = Folder(name, items)
    writer.folder(1, root, 2)
    rows = sorted(writer.rows, key=lambda row: (row[0], row[1].lower(), row[1]))
    extents_tree = b"".join(tree(sorted(writer.extents), 7))
    catalog = b"".join(tree([(catalog_key(parent, own), data) for parent, own, data in rows], 37))
    room = writer.room
    extents_places, catalog_places = room.take(extents_tree), room.take(catalog)
    count = max(len(room.blocks), blocks or 0)
    bitmap_blocks = -(-count // (8 * BLOCK))
    start = 3 + bitmap_blocks
    used = filled(b"\xFF" * (len(room.blocks) // 8) + bytes([0xFF00 >> len(room.blocks) % 8 & 0xFF]), bitmap_blocks * BLOCK)
    mdb = struct.pack(">HIIHHHHHIIHIH", 0x4244, CREATED, CHANGED, 0x100, sum(isinstance(it, File) for it in items), 3, 0, count, size, size, start,
                      writer.next_id, count - len(room.blocks)) + text(name, 28)
    mdb += struct.pack(">IHIIIHII", 0, 0, 0, size, size, sum(isinstance(it, Folder) for it in items), writer.files, writer.folders)
    mdb += bytes(32) + bytes(6)
    for content, places in ((extents_tree, extents_places), (catalog, catalog_places)):
        mdb += struct.pack(">I", len(content)) + extents_of(places)
    mdb = filled(mdb, BLOCK)
    rest = b"".join(room.blocks) + bytes((count - len(room.blocks)) * size)
    return bytes(2 * BLOCK) + mdb + used + rest + mdb + bytes(BLOCK)


# ---- MFS

def mfs(name, files, blocks=40, size=1024):
    """A volume of MFS with these files."""
    room, entries, numbers = [], b"", [0] * blocks
    for number, one in enumerate(files, 1):
        firsts = []
        for fork in (one.data, one.resource):
            count = -(-len(fork) // size)
            first = len(room) + 2
            for it in range(count):
                numbers[first - 2 + it] = first + it + 1 if it + 1 < count else 1
                room.append(filled(fork[it * size:(it + 1) * size], size))
            firsts += [first if count else 0, len(fork), count * size]
        entry = struct.pack(">BB4s4sH6sI", 0x80, 0, one.kind, one.creator, one.flags, bytes(6), number)
        entry = even(entry + struct.pack(">HIIHIIII", *firsts, CREATED, CHANGED) + bytes([len(one.name)]) + one.name)
        if len(entries) % BLOCK + len(entry) > BLOCK:
            entries = filled(entries, -(-len(entries) // BLOCK) * BLOCK)
        entries += entry
    entries = filled(entries, max(1, -(-len(entries) // BLOCK)) * BLOCK)
    the_map = b"".join(struct.pack(">I", (numbers[it] << 12 | numbers[it + 1]) << 8)[:3] for it in range(0, blocks, 2))
    start = 4 + len(entries) // BLOCK
    info = struct.pack(">HIIHHHHHIIHIH", 0xD2D7, CREATED, CHANGED, 0, len(files), 4, len(entries) // BLOCK, blocks, size, size, start,
                       len(files) + 1, blocks - len(room)) + text(name, 28)
    info = filled(info + the_map, 2 * BLOCK)
    return bytes(2 * BLOCK) + info + entries + filled(b"".join(room), blocks * size)


# ---- images

def disk_copy(volume, name=b"Disk"):
    """An image of DiskCopy 4.2."""
    total = 0
    for (number,) in struct.iter_unpack(">H", volume):
        total = (total + number) & 0xFFFFFFFF
        total = total >> 1 | (total & 1) << 31
    return text(name, 64) + struct.pack(">IIIIBBH", len(volume), 0, total, 0, 1, 0x22, 0x100) + volume


def disk_map(volumes, step=BLOCK):
    """A disk with a partition map, in blocks of this size: of each volume its type and its bytes."""
    at, parts, content = 1 + len(volumes) + 1, [(b"Apple_partition_map", b"Apple", 1, len(volumes) + 1)], b""
    for number, (kind, volume) in enumerate(volumes):
        volume = filled(volume, -(-len(volume) // step) * step)
        parts.append((kind, b"part %d" % number, at, len(volume) // step))
        at += len(volume) // step
        content += volume
    entries = b"".join(
        filled(struct.pack(">HHIII", 0x504D, 0, len(parts), first, count) + filled(own, 32) + filled(kind, 32) + struct.pack(">II", 0, count), step)
        for kind, own, first, count in parts)
    return filled(struct.pack(">HHI", 0x4552, step, at), step) + entries + content


# ---- what a volume of HFS says

class NotRead(Exception):
    """A volume isn't read."""


class Reader:
    """A volume of HFS, by its bytes."""

    def __init__(self, volume):
        self.volume = volume
        mdb = volume[2 * BLOCK:3 * BLOCK]
        if mdb[:2] != b"BD":
            raise NotRead("no master directory block")
        self.count, self.size = struct.unpack_from(">HI", mdb, 18)
        self.start, = struct.unpack_from(">H", mdb, 28)
        self.overflow = {}
        for key, data in self.rows(self.bytes_at(struct.unpack_from(">6H", mdb, 134), struct.unpack_from(">I", mdb, 130)[0])):
            kind, number, first = struct.unpack_from(">BIH", key, 1)
            self.overflow[kind, number, first] = struct.unpack_from(">6H", data)
        length, = struct.unpack_from(">I", mdb, 146)
        catalog = self.fork(4, 0, struct.unpack_from(">6H", mdb, 150), length)
        self.entries = [(struct.unpack_from(">I", key, 2)[0], key[7:7 + key[6]], data) for key, data in self.rows(catalog)]
        self.folders = {}
        for parent, name, data in self.entries:
            if data[0] == 1:
                self.folders.setdefault(struct.unpack_from(">I", data, 6)[0], (parent, name))

    def bytes_at(self, extents, length):
        """The bytes of these extents, up to a length."""
        content = b""
        for first, count in zip(extents[::2], extents[1::2]):
            at = self.start * BLOCK + first * self.size
            content += self.volume[at:at + count * self.size]
        return content[:length]

    def fork(self, number, kind, extents, length):
        """The bytes of a fork."""
        needed, found, have = -(-length // self.size), [], 0
        while have < needed:
            if not sum(extents[1::2]):
                raise NotRead("its extents have fewer bytes")
            found += extents
            have += sum(extents[1::2])
            extents = self.overflow.get((kind, number, have), (0,) * 6)
        return self.bytes_at(found, length)

    @staticmethod
    def rows(file):
        """The rows of a tree's leaves, as keys and data."""
        number = struct.unpack_from(">I", file, 24)[0] if file else 0
        while number:
            one = file[number * BLOCK:(number + 1) * BLOCK]
            if len(one) < BLOCK or one[8] != 255:
                raise NotRead(f"node {number} is no leaf")
            count, = struct.unpack_from(">H", one, 10)
            places = [struct.unpack_from(">H", one, BLOCK - 2 * it - 2)[0] for it in range(count + 1)]
            for first, end in zip(places, places[1:]):
                row = one[first:end]
                yield row[:1 + row[0]], row[(row[0] + 2) // 2 * 2:]
            number, = struct.unpack_from(">I", one, 0)

    def path(self, parent, name):
        """The names on the way to a thing, if there is one."""
        names = [name]
        while parent != 2:
            if parent not in self.folders or len(names) > 255:
                return None
            parent, folder = self.folders[parent]
            names.append(folder)
        return names[::-1]

    def things(self):
        """Folders and files with their paths, in the order of the catalog: (path, data)."""
        for parent, name, data in self.entries:
            path = self.path(parent, name) if data[0] in (1, 2) else None
            if path and parent != 1:
                yield path, data

    def forks(self, data):
        """The data and the resource fork of a file's record."""
        number, = struct.unpack_from(">I", data, 20)
        lengths = struct.unpack_from(">I", data, 26)[0], struct.unpack_from(">I", data, 36)[0]
        return [self.fork(number, kind, struct.unpack_from(">6H", data, at), length) for kind, at, length in ((0, 74, lengths[0]), (255, 86, lengths[1]))]
