"""Resource files over a zone, as a small model.

It is written from the rules of docs/SCRIPT.md and docs/DESIGN.md alone, and shares nothing with the program: a file is a list of rows, a disk
the bytes of a fork.
"""
import struct

from model.fork import MOST_BYTES, MOST_ROWS, NoFork, read_fork
from model.zone import CALLS, LENT, LOCK, PARAM, PURGE, RESOURCE, Refused, Zone, address, shown

DISK_FULL, NOT_FOUND, NO_FILE, NO_SUCH_FILE = -34, -192, -193, -43
ADD_FAILED, REMOVE_FAILED, ATTRIBUTE, MAP_READ, END = -194, -196, -198, -199, -39
PURGEABLE, LOCKED, PROTECTED, CHANGED = 32, 16, 8, 2


def shown_type(kind):
    if all(0x20 <= it <= 0x7E and it != 0x27 for it in kind):
        return "'" + kind.decode() + "'"
    return '$"' + kind.hex().upper() + '"'


class Row:
    """A resource of an open file: its bytes on the disk, and its handle, if it has one."""

    def __init__(self, kind, ident, name, attributes, disk, handle=None):
        self.kind, self.ident, self.name, self.attributes, self.disk, self.handle = kind, ident, name, attributes, disk, handle


class File:
    """An open file: its number, its rows, the extra bytes and the map's attributes."""

    def __init__(self, number, rows, extra=bytes(240), map_attributes=0):
        self.number, self.rows, self.extra, self.map_attributes = number, rows, extra, map_attributes

    def types(self):
        """The types, in the order of their first rows."""
        return list(dict.fromkeys(row.kind for row in self.rows))

    def of_type(self, kind):
        return [row for row in self.rows if row.kind == kind]

    def names_at(self):
        """Where the name list begins in the map."""
        return 30 + 8 * len(self.types()) + 12 * len(self.rows)

    def fits(self):
        """Whether two bytes hold each offset of the map, and a fork the number of rows."""
        at = 0
        for row in self.rows:
            if row.name is not None and at > 65534:
                return False
            at += 0 if row.name is None else 1 + len(row.name)
        return len(self.rows) <= MOST_ROWS and self.names_at() <= 65535

    def add(self, row):
        """A new row goes after the last one of its type, or last."""
        same = [index for index, it in enumerate(self.rows) if it.kind == row.kind]
        self.rows.insert(same[-1] + 1 if same else len(self.rows), row)

    def fork(self, disk_bytes):
        """The fork that is written, where this gives the bytes of each row."""
        data = references = names = b""
        for row in self.rows:
            name_at = 0xFFFF if row.name is None else len(names)
            references += struct.pack(">hHB", row.ident, name_at, row.attributes & ~CHANGED)
            references += len(data).to_bytes(3, "big") + bytes(4)
            data += struct.pack(">I", len(disk_bytes(row))) + disk_bytes(row)
            names += b"" if row.name is None else bytes([len(row.name)]) + row.name
        types, entries = self.types(), b""
        first = 2 + 8 * len(types)
        for kind in types:
            entries += struct.pack(">4s2H", kind, len(self.of_type(kind)) - 1, first)
            first += 12 * len(self.of_type(kind))
        header = struct.pack(">4I", 256, 256 + len(data), len(data), self.names_at() + len(names))
        counts = struct.pack(">3H", 28, self.names_at(), (len(types) - 1) % 65536)
        return header + self.extra + data + header + bytes(6) + struct.pack(">H", self.map_attributes) + counts + entries + references + names


def opened(number, disk):
    """The file of a disk, as it is when it has just been opened."""
    if not disk:
        return File(number, [])
    try:
        rows = read_fork(disk)
    except NoFork as fault:
        raise Refused(END if fault.args[0] == "end" else MAP_READ) from fault
    at = int.from_bytes(disk[4:8], "big")
    kept = [Row(it.kind, it.ident, it.name, it.attributes & ~CHANGED, it.data) for it in rows]
    return File(number, kept, disk[16:256].ljust(240, b"\0"), int.from_bytes(disk[at + 22 : at + 24], "big"))


def journal_of(gate, fork):
    """The journal with this first byte and the text of a fork."""
    return bytes([gate]) + struct.pack(">I", len(fork)) + fork


def recovered(disk, journal):
    """A disk and its journal after a recovery: the fork of an open gate's whole text is written, and the gate is shut."""
    end = 5 + int.from_bytes(journal[1:5], "big")
    if journal[:1] != b"\1" or len(journal) < end:
        return disk, journal
    return journal[5:end], b"\0" + journal[1:]


class Toolbox(Zone):
    """A zone, and resource files: the open ones in the order of opening, and the bytes of all disks and of their journals.

    A run without journals is as one with empty ones, which nobody looks at."""

    def __init__(self, mode, size, limit, base, disks, journals=None):
        super().__init__(mode, size, limit, base)
        self.disks, self.files, self.current = disks, [], 0
        self.journals = journals or [b""] * len(disks)
        self.loads, self.res_refused = True, 0

    # what is looked up, or refuses a call

    def file(self, number):
        return next((it for it in self.files if it.number == number), None)

    def here(self):
        """The current file."""
        self.test(not self.files, NO_FILE)
        return self.file(self.current)

    def named(self, number):
        """The file of this number, or the current one."""
        here = self.here()
        file = here if number is None else self.file(number)
        self.test(file is None, NO_FILE)
        return file

    def all_rows(self):
        return [(file, row) for file in self.files for row in file.rows]

    def row(self, handle, code=NOT_FOUND):
        """The row that has the handle, and its file."""
        self.here()
        found = [(file, row) for file, row in self.all_rows() if row.handle == handle]
        self.test(not found, code)
        return found[0]

    def is_id(self, ident):
        self.test(not -32768 <= ident <= 32767, PARAM)

    def contents(self, row):
        """The bytes of a row's handle."""
        owner = self.live.get(row.handle)
        return b"" if owner is None or owner.contents is None else bytes(owner.contents)

    # loads

    def dispose_handle(self, number):
        super().dispose_handle(number)
        for _, row in self.all_rows():
            if row.handle == number:
                row.handle = None

    def place(self, row, loads):
        """Makes the place for a row's bytes."""
        if row.handle is not None:
            self.reallocate_handle(row.handle, len(row.disk))
            return row.handle
        made = self.new_handle(len(row.disk)) if loads else self.new_empty_handle()
        return int(made[1:], 16)

    def load(self, row, loads):
        """The handle of a row, loaded or not."""
        if row.handle is not None and (not loads or self.live[row.handle].contents is not None):
            return row.handle
        row.handle = self.place(row, loads)
        if loads:
            owner = self.live[row.handle]
            owner.contents = bytearray(row.disk)
            owner.flags = RESOURCE | (LOCK if row.attributes & LOCKED else 0) | (PURGE if row.attributes & PURGEABLE else 0)
        return row.handle

    def find(self, files, kind, ident):
        self.here()
        self.is_id(ident)
        rows = [row for file in files for row in file.rows if (row.kind, row.ident) == (kind, ident)]
        self.test(not rows, NOT_FOUND)
        return address(self.load(rows[0], self.loads))

    def get_resource(self, kind, ident):
        at = [it.number for it in self.files].index(self.current) if self.files else 0
        return self.find(self.files[at::-1], kind, ident)

    def get1_resource(self, kind, ident):
        return self.find([self.file(self.current)], kind, ident)

    def get_ind_resource(self, kind, index):
        rows = self.here().of_type(kind)
        self.test(not 1 <= index <= len(rows), NOT_FOUND)
        return address(self.load(rows[index - 1], self.loads))

    def load_resource(self, handle):
        self.load(self.row(handle)[1], True)

    # what is changed

    def flagged(self, handle, is_set):
        owner = self.live[handle]
        if owner.contents is not None:
            owner.flags = owner.flags | RESOURCE if is_set else owner.flags & ~RESOURCE

    def release_resource(self, handle):
        _, row = self.row(handle)
        if not row.attributes & CHANGED:
            self.dispose_handle(handle)

    def detach_resource(self, handle):
        _, row = self.row(handle)
        self.test(row.attributes & CHANGED, ATTRIBUTE)
        row.handle = None
        self.flagged(handle, False)

    def add_resource(self, handle, kind, ident, name=None):
        file = self.here()
        self.is_id(ident)
        is_full = self.is_handle(handle) and self.live[handle].contents is not None
        self.test(not is_full or any(row.handle == handle for _, row in self.all_rows()), ADD_FAILED)
        self.test(name is not None and len(name) > 255, ADD_FAILED)
        row = Row(kind, ident, name, CHANGED, b"", handle)
        file.add(row)
        if not file.fits():
            file.rows.remove(row)
            raise Refused(ADD_FAILED)
        self.flagged(handle, True)

    def changed_resource(self, handle):
        _, row = self.row(handle)
        self.test(row.attributes & PROTECTED, ATTRIBUTE)
        row.attributes |= CHANGED

    def remove_resource(self, handle):
        file, row = self.row(handle, REMOVE_FAILED)
        self.test(row.attributes & PROTECTED, REMOVE_FAILED)
        file.rows.remove(row)
        self.flagged(handle, False)

    def set_res_attrs(self, handle, attributes):
        _, row = self.row(handle)
        self.test(attributes > 255, PARAM)
        row.attributes = attributes & ~CHANGED | row.attributes & CHANGED

    # what is written

    def update(self, file, rows):
        """Writes a file, in which these rows have their handles' bytes then."""
        self.test(not file.fits(), DISK_FULL)
        fork = file.fork(lambda row: self.contents(row) if row in rows else row.disk)
        self.test(len(fork) > MOST_BYTES, DISK_FULL)
        self.disks[file.number - 1] = fork
        self.journals[file.number - 1] = journal_of(0, fork)
        for row in rows:
            row.disk, row.attributes = self.contents(row), row.attributes & ~CHANGED

    def write_resource(self, handle):
        file, row = self.row(handle)
        if row.attributes & CHANGED:
            self.not_lent(handle)
            self.update(file, [row])

    def update_res_file(self, number=None):
        file = self.named(number)
        rows = [row for row in file.rows if row.attributes & CHANGED]
        self.test(any(row.handle in self.lent for row in rows), LENT)
        self.update(file, rows)

    def close_res_file(self, number=None):
        file = self.named(number)
        self.test(any(row.handle in self.lent for row in file.rows), LENT)
        self.update(file, [row for row in file.rows if row.attributes & CHANGED])
        for row in file.rows:
            if row.handle is not None:
                self.dispose_handle(row.handle)
        self.files.remove(file)
        if self.current == file.number:
            self.current = self.files[-1].number if self.files else 0

    # what is returned

    def get_res_attrs(self, handle):
        return str(self.row(handle)[1].attributes)

    def get_res_info(self, handle):
        _, row = self.row(handle)
        return f"{row.ident} {shown_type(row.kind)} {'none' if row.name is None else shown(row.name)}"

    def size_resource(self, handle):
        return str(len(self.row(handle)[1].disk))

    def home_res_file(self, handle):
        return str(self.row(handle)[0].number)

    def unique_id(self, kind):
        taken = {row.ident for row in self.here().of_type(kind)}
        return str(next(it for it in range(128, 8321) if it not in taken))

    def count_types(self):
        return str(len(self.here().types()))

    def count_resources(self, kind):
        return str(len(self.here().of_type(kind)))

    def get_ind_type(self, index):
        types = self.here().types()
        self.test(not 1 <= index <= len(types), NOT_FOUND)
        return shown_type(types[index - 1])

    def set_res_load(self, value):
        self.loads = value != 0

    def open_res_file(self, number):
        self.test(not 1 <= number <= len(self.disks), NO_SUCH_FILE)
        if self.file(number) is None:
            at = number - 1
            self.disks[at], self.journals[at] = recovered(self.disks[at], self.journals[at])
            self.files.append(opened(number, self.disks[at]))
            self.current = number
        return str(number)

    def use_res_file(self, number):
        self.here()
        self.named(number)
        self.current = number

    def cur_res_file(self):
        return str(self.current)

    def calls(self):
        return ALL_CALLS

    def reply(self, name, operands):
        if name == "ResError":
            return f"{self.res_refused} 0"
        if name not in RESOURCE_CALLS:
            return super().reply(name, operands)
        memory_code = self.refused
        said = super().reply(name, operands)
        self.refused, self.res_refused = memory_code, self.refused
        return said


RESOURCE_CALLS = {
    "GetResource": Toolbox.get_resource,
    "Get1Resource": Toolbox.get1_resource,
    "GetIndResource": Toolbox.get_ind_resource,
    "LoadResource": Toolbox.load_resource,
    "ReleaseResource": Toolbox.release_resource,
    "DetachResource": Toolbox.detach_resource,
    "AddResource": Toolbox.add_resource,
    "ChangedResource": Toolbox.changed_resource,
    "RemoveResource": Toolbox.remove_resource,
    "WriteResource": Toolbox.write_resource,
    "UpdateResFile": Toolbox.update_res_file,
    "CloseResFile": Toolbox.close_res_file,
    "GetResAttrs": Toolbox.get_res_attrs,
    "SetResAttrs": Toolbox.set_res_attrs,
    "GetResInfo": Toolbox.get_res_info,
    "SizeResource": Toolbox.size_resource,
    "HomeResFile": Toolbox.home_res_file,
    "UniqueID": Toolbox.unique_id,
    "CountTypes": Toolbox.count_types,
    "CountResources": Toolbox.count_resources,
    "GetIndType": Toolbox.get_ind_type,
    "SetResLoad": Toolbox.set_res_load,
    "OpenResFile": Toolbox.open_res_file,
    "UseResFile": Toolbox.use_res_file,
    "CurResFile": Toolbox.cur_res_file,
}
ALL_CALLS = {**CALLS, **RESOURCE_CALLS, "DisposeHandle": Toolbox.dispose_handle}
