"""Checks the texts that resfork texts writes as lines, and the files into which it puts them.

Of resources by hand the lines are compared with those of a model that is written from the books; the same lines are put back, and no byte changes; other
texts are put, by the model and by the program, and the resources are compared. Lines that say no text of the file are refused, with line and column.
"""
import os
import struct
import tempfile

from checks.fork_questions import Difference
from checks.forks import compare, run
from checks.shown import fork_of, must, write
from model.change import as_tuple, table_of
from model.fork import Row
from model.messages import message
from model.texts import entries, line_of, lines, put

RECT = struct.pack(">4h", 40, 40, 200, 300)


def item(kind, data):
    """An item of a dialog."""
    return bytes(4) + RECT + bytes([kind, len(data)]) + data + bytes(len(data) % 2)


def pascal(*texts):
    return b"".join(bytes([len(text)]) + text for text in texts)


MENU = struct.pack(">5hi", 129, 0, 0, 0, 0, -1) + pascal(b"File") + b"".join(pascal(text) + tail for text, tail in ((b"Open\xc9", b"\0O\0\0"), (b"-", bytes(4)), (b"Quit", b"\0Q\0\1"))) + b"\0"
WINDOW = RECT + struct.pack(">hBxBxi", 0, 1, 1, 7) + pascal(b"Untitled")
DIALOG = RECT + struct.pack(">hBxBxih", 1, 1, 0, 0, 200) + pascal(b"Ask")
ITEMS = [item(4, b"OK"), item(0x20, b"\0\x80"), item(0x88, b"Do you really want to quit?"), item(0, b""), item(0x10, b""), item(7, b"\1\2"), item(5, b"Sure"), item(6, b"No")]
ROWS = [
    Row(b"STR ", 128, b"Hello", 32, pascal(b"Hi \"you\" \\ there")),
    Row(b"STR ", -32768, None, 0, pascal(b"")),
    Row(b"STR ", 129, None, 0, pascal(b"too short")[:-1]),
    Row(b"STR#", 131, None, 0, b"\0\3" + pascal(b"\xa5203 Brackets", b"", bytes(range(256))[:255])),
    Row(b"STR#", 132, None, 0, b"\0\0"),
    Row(b"TEXT", 128, b"", 0, b"Read me first\rThis game ..\t\x7f\n" + bytes(range(256)) * 2),
    Row(b"TEXT", 129, None, 0, b""),
    Row(b"MENU", 129, None, 0, MENU),
    Row(b"MENU", 130, b"Empty", 0, MENU[:14] + pascal(b"\x14") + b"\0"),
    Row(b"MENU", 131, None, 0, MENU[:-1]),
    Row(b"DITL", 200, None, 0, struct.pack(">H", len(ITEMS) - 1) + b"".join(ITEMS)),
    Row(b"DITL", 201, None, 0, b"\xff\xff"),
    Row(b"ALRT", 200, None, 0, RECT + struct.pack(">2h", 200, 0x5555)),
    Row(b"DLOG", 200, None, 0, DIALOG),
    Row(b"DLOG", 201, None, 0, DIALOG + b"\x28\x0a"),
    Row(b"WIND", 128, None, 0, WINDOW),
    Row(b"WIND", 129, None, 0, WINDOW + b"\0\x28\x0a"),
    Row(b"WIND", 130, None, 0, WINDOW + b"\x28\x0a"),
    Row(b"CNTL", 128, None, 0, RECT + struct.pack(">hBxhhhi", 0, 1, 1, 0, 1008, 0) + pascal(b"Volume")),
    Row(b"vers", 1, None, 0, b"\x07\x53\x80\0\0\0" + pascal(b"7.5.3", b"System 7.5.3 \xa9")),
    Row(b"  a ", 3, b"A name", 0, b""),
    Row(b"\"\\\x01\xaa", 4, bytes(range(255)), 0, b"x"),
]

# what takes the place of texts: type, id, place, and the new text
OTHERS = [
    (b"STR ", 128, "name", b"Hallo"),
    (b"STR ", 128, "", b"x" * 255),
    (b"STR#", 131, "[2]", b"zwei"),
    (b"TEXT", 128, "", b"\r" * 1000),
    (b"MENU", 129, "title", b""),
    (b"MENU", 129, "[2]", b"a\rb"),
    (b"DITL", 200, "[3]", b"Wirklich beenden"),
    (b"DITL", 200, "[5]", b"1"),
    (b"DITL", 200, "[8]", b"Nein!"),
    (b"DLOG", 201, "title", b"Frage"),
    (b"WIND", 128, "title", b"Titel.."),
    (b"WIND", 129, "title", b"Ohne Titel"),
    (b"CNTL", 128, "title", b"\x80"),
    (b"vers", 1, "long", b""),
]

# lines that are refused: the line and the column, and the condition
REFUSED = [
    ("STR 128 \"a\"\nSTR 200 \"b\"\n", 2, 1, "no such text"),
    ("ALRT 200 title \"b\"", 1, 1, "no such text"),
    ("STR 129 \"b\"", 1, 1, "no such text"),
    ("DITL 200 [2] \"b\"", 1, 1, "no such text"),
    ("DITL 200 [9] \"b\"", 1, 1, "no such text"),
    ("STR# 131 \"b\"", 1, 1, "no such text"),
    ("MENU 129 name \"b\"", 1, 1, "no such text"),
    ("STR 128 \"a\"\n\nSTR 128 \"b\"\n", 3, 1, "text again"),
    ("MENU 129 [1] \"a\"\r\nSTR# 131 [1] \"b\"\r\n", 2, 1, "text again"),
    ("STR 128 \"" + "x" * 256 + "\"", 1, 9, "text unfit"),
    ("STR 128 \"\"\nSTR 128 name \"" + "x" * 256 + "\"", 2, 1, "text again"),
    ("STR 128 name \"" + "x" * 256 + "\"", 1, 14, "text unfit"),
    ("MENU 129 [1] \"a\"\nMENU 129 [2] \"\"", 2, 14, "text unfit"),
    ("STR 128 \"\u4e00\"", 1, 10, "no Roman letter"),
    ("STR 128 \"a\"\nSTRXY 1 \"b\"", 2, 1, "no type in line"),
    ("STR 32768 \"a\"", 1, 9, "no id"),
    ("STR -32769 \"a\"", 1, 10, "no id"),
    ("STR +1 \"a\"", 1, 5, "no id"),
    ("STR# 131 [x] \"a\"", 1, 11, "no place"),
    ("STR# 131 [1 \"a\"", 1, 12, "no place"),
    ("STR# 131 titel \"a\"", 1, 10, "no place"),
    ("STR# 131 [1] a", 1, 14, "no quoted text"),
    ("STR 128 \"a", 1, 11, "no character"),
    ("STR 128 \"a\n\"", 1, 11, "no character"),
    ("STR 128 \"\\r\"", 1, 11, "no character"),
    ("STR 128 \"\\x0g\"", 1, 12, "no character"),
    ("STR 128 \"\x7f\"", 1, 10, "no character"),
    ("STR 128 \"a\" b", 1, 13, "no line's end"),
]


def with_texts(rows, others):
    """The rows with other texts, by the model."""
    new = []
    for row in rows:
        texts = {place: text for kind, ident, place, text in others if (kind, ident) == (row.kind, row.ident)}
        name = texts.pop("name", row.name)
        new.append(Row(row.kind, row.ident, name, row.attributes, put(row.kind, row.data, texts) if texts else row.data))
    return new


def try_listed(program, path):
    """Compares the lines of all rows, and what is said of those whose bytes aren't of their type."""
    _, odd = entries(ROWS)
    told = "".join(f"{path}: {message('odd bytes', row.kind.decode('mac_roman') + f' {row.ident}')}\n" for row in odd)
    must(len(odd) == 3, "the model reads bytes that are no value")
    compare("texts", run(program, ["texts", path]), 0, lines(ROWS).encode(), told)


def try_put(program, folder, path):
    """Puts the same lines, and others; each of those is read again."""
    taken, new = os.path.join(folder, "lines"), os.path.join(folder, "new")
    fork = fork_of(ROWS)
    for text in (lines(ROWS), "", "\n \r\n" + lines(ROWS).replace("\n", "  \r\n")):
        write(taken, text.encode())
        compare("texts --put of what is there", run(program, ["texts", path, "--put", taken]), 0, b"", "")
        with open(path, "rb") as file:
            must(file.read() == fork, "texts --put of what is there changes the file")
    write(taken, "".join(line_of(*other) for other in OTHERS).encode())
    expected = with_texts(ROWS, OTHERS)
    compare("texts --put -n", run(program, ["texts", path, "--put", taken, "-n", "-q"]), 0, b"", "")
    compare("texts --put -o", run(program, ["texts", path, "--put", taken, "-o", new, "-q"]), 0, b"", "")
    with open(path, "rb") as file:
        must(file.read() == fork, "texts --put -o or -n changes the file that is read")
    compare("texts --put", run(program, ["texts", path, "--put", taken, "--backup", "-q"]), 0, b"", "")
    for it in (path, new):
        with open(it, "rb") as file:
            table = table_of(file.read())[0]
        must(table == [as_tuple(row) for row in expected], f"texts --put: {[row for row in table if row not in map(as_tuple, expected)]}")
        must(run(program, ["texts", it])[1] == lines(expected).encode(), "texts after --put: other lines")
    with open(path + "~", "rb") as file:
        must(file.read() == fork, "texts --put --backup keeps another file")
    write(path, fork)


def try_refused(program, folder, path):
    """Compares what is said of lines that are refused."""
    taken = os.path.join(folder, "bad")
    for text, line, column, condition in REFUSED:
        write(taken, text.encode())
        compare(f"texts --put {text[:60]!r}", run(program, ["texts", path, "--put", taken]), 3, b"", f"{taken}: line {line}, column {column}: {message(condition)}\n")
    write(taken, b"STR 128 \"\xff\"")
    compare("texts --put of no UTF-8", run(program, ["texts", path, "--put", taken]), 3, b"", f"{taken}: {message('not UTF-8', 'it')}\n")
    for words, condition in ((["texts", path, "-n"], "no put"), (["texts", path, "-o", taken], "no put"), (["texts", "-", "--put", taken], "put input")):
        compare(f"{words}", run(program, words), 2, b"", message(condition))
    with open(path, "rb") as file:
        must(file.read() == fork_of(ROWS), "texts --put of refused lines changes the file")
    write(taken, fork_of([ROWS[0], ROWS[0]]))
    compare("texts of two of one", run(program, ["texts", taken]), 1, b"", message("two of one"))


def main(program):
    """Tries all rows."""
    with tempfile.TemporaryDirectory() as folder:
        path = os.path.join(folder, "fork")
        write(path, fork_of(ROWS))
        try:
            try_listed(program, path)
            try_put(program, folder, path)
            try_refused(program, folder, path)
        except Difference as difference:
            print(difference)
            return 1
    print(f"{len(entries(ROWS)[0])} texts, {len(OTHERS)} others, {len(REFUSED)} refused")
    return 0
