"""Checks the texts that resfork rez reads and derez writes, and the folders that pack reads.

Texts by hand give the rows beside them, or are refused in the line and with the words there; a fork gives the text that DeRez writes of it, byte for
byte. Folders by hand give their rows, or are refused with the words beside what is bad in them.
"""
import json
import os
import tempfile

from checks.fork_questions import Difference
from checks.forks import compare, run
from checks.shown import fork_of, must, write
from model.change import table_of
from model.fork import Row
from model.messages import MISSING, message, refusal

NOTHING = (bytes(240), 0)
MAP = b"/*resfork: the map's 240 extra bytes and its attributes"
# the map of tests/checks/shown.py's forks, as its comment
SOME_MAP = (bytes(range(240)), 3)
COMMENT = MAP + b"\n\t$\"" + (bytes(range(240)) + b"\0\3").hex(" ", -2).upper().encode() + b"\"\n*/\n\n"

# what DeRez writes of a resource of 18 bytes, but for the dots
ROW = Row(b"STR ", -128, b'A "b" \x8a', 36, b"\x11Hello, *world*!\r\0")
TEXT = rb"""data 'STR ' (-128, "A \"b\" \0x8A", purgeable, preload) {
	$"1148 656C 6C6F 2C20 2A77 6F72 6C64 2A21"            /* .Hello, .world.! */
	$"0D00"                                               /* .. */
};

"""

# texts with their rows and the map's bytes
READ = [
    (b"// a text\r\ndata'TEXT'(128,$A2)/* a * b **/{\"Hi\\\\\" $\"00 fF\"\n};", [(b"TEXT", 128, None, 0xA2, b"Hi\\\0\xff")], NOTHING),
    (b"", [], NOTHING),
    (COMMENT, [], SOME_MAP),
    ((COMMENT + TEXT).replace(b"\n", b"\r\n"), [(ROW.kind, ROW.ident, ROW.name, ROW.attributes, ROW.data)], SOME_MAP),
    # the words of the map's comment within a name and within other comments
    (b"data 'ABCD' (1, \"" + MAP + b"\") {};", [(b"ABCD", 1, MAP, 0, b"")], NOTHING),
    (b"// " + MAP + b"\n/* " + MAP + b" */", [], NOTHING),
]

# what else Rez's language has at the start of a statement
UNREAD = ["resource", "read", "include", "type", "change", "delete"]
# texts that are refused, with the line, the condition and its values; lines end with CR, LF or CR LF
REFUSED = [
    (b"// a text\r\ndata'TEXT'(128,$A2)/* a * b **/{\"Hi\\\\\" $\"0 0\"\n};", 2, "no two digits"),
    (b"\n\ndata 'ABC' (1) {};", 3, "no four letters"),
    (b"data 'ABCD' (32768) {};", 1, "no id"),
    (b"data 'ABCD' (1, locket) {};", 1, "no attribute"),
    (b"data 'ABCD' (1) {\n$\"123\"};", 2, "no two digits"),
    (b"data 'ABCD' (1) {\n\"a\n\"};", 2, "no letter"),
    (b"data 'ABCD' (1) {}", 1, "no mark", ";"),
    (b"\n/* open", 2, "no comment's end"),
    (b"resourse 'ABCD' (1) {};", 1, "no statement"),
    *((b"data 'ABCD' (1) {};" + end + word.encode() + b" 'ABCD' (1) {};", 2, "unread", f"`{word}`") for word in UNREAD for end in (b"\n", b"\r", b"\r\n")),
    (b"/* a */\r\n\r\r\n#include \"Types.r\"\r", 4, "unread", message("a directive")),
    (b"\n\r\n\r\r\n\ndata 'ABC' (1) {};", 6, "no four letters"),
    (b"data 'ABCD' (1) {\r\n\"a\r\n\"};", 2, "no letter"),
    (MAP + b"\n$\"00\"\n*/", 1, "no map"),
    (b"// by hand\n" + COMMENT, 2, "map later"),
    (COMMENT + TEXT + COMMENT, 10, "map later"),
    (b"data 'ABCD' (1) {" + COMMENT + b"};", 1, "map later"),
]

# a folder's manifest and files, and their rows
MANIFEST = {
    "container": message("macbinary I"),
    "type": "ttro",
    "creator": "ttxt",
    "flags": 256,
    "created": 3000000000,
    "modified": None,
    "extra": "00" * 239 + "fE",
    "map_attributes": 128,
    "resources": [
        {"type": "STR ", "id": -1, "name": None, "attributes": 4, "file": "STR_/-1.bin"},
        {"type": "\u2122abc", "id": 128, "name": "\u00c4", "attributes": 129, "file": "~%AA~abc/128 %80.bin"},
    ],
}
FILES = {"STR_/-1.bin": b"\x02Hi", "~%AA~abc/128 %80.bin": b"\0"}
ROWS = [(b"STR ", -1, None, 4, b"\x02Hi"), (b"\xaaabc", 128, b"\x80", 129, b"\0")]

# what makes a manifest a bad one: the fields of its second resource, or its own, with what is said
BAD_ENTRIES = [
    ({"type": "abc"}, message("entry's type")),
    ({"type": "\u4e00abc"}, message("entry's type")),
    ({"name": "x" * 256}, message("entry's name")),
    *[({"file": file}, message("entry's file")) for file in ("1.bin", "../1.bin", "a/..", "/1.bin", "a/b/1.bin")],
]
BAD_FIELDS = [
    ({"extra": "00"}, message("bad extra")),
    ({"resources": None}, message("no member", "resources")),
    ({"map_attributes": 65536}, message("no member", "map_attributes")),
]


def read(path):
    with open(path, "rb") as file:
        return file.read()


def try_texts(program, folder):
    """Compares what texts say, and what is written of forks."""
    text, out = os.path.join(folder, "text"), os.path.join(folder, "out")
    for given, rows, kept in READ:
        write(text, given)
        compare(f"rez {given[:60]}", run(program, ["rez", "-q", text, "-o", out]), 0, b"", "")
        must(table_of(read(out)) == (rows, kept), f"rez {given[:60]}: other resources are read")
        os.remove(out)
    for given, line, *what in REFUSED:
        write(text, given)
        compare(f"rez {given[:60]}", run(program, ["rez", text, "-o", out]), 3, b"", f"{text}: line {line}: {message(*what)}\n")
        must(not os.path.exists(out), f"rez {given[:60]}: it is refused, and a file is written")
    write(text, b"data 'ABCD' (1) {}; data 'abcd' (1) {}; data 'ABCD' (2) {};")
    compare("rez of resources that stand apart", run(program, ["rez", text, "-o", out]), 3, b"", refusal(text, "apart", "'ABCD' 2")[1])
    write(text, TEXT)
    status, made, told = run(program, ["rez", text, "-o", "-"])
    must((status, told) == (0, "") and table_of(made) == ([(ROW.kind, ROW.ident, ROW.name, ROW.attributes, ROW.data)], NOTHING), "rez -o -: other resources are written")
    write(text, fork_of([ROW]))
    compare("get -o -", run(program, ["get", text, "STR ", "-128", "-o", "-"]), 0, ROW.data, "")
    compare("derez", run(program, ["derez", text]), 0, COMMENT + TEXT, "")
    for kinds in (["-t", "none"], ["-t", "STR", "-t", "none"]):
        compare(f"derez {kinds}", run(program, ["derez", *kinds, text]), 1, b"", refusal(text, "no type", "none")[1])
        compare(f"unpack {kinds}", run(program, ["unpack", *kinds, text, out]), 1, b"", refusal(text, "no type", "none")[1])
        must(not os.path.exists(out), f"unpack {kinds}: it is refused, and a folder is made")


# files that the manifest doesn't name, by their paths, and their rows; and those that --add refuses, with what is said
ADDED = [
    ("STR_/2.bin", (b"STR ", 2, None, 0)),
    ("STR_/3 Read me.bin", (b"STR ", 3, b"Read me", 0)),
    ("STR_/4 .bin", (b"STR ", 4, b"", 0)),
    ("STR_/-1.2 a%2Fb%80.bin", (b"STR ", -1, b"a/b\x80", 0)),
    ("%AAabc/129.bin", (b"\xaaabc", 129, None, 0)),
    ("%AA~abc/-32768.bin", (b"\xaaabc", -32768, None, 0)),
    ("icl8/200.bin", (b"icl8", 200, None, 0)),
    ("~icl8/201.bin", (b"icl8", 201, None, 0)),
]
UNNAMED = [
    *[(path, "bad path") for path in ("a.bin", "STR_/a.bin", "STR_/2", "STR_/2.1.bin", "STR_/32768.bin", "STR_/+2.bin", "STR_/02.bin", "STR_/2.bin~")],
    *[(path, "bad path") for path in ("STR/2.bin", "STRxx/2.bin", "~STR_/2.bin", "STR_/2 %.bin", "STR_/2 %ff.bin", "STR_/2 %61.bin", "STR_/2 \u00e4.bin")],
    *[("STR_/" + name, "not the next") for name in ("-1 New.bin", "-1.3.bin", "2.2.bin")],
]


def try_unlisted(program, folder, out, packed):
    """Compares what becomes of files that the manifest doesn't name."""
    words = ["pack", "-q", "--add", folder, out]
    for path, told in [(path, "") for path, _ in ADDED] + UNNAMED:
        whole = os.path.join(folder, path)
        os.makedirs(os.path.dirname(whole), exist_ok=True)
        write(whole, path.encode())
        compare(f"pack with {path}", packed(), 3, b"", refusal(folder, "not named", path)[1])
        must(not os.path.exists(out), f"pack with {path}: it is refused, and a file is written")
        if told:
            compare(f"pack --add of {path}", run(program, words), 3, b"", refusal(folder, told, path)[1])
            must(not os.path.exists(out), f"pack --add of {path}: it is refused, and a file is written")
        os.remove(whole)
    for path, _ in ADDED:
        write(os.path.join(folder, path), path.encode())
    write(os.path.join(folder, "STR_", ".hidden"), b"")
    compare("pack --add", run(program, words), 0, b"", "")
    rows = ROWS + [(*row, path.encode()) for path, row in sorted(ADDED)]
    kinds = [b"STR ", b"\xaaabc", b"icl8"]
    must(table_of(read(out))[0] == sorted(rows, key=lambda row: kinds.index(row[0])), "pack --add: other resources are read")
    os.remove(out)
    for path, _ in ADDED:
        os.remove(os.path.join(folder, path))
    compare("pack without them", packed(), 0, b"", "")
    os.remove(out)


def try_folders(program, folder):
    """Compares what is packed of folders."""
    folder = os.path.join(folder, "unpacked")
    os.mkdir(folder)
    out = folder + ".out"
    for path, data in FILES.items():
        os.makedirs(os.path.dirname(os.path.join(folder, path)))
        write(os.path.join(folder, path), data)

    def packed(manifest):
        write(os.path.join(folder, "resources.json"), json.dumps(manifest).encode())
        return run(program, ["pack", "-q", folder, out])

    compare("pack", packed(MANIFEST), 0, b"", "")
    must(table_of(read(out)) == (ROWS, (bytes(239) + b"\xfe", 128)), "pack: other resources are read")
    os.remove(out)
    first, second = MANIFEST["resources"]
    bad = [({"resources": [first, {**second, **fields}]}, words) for fields, words in BAD_ENTRIES] + BAD_FIELDS
    for fields, words in bad:
        compare(f"pack {fields}", packed({**MANIFEST, **fields}), 3, b"", words)
    apart = packed({**MANIFEST, "resources": [first, second, first]})
    compare("pack of resources that stand apart", apart, 3, b"", refusal(folder, "apart", "'STR ' -1")[1])
    try_unlisted(program, folder, out, lambda: packed(MANIFEST))
    os.remove(os.path.join(folder, first["file"]))
    compare("pack without a file", packed(MANIFEST), 4, b"", f"{first['file']} {message('unreadable', MISSING)}\n")
    must(not os.path.exists(out), "pack: it is refused, and a file is written")


def main(program):
    """Tries all rows."""
    with tempfile.TemporaryDirectory() as folder:
        try:
            try_texts(program, folder)
            try_folders(program, folder)
        except Difference as difference:
            print(difference)
            return 1
    print(f"{len(READ)} texts read and {len(REFUSED)} refused, {len(BAD_ENTRIES) + len(BAD_FIELDS)} manifests refused")
    return 0
