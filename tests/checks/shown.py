"""Checks what resfork shows of resources and what it unpacks them to.

Pictures are decoded from their PNG files by Python's zlib, and compared with the bits that were written by hand; texts are compared with those that they
stand for. Forks are unpacked, and the folders are read back: each resource has a path of its own, without regard to case too, with its bytes;
`resources.json` has all else. Nothing is overwritten, and a folder without `resources.json` is reported as a failure. Number: how many random forks.
"""
import hashlib
import json
import os
import random
import re
import struct
import tempfile

from checks.fork_questions import Difference
from checks.forks import Choices, compare, run
from checks.parts import whole
from model.fork import NoFork, Row, listing, read_fork
from model.messages import MISSING, message, refusal
from model.pict import Drawn, dots, left, picture, pixel_map, rect, region
from model.sound import BUFFER, SOUND, as_bytes, commands, compressed, extended, ima4, read_wav, standard, words
from model.shown import file_name, folder_name, pixels, read_png

RANDOM = random.Random(7)
ICON = bytes(RANDOM.randrange(256) for _ in range(128))
MASK = bytes(RANDOM.randrange(256) for _ in range(128))
SMALL = bytes(RANDOM.randrange(256) for _ in range(96))
BOX = (0, 0, 8, 24)
PICT = picture(BOX, [Drawn(RANDOM, 0x98, 4, BOX).opcode])

# resources with the rows of their pictures
PICTURES = [
    (b"ICON", ICON, pixels(ICON, 32)),
    (b"ICN#", ICON + MASK, pixels(ICON, 32, MASK)),
    (b"ics#", SMALL[:32] + MASK[:32], pixels(SMALL[:32], 16, MASK[:32])),
    (b"CURS", SMALL[:32] + MASK[:32] + b"\0\3\0\4", pixels(SMALL[:32], 16, MASK[:32])),
    (b"SICN", SMALL, pixels(SMALL, 16)),
    # one pixel, at the left of the second row
    (b"ICON", bytes(4) + b"\x80" + bytes(123), pixels(bytes(4) + b"\x80" + bytes(123), 32)),
    (b"icl8", bytes(range(256)) * 4, pixels(bytes(range(256)) * 4, 32, bits=8)),
    (b"ics4", SMALL[:32] * 4, pixels(SMALL[:32] * 4, 16, bits=4)),
    (b"PAT ", SMALL[:8], pixels(SMALL[:8], 8)),
    (b"PICT", PICT, [[(*dot, 255) for dot in line] for line in dots(PICT)]),
]

# resources with what is shown of them
TEXTS = [
    (b"STR ", b"\x05Hello", "Hello\n"),
    (b"STR ", b"\x02caf\x8e", "ca\n"),
    (b"STR ", b"\x04caf\x8e", "caf\u00e9\n"),
    (b"STR ", b"\0", "\n"),
    (b"STR#", b"\0\3\3one\0\5three", "one\n\nthree\n"),
    (b"STR#", b"\0\0", ""),
    (b"TEXT", b"two\rlines", "two\nlines\n"),
    (b"TEXT", b"a\tb\x1bc\r", "a\tb\\x1Bc\n"),
    (b"TEXT", b"", ""),
    (b"vers", b"\x07\x53\x80\0\0\0\0057.5.3\x0eSystem 7.5.3 \xa9", "version: 7.5.3f0\nregion: 0\nshort: 7.5.3\nlong: System 7.5.3 \u00a9\n"),
    (b"vers", b"\x12\x00\x60\x0b\1\2\x02ab\0", "version: 12.0.0b11\nregion: 258\nshort: ab\nlong: \n"),
    (b"snd ", b"\0\1A\xa9 ~\x7f\0\0\0\0\0\0\0\0\0z", "000000  00 01 41 A9 20 7E 7F 00 00 00 00 00 00 00 00 00  ..A\u00a9 ~..........\n000010  7A" + " " * 47 + "z\n"),
    (
        b"snd ",
        commands((0x8051, 0, 0), (3, 0, 0), (99, 1, 70000)) + standard(0x56EE8BA3, bytes(22255)),
        "rate: 22254.545\nchannels: 1\nbits: 8\nseconds: 1.000\ncommand: buffer 0, at 36\ncommand: quiet 0 0\ncommand: command 99 1 70000\n",
    ),
    (b"snd ", commands((44, 1, 2), form=2), "no samples: none of its commands plays samples\ncommand: timbre 1 2\n"),
    # they end before their texts do
    (b"STR ", b"\x05Hell", "000000  05 48 65 6C 6C" + " " * 35 + ".Hell\n"),
    (b"STR#", b"\0\2\1a", "000000  00 02 01 61" + " " * 38 + "...a\n"),
    (b"ICON", b"\0", "000000  00" + " " * 47 + ".\n"),
]

# the rates of a Macintosh and of a compact disc, and twice the same sounds: in all forms of headers and samples, with what their WAV files say
MAC, DISC = 0x56EE8BA3, 44100 << 16
NOISE = bytes(RANDOM.randrange(256) for _ in range(240))
PACKETS = b"".join(struct.pack(">H", RANDOM.randrange(512) << 7 | RANDOM.randrange(89)) + RANDOM.randbytes(32) for _ in range(12))
PLAYED = commands((BUFFER, 0, 0))
SOUNDS = [
    (PLAYED + standard(MAC, NOISE[:239]), (22255, 1, 8, list(NOISE[:239]))),
    (commands((46, 0, 0x1000100), (SOUND, 0, 0), (BUFFER, 0, 999), form=2) + standard(11025 << 16, b"\0"), (11025, 1, 8, [0])),
    (commands((SOUND & 0xFF, 0, 0), (BUFFER, 0, 0), synths=((5, 0xA0), (3, 0))) + standard(MAC, NOISE), (22255, 1, 8, list(NOISE))),
    (PLAYED + extended(DISC, 1, 8, 240, NOISE), (44100, 1, 8, list(NOISE))),
    (PLAYED + extended(DISC, 2, 16, 60, NOISE), (44100, 2, 16, words(NOISE, "big"))),
    (PLAYED + extended(DISC, 5, 8, 3, NOISE), (44100, 5, 8, list(NOISE[:15]))),
    (PLAYED + extended(0xFFFF8000, 3, 16, 40, NOISE), (65536, 3, 16, words(NOISE, "big"))),
    (PLAYED + extended(0x8000, 1, 16, 1, b"\x80\0"), (1, 1, 16, [-32768])),
    (PLAYED + compressed(DISC, 2, b"MAC3", 16, 60, NOISE, 0), (44100, 2, 16, words(NOISE, "big"))),
    (PLAYED + compressed(DISC, 1, b"NONE", 8, 240, NOISE), (44100, 1, 8, list(NOISE))),
    (PLAYED + compressed(DISC, 1, b"raw ", 8, 240, NOISE), (44100, 1, 8, list(NOISE))),
    (PLAYED + compressed(DISC, 2, b"twos", 8, 120, NOISE), (44100, 2, 8, as_bytes(NOISE))),
    (PLAYED + compressed(DISC, 2, b"twos", 16, 60, NOISE), (44100, 2, 16, words(NOISE, "big"))),
    (PLAYED + compressed(DISC, 1, b"sowt", 8, 240, NOISE), (44100, 1, 8, as_bytes(NOISE))),
    (PLAYED + compressed(DISC, 2, b"sowt", 16, 60, NOISE), (44100, 2, 16, words(NOISE, "little"))),
    (PLAYED + compressed(MAC, 1, b"ima4", 16, 12, PACKETS), (22255, 1, 16, ima4(PACKETS, 1))),
    (PLAYED + compressed(DISC, 2, b"ima4", 16, 6, PACKETS), (44100, 2, 16, ima4(PACKETS, 2))),
    (PLAYED + compressed(DISC, 3, b"ima4", 0, 4, PACKETS), (44100, 3, 16, ima4(PACKETS, 3))),
]

# resources that are no such sound, with the message
SILENT = [
    (b"\0\2\0\0\0", message("few bytes", 6)),
    (b"\0\3\0\0\0\0", message("snd format")),
    (b"\0\2\0\0\0\2" + bytes(15), message("few bytes", 22)),
    (commands((BUFFER & 0xFF, 0, 0)), message("silent")),
    (PLAYED + bytes(21), message("few bytes", 42)),
    (PLAYED + b"\0\0\0\1" + bytes(60), message("samples elsewhere", 20)),
    (PLAYED + standard(0x7FFF, NOISE), message("snd rate", 28)),
    (PLAYED + standard(MAC, NOISE)[:20] + b"\1" + bytes(60), message("snd header", 40)),
    (PLAYED + standard(MAC, b""), message("no sample", 24)),
    (PLAYED + standard(MAC, NOISE, 241), message("few bytes", 283)),
    (PLAYED + standard(MAC, NOISE, 0xFFFFFFFF), message("few bytes", 42 + 0xFFFFFFFF)),
    (PLAYED + extended(DISC, 2, 16, 61, NOISE)[:63], message("few bytes", 84)),
    (PLAYED + extended(DISC, 0, 16, 61, NOISE), message("snd channels", 24)),
    (PLAYED + extended(DISC, 32768, 16, 61, NOISE), message("snd channels", 24)),
    (PLAYED + extended(DISC, 32767, 16, 0xFFFFFFFF, NOISE), message("few bytes", 84 + 2 * 32767 * 0xFFFFFFFF)),
    (PLAYED + extended(DISC, 2, 12, 61, NOISE), message("snd bits", 68)),
    (PLAYED + extended(DISC, 2, 16, 0, NOISE), message("no sample", 42)),
    (PLAYED + compressed(DISC, 2, b"raw ", 16, 60, NOISE), message("snd bits", 82)),
    (PLAYED + compressed(DISC, 1, b"MAC3", 16, 60, NOISE, 3), message("compressed samples", 76, message("mace three"))),
    (PLAYED + compressed(DISC, 1, b"MAC6", 16, 60, NOISE, 4), message("compressed samples", 76, message("mace six"))),
    (PLAYED + compressed(DISC, 1, b"ulaw", 16, 60, NOISE), message("unknown samples", 60, "ulaw")),
    (PLAYED + compressed(DISC, 1, b"a\0\xffz", 16, 60, NOISE), message("unknown samples", 60, "a\\x00\\xFFz")),
    (PLAYED + compressed(DISC, 1, b"ima4", 16, 13, PACKETS), message("few bytes", 84 + 13 * 34)),
    (PLAYED + compressed(DISC, 1, b"ima4", 16, 12, PACKETS[:34] + b"\0\x59" + PACKETS[36:]), message("wrong packet", 118)),
]

# lines, texts and other things that a picture has, and that aren't drawn
LINE, TEXT, OVALS = (0x20, bytes(8)), (0x28, bytes(4) + b"\2ab"), [(0x50, bytes(8)), (0x5C, b"")]


def drawings():
    """Pictures in QuickDraw's language, with the map that is all of them, if one is: of all packings, in both versions, clipped, stretched, one over the
    other, and with things that aren't drawn."""
    rng = random.Random(11)
    for number, depth in enumerate((1, 2, 4, 8)):
        for code, width in ((0x90, 33), (0x98, 40), (0x98, 5), (0x98, 2040 // depth)):
            drawn = Drawn(rng, code, depth, (-3, 7, 6, 7 + width), in_order=number % 2 == 0, mode=64 * (number % 2))
            yield picture((-3, 7, 6, 7 + width), [drawn.opcode], 1 + number % 2), drawn
    for code, packing, depth, parts in ((0x9A, 0, 16, 3), (0x9A, 3, 16, 3), (0x9A, 1, 16, 3), (0x9A, 0, 32, 3), (0x9A, 4, 32, 4), (0x9A, 1, 32, 3), (0x9A, 2, 32, 3)):
        for width in (1, 24, 130):
            drawn = Drawn(rng, code, depth, (0, 0, 5, width), packing=packing, parts=parts)
            yield picture((0, 0, 5, width), [drawn.opcode]), drawn
    flat = Drawn(rng, 0x98, 1, BOX, row=12, flat=True)
    yield picture(BOX, [flat.opcode], 1), flat
    yield picture(BOX, []), None
    clip = (1, region((1, 2, 7, 20), (1, 2, 20), (3, 5, 9), (5, 5, 9, 12, 15), (7, 2, 12, 15, 20)))
    mask = region((0, 0, 6, 24))
    over = [Drawn(rng, code, depth, (2, 2, 9, 15), mask=mask, target=(1, 3, 8, 23), source=(3, 1, 9, 12)).opcode for code, depth in ((0x91, 1), (0x99, 4), (0x9B, 16))]
    for some in (over[:1], over, [clip, *over[1:]], [over[1], clip, over[2], (1, region(BOX)), over[0]]):
        yield picture(BOX, some), None
    other = Drawn(rng, 0x98, 8, BOX, mode=1).opcode
    for version, some in ((1, [LINE, flat.opcode]), (2, [flat.opcode, LINE, TEXT, *OVALS, other, LINE]), (2, [(0x0C, bytes(4)), flat.opcode, (0x0C, b"\0\1\0\0")])):
        yield picture(BOX, some, version), flat if other not in some else None
    shapes = [(code, b"\0\x0a" + bytes(8) if code in (0x72, 0x84) else bytes(12 if code == 0x61 else 8)) for code in (0x30, 0x31, 0x44, 0x61, 0x72, 0x84)]
    yield picture(BOX, [flat.opcode, *shapes, (0x35, bytes(8)), (0x3D, b""), (0x8200, bytes(4)), (0x8201, bytes(3) + b"\1x"), (0xA0, bytes(2)), (0x7FFF, bytes(254))]), flat


def undrawn():
    """Resources of which no picture is written, with what is said."""
    rng, flat = random.Random(12), Drawn(random.Random(12), 0x98, 1, BOX, row=12, flat=True)
    direct = lambda depth, packing, parts: (0x9A, bytes(4) + pixel_map(96, BOX, depth, packing, parts) + rect(*BOX) * 2 + bytes(2))
    yield b"", message("few bytes", 12)
    yield bytes(12), message("few bytes", 14)
    yield bytes(14), message("PICT version", 10)
    yield picture(BOX, [flat.opcode], 1)[:-1], message("few bytes", 12 + 1 + len(flat.opcode[1]) + 1)
    yield picture(BOX, [(1, b"\0\x08" + bytes(6))]), message("region size", 16)
    yield picture(BOX, [(0x12, b"\0\3" + bytes(14))]), message("pattern type", 16)
    yield picture(BOX, [(0x98, pixel_map(24, BOX, 3) + bytes(90))]), message("dot bits", 44)
    yield picture(BOX, [direct(8, 0, 3)]), message("dot bits", 48)
    yield picture(BOX, [(0x98, b"\0\2" + rect(*BOX) + bytes(90))]), message("short rows", 16)
    yield picture(BOX, [direct(32, 5, 3)]), message("dot packing", 32)
    yield picture(BOX, [direct(32, 4, 2)]), message("dot parts", 50)
    yield picture((0, 0, 0, 4), [flat.opcode]), message("no dot")
    yield picture((0, 0, 4097, 4096), [flat.opcode]), message("many dots")
    wide = Drawn(rng, 0x98, 1, BOX, target=(0, 0, 4096, 4096)).opcode
    yield picture((0, 0, 4096, 4096), [(1, region((0, 0, 4096, 4096), (0, *range(0, 40, 2)))), wide]), message("much work")
    yield picture(BOX, [LINE], 1), message("nothing drawn", "1 line")
    yield picture(BOX, [TEXT, LINE, *OVALS, LINE, Drawn(rng, 0x98, 8, BOX, mode=36).opcode]), message("nothing drawn", "2 lines, 2 ovals, 1 text and 1 map in another mode")


# command lines, with their status and what is said, or words of it
LINES = [
    (["show", "FILE", "STR ", "2", "--as", "text"], 2, message("no text")),
    (["show", "FILE", "snd ", "1", "--as", "png"], *refusal("FILE", "no picture", "'snd '")),
    (["show", "FILE", "ICON", "--as", "png"], *refusal("FILE", "many pictures")),
    (["show", "FILE", "--as", "png"], *refusal("FILE", "many pictures")),
    (["show", "FILE", "ICON", "1", "--as", "gif"], *refusal("error", "bad form")),
    (["show", "FILE", "ICON", "9"], *refusal("FILE", "no resource", "ICON 9")),
    (["show", "FILE", "ICON", "no name"], *refusal("FILE", "no resource", 'ICON "no name"')),
    (["show", "FILE", "none"], *refusal("FILE", "no type", "none")),
    (["show", "FILE", "ICON", "9", "1"], 2, "Usage"),
    (["show", "FILE", "ICON", "1", "-o", "NO_SUCH_FOLDER/out"], 4, "-o"),
    (["show", "NO_SUCH_FILE"], *refusal("NO_SUCH_FILE", "unreadable", MISSING)),
    (["unpack", "FILE"], 2, "Usage"),
    (["unpack", "FILE", "NO_SUCH_FOLDER/out"], *refusal("FILE", "no folder", "NO_SUCH_FOLDER/out", MISSING)),
    (["unpack", "NO_SUCH_FILE", "NO_SUCH_FOLDER/out"], *refusal("NO_SUCH_FILE", "unreadable", MISSING)),
]


# what comes after `show FILE`, where OUT is a new file: forms that aren't made, with what is said
UNMADE = [
    (["snd ", "1", "-o", "OUT.png"], message("no picture", "'snd '")),
    (["snd ", "1", "-o", "OUT.PNG"], message("no picture", "'snd '")),
    (["STR ", "2", "-o", "OUT.png"], message("no picture", "'STR '")),
    (["ICON", "-o", "OUT.png"], message("many pictures")),
    (["-o", "OUT.png"], message("many pictures")),
    (["ICON", "1", "-o", "OUT.gif"], message("unmade")),
    (["ICON", "1", "-o", "OUT.JPEG"], message("unmade")),
    (["snd ", "1", "-o", "OUT.wav"], message("unheard", message("few bytes", 6))),
    (["ICON", "1", "-o", "OUT.Wav"], message("no sound", "'ICON'")),
    (["snd ", "-o", "OUT.wav"], message("many sounds")),
    (["snd ", "1", "-o", "OUT.aiff"], message("unmade")),
    (["ICON", "1", "--as", "gif", "-o", "OUT.gif"], message("bad form")),
    (["snd ", "1", "--as", "png", "-o", "OUT"], message("no picture", "'snd '")),
    (["STR ", "2", "--as", "text", "-o", "OUT.txt"], message("no text")),
]


def fork_of(rows):
    """The fork of rows of which those of a type are together."""
    kinds = {}
    for row in rows:
        kinds.setdefault(row.kind, []).append(row)
    data, names, lists, entries = b"", b"", b"", b""
    for kind, some in kinds.items():
        entries += struct.pack(">4s2H", kind, len(some) - 1, 2 + 8 * len(kinds) + len(lists))
        for row in some:
            lists += struct.pack(">hHB", row.ident, 0xFFFF if row.name is None else len(names), row.attributes) + len(data).to_bytes(3, "big") + bytes(4)
            names += b"" if row.name is None else bytes([len(row.name)]) + row.name
            data += struct.pack(">I", len(row.data)) + row.data
    body = struct.pack(">H", (len(kinds) - 1) % 65536) + entries + lists
    header = struct.pack(">4I", 256, 256 + len(data), len(data), 28 + len(body) + len(names))
    return header + bytes(range(240)) + data + header + bytes(6) + struct.pack(">3H", 3, 28, 28 + len(body)) + body + names


def must(holds, what):
    if not holds:
        raise Difference(what)


def try_shown(program, path):
    """Compares pictures and texts, one at a time and together."""
    for kind, data, rows in PICTURES:
        write(path, fork_of([Row(kind, 1, None, 0, data)]))
        status, png, told = run(program, ["show", path, kind.decode(), "1"])
        must((status, told) == (0, "") and read_png(png) == rows, f"{kind} isn't shown as it should be: {told}")
        compare("show -o", run(program, ["show", path, kind.decode(), "1", "--as", "png", "-o", path + ".png"]), 0, b"", "")
        with open(path + ".png", "rb") as file:
            must(file.read() == png, f"{kind}: -o writes something else")
        status, text, _ = run(program, ["show", path])
        must(status == 0 and text.startswith(kind + b" 1\n000000  "), f"{kind} among others isn't shown in digits")
    deep = bytes(range(256)) * 4
    write(path, fork_of([Row(b"ICN#", 2, None, 0, bytes(256)), Row(b"ICN#", 1, None, 0, ICON + MASK), Row(b"icl8", 1, None, 0, deep)]))
    status, png, told = run(program, ["show", path, "icl8", "1"])
    must((status, told) == (0, "") and read_png(png) == pixels(deep, 32, MASK, 8), f"an icon in colour hasn't the mask with its id: {told}")
    for kind, data, text in TEXTS:
        write(path, fork_of([Row(kind, -3, b"a \"b\"", 0, data)]))
        compare(f"show {kind} {data}", run(program, ["show", path, kind.decode(), "-3"]), 0, text.encode(), "")
        title = f'{kind.decode()} -3 "a \\"b\\""\n'
        compare(f"show {kind} {data}", run(program, ["show", path, kind.decode()]), 0, (title + text).encode(), "")
    write(path, fork_of([Row(b"TEXT", 1, None, 0, b"a\xa9")]))
    compare("show --as hex", run(program, ["show", path, "TEXT", "1", "--as", "hex"]), 0, ("000000  61 A9" + " " * 44 + "a\u00a9\n").encode(), "")


def try_drawings(program, path, out):
    """Compares the PNG files of pictures in QuickDraw's language with their dots, what is said of what isn't drawn, and of those that are none."""
    tried = 0
    for data, drawn in drawings():
        write(path, fork_of([Row(b"PICT", 128, None, 0, data)]))
        rows, lacking = [[(*dot, 255) for dot in line] for line in dots(data)], left(data)
        must(drawn is None or drawn.dots == dots(data), f"the model draws another picture of {drawn and drawn.opcode}")
        told = f"{path}: {message('drawn without', lacking)}\n" if lacking else ""
        status, png, said = run(program, ["show", path, "PICT", "128"])
        must((status, said) == (0, told) and read_png(png) == rows, f"picture {tried} isn't shown as it should be: {status} {said}")
        tried += 1
    compare("show -o", run(program, ["show", path, "PICT", "128", "-o", out]), 0, b"", told)
    with open(out, "rb") as file:
        must(read_png(file.read()) == rows, "-o writes another picture")
    os.remove(out)
    for data, why in undrawn():
        write(path, fork_of([Row(b"PICT", 128, None, 0, data)]))
        for words in ([], ["--as", "png"], ["-o", out]):
            compare(f"show {words}", run(program, ["show", path, "PICT", "128", *words]), 2, b"", f"{path}: {message('undrawn', why)}")
        must(not os.path.exists(out), "a picture that isn't drawn is written")
        tried += 1
    status, text, told = run(program, ["show", path, "PICT"])
    must((status, told) == (0, "") and text.startswith(b"PICT 128\n000000  "), "a picture among others isn't shown in digits")
    return tried


def try_sounds(program, path, out):
    """Compares the WAV files of sounds with their samples, and what is said of those that are none."""
    for data, sound in SOUNDS:
        write(path, fork_of([Row(b"snd ", 1, None, 0, data)]))
        compare("show -o", run(program, ["show", path, "snd ", "1", "-o", out]), 0, b"", "")
        with open(out, "rb") as file:
            must(read_wav(file.read()) == sound, f"a sound of {len(data)} bytes, {sound[:3]}, isn't written as it should be")
        os.remove(out)
    for data, told in SILENT:
        write(path, fork_of([Row(b"snd ", 1, None, 0, data)]))
        compare("show -o", run(program, ["show", path, "snd ", "1", "-o", out]), 2, b"", message("unheard", told))
        must(not os.path.exists(out), "a sound that can't be had is written")


def try_forms(program, path, out):
    """Compares which forms are refused, so that nothing is written, and what names none."""
    for words, told in UNMADE:
        words = [it.replace("OUT", out) for it in words]
        made = words[-1]
        compare(f"show {words}", run(program, ["show", path, *words]), 2, b"", told)
        must(not os.path.exists(made), f"show {words}: it is refused, and a file is written")
        write(made, b"old")
        compare(f"show {words}", run(program, ["show", path, *words]), 2, b"", told)
        with open(made, "rb") as file:
            must(file.read() == b"old", f"show {words}: it is refused, and the file is another")
        os.remove(made)
    for words, begin in ((["ICON", "1", "-o", "OUT.Png"], b"\x89PNG"), (["ICON", "1", "--as", "hex", "-o", "OUT.png"], b"000000  "), (["ICON", "1", "-o", "OUT.d/out"], b"\x89PNG")):
        words = [it.replace("OUT", out) for it in words]
        os.makedirs(out + ".d", exist_ok=True)
        compare(f"show {words}", run(program, ["show", path, *words]), 0, b"", "")
        with open(words[-1], "rb") as file:
            must(file.read().startswith(begin), f"show {words} writes something else")


def try_short(program, path):
    """Compares what is shown as text of resources of which some are too short: the others, and which those are."""
    write(path, fork_of([Row(b"STR ", 1, None, 0, b"\1a"), Row(b"STR ", 2, b"b", 0, b"\2b"), Row(b"STR ", 3, None, 0, b"\1c"), Row(b"STR#", 4, None, 0, b"\0\1"), Row(b"vers", 5, None, 0, b"")]))
    strings = "STR  1\na\nSTR  3\nc\n"
    for words, named in ((["STR "], ["STR  2"]), ([], ["STR  2", "STR# 4", "vers 5"])):
        status, shown, told = run(program, ["show", path, *words, "--as", "text"])
        lines = [f"{path}: {it}: {message('no text')}" for it in named]
        must((status, shown.decode(), told.splitlines()) == (2, strings, lines), f"show {words} --as text: status {status}, it wrote {shown!r} and told {told!r}")
    compare("show without a form", run(program, ["show", path, "STR "]), 0, ("STR  1\na\nSTR  2 \"b\"\n000000  02 62" + " " * 44 + ".b\nSTR  3\nc\n").encode(), "")


# a compressed resource as System 7 has them: signature, header of 18 bytes, version 8, attributes, and 1024 bytes unpacked
PACKED = bytes.fromhex("A89F6572 0012 08 01 00000400 4000 0000 0000") + bytes(range(110))
TOLD = message("compressed", 1024)


def try_compressed_lists(program, path, rows):
    """Compares how compressed resources are listed: of a file by its name and as bytes, as text, with digests and as JSON, of a damaged fork too."""
    marks = {("ICON", 1): 1024, ("STR ", 4): 1024}
    lines = [line + (f" compressed:{marks[row.kind.decode(), row.ident]}" if (row.kind.decode(), row.ident) in marks else "") for row, line in zip(rows, listing(rows).splitlines())]
    text = "".join(f"{line}\n" for line in lines).encode()
    compare("ls", run(program, ["ls", path]), 0, text, "")
    compare("ls -", whole(program, path, ["ls", "-"]), 0, text, "")
    compare("ls -t", run(program, ["ls", "-t", "STR", path]), 0, b"".join(text.splitlines(True)[3:]), "")
    digests = "".join(f"{line} {hashlib.sha256(row.data).hexdigest()}\n" for row, line in zip(rows, lines)).encode()
    compare("ls --sha256", run(program, ["ls", "--sha256", path]), 0, digests, "")
    compare("salvage", run(program, ["salvage", path]), 0, text, "")
    for words in ([], ["--data", "base64"], ["--sha256"]):
        status, line, told = run(program, ["ls", "--json", *words, path])
        found = [{name: it[name] for name in ("compressed", "unpacked") if name in it} for it in json.loads(line)["resources"]]
        wanted = [{"compressed": True, "unpacked": marks[row.kind.decode(), row.ident]} if (row.kind.decode(), row.ident) in marks else {} for row in rows]
        must((status, told, found) == (0, "", wanted), f"ls --json {words} says {found}")


def try_compressed(program, path, out):
    """Compares what is shown of compressed resources, and of those that only look so: without bit 0, without the signature, and too short."""
    rows = [Row(b"ICON", 1, None, 1, PACKED), Row(b"ICON", 2, None, 0, PACKED), Row(b"ICON", 3, None, 1, b"\xa9" + PACKED[1:])]
    rows += [Row(b"STR ", 4, None, 1, PACKED), Row(b"STR ", 5, None, 1, PACKED[:11]), Row(b"STR ", 6, None, 1, b"\1a")]
    write(path, fork_of(rows))
    for words in (["ICON", "1"], ["ICON", "1", "--as", "png"], ["ICON", "1", "--as", "text"], ["STR ", "4"], ["ICON", "1", "-o", out]):
        compare(f"show {words}", run(program, ["show", path, *words]), 2, b"", f"{path}: {TOLD}")
    must(not os.path.exists(out), "a compressed resource is refused, and a file is written")
    for ident in ("2", "3"):
        status, png, told = run(program, ["show", path, "ICON", ident])
        must((status, told) == (0, "") and png.startswith(b"\x89PNG"), f"ICON {ident}, which isn't compressed, isn't shown as a picture")
    status, digits, told = run(program, ["show", path, "ICON", "1", "--as", "hex"])
    must((status, told) == (0, "") and digits.startswith(b"000000  A8 9F 65 72 "), "a compressed resource isn't shown in digits")
    compare("get", run(program, ["get", path, "ICON", "1"]), 0, PACKED, "")
    try_compressed_lists(program, path, rows)
    short = "000000  A8 9F 65 72 00 12 08 01 00 00 04" + " " * 17
    listed = f"STR  4\n{TOLD}\nSTR  5\n{short}"
    status, shown, told = run(program, ["show", path, "STR "])
    must((status, told) == (0, "") and shown.decode().startswith(listed) and shown.endswith(b"\nSTR  6\na\n"), f"compressed resources among others are shown as {shown!r}")
    status, shown, told = run(program, ["show", path, "STR ", "--as", "text"])
    must((status, shown) == (2, b"STR  6\na\n") and f"{path}: STR  4: {TOLD}\n" in told, f"compressed resources among others are shown as {shown!r}, and {told!r}")


def write(path, data):
    with open(path, "wb") as file:
        file.write(data)


def try_unpack(program, path, folder, fork, rows):
    """Compares the folder that a fork is unpacked to."""
    write(path, fork)
    compare("unpack", run(program, ["unpack", path, folder]), 0, b"", "")
    found, counts, kinds = {}, {}, {row.kind for row in rows}
    for kind in os.listdir(folder):
        if kind != "resources.json":
            for name in os.listdir(os.path.join(folder, kind)):
                with open(os.path.join(folder, kind, name), "rb") as file:
                    found[f"{kind}/{name}"] = file.read()
    with open(os.path.join(folder, "resources.json"), encoding="utf-8") as file:
        said = json.load(file)
    must(len({it.lower() for it in found}) == len(found) == len(rows) == len(said["resources"]), "two resources have one path, or a file is missing")
    for row, one in zip(rows, said["resources"]):
        kind, _, name = one["file"].partition("/")
        nth = counts[row.kind, row.ident] = counts.get((row.kind, row.ident), -1) + 1
        must(kind == folder_name(row.kind, kinds), f"{kind} isn't the folder of {row.kind}")
        must(name == file_name(row.ident, nth, row.name) and len(name) <= 255, f"{name} isn't the file of {row.ident} {row.name}")
        must(found[one["file"]] == row.data, f"{one['file']} has other bytes")
        told = (one["type"].encode("mac_roman"), one["id"], one["name"], one["attributes"])
        named = None if row.name is None else row.name.decode("mac_roman")
        must(told == (row.kind, row.ident, named, row.attributes), f"resources.json says {told} of {row.kind} {row.ident}")
    compare("unpack again", run(program, ["unpack", path, folder]), 4, b"", refusal(path, "files there", folder)[1])
    return said


def try_folders(program, path, top, count):
    """Unpacks forks: one with types and names that file systems don't take, and random ones."""
    kinds = [b"TEXT", b"text", b"Text", b"STR ", b"snd ", b"ics#", b"    ", b"..//", b"~a~A", b"%41_", b"\xa9abc", b"nul\0", b"CON:"]
    names = [None, b"", b"a/b", b"..", b"x" * 255, bytes(range(72)), b"\xff" * 255, b"Read me"]
    rows = [Row(kind, at, names[at % len(names)], at & 255, bytes([at & 255])) for kind in kinds for at in (0, 1, 1, -1, 2, 3, 1, 7, 4, 5, 6)]
    said = try_unpack(program, path, os.path.join(top, "odd"), fork_of(rows), rows)
    must((said["extra"], said["map_attributes"]) == (bytes(range(240)).hex().upper(), 3), "resources.json says other extra bytes or attributes")
    compare("unpack -t", run(program, ["unpack", "-t", "text", "-t", "STR", path, os.path.join(top, "some")]), 0, b"", "")
    must(set(os.listdir(os.path.join(top, "some"))) == {"~text", "STR_", "resources.json"}, "unpack -t writes other types")
    write(path, fork_of([Row(kind, 1, None, 0, b"") for kind in (b"icl8", b"snd ", b"TEXT", b"Text", b"~abc")]))
    compare("unpack", run(program, ["unpack", path, os.path.join(top, "plain")]), 0, b"", "")
    must(set(os.listdir(os.path.join(top, "plain"))) == {"icl8", "snd_", "TEXT", "T~ext", "%7Eabc", "resources.json"}, "a type that clashes with no other has no plain folder")
    empty = os.path.join(top, "empty")
    os.mkdir(empty)
    compare("an empty folder", run(program, ["unpack", path, empty]), 0, b"", "")
    compare("a file", run(program, ["unpack", path, path]), 4, b"", path)
    tried = 0
    for number in range(count):
        fork = Choices(number).fork()
        try:
            rows = read_fork(fork) if fork else []
        except NoFork:
            continue
        tried += 1
        try_unpack(program, path, os.path.join(top, str(number)), fork, rows)
    return tried


def try_containers(program, path, folder, data):
    """What a container says is in resources.json."""
    fork = fork_of([Row(b"TEXT", 128, b"Read me", 0, data)])
    header = bytearray(128)
    header[1:9] = b"\x07My file"
    header[65:73], header[73] = b"APPLMine", 0x21
    header[83:91] = struct.pack(">2I", 0, len(fork))
    header[91:99] = struct.pack(">2I", 3000000000, 3000000001)
    header[101], header[122], header[123] = 0x04, 129, 129
    remainder = 0
    for byte in header[:124]:
        remainder ^= byte << 8
        for _ in range(8):
            remainder = (remainder << 1) ^ (0x1021 if remainder & 0x8000 else 0)
        remainder &= 0xFFFF
    header[124:126] = struct.pack(">H", remainder)
    said = try_unpack(program, path, folder, bytes(header) + fork + bytes(-len(fork) % 128), [Row(b"TEXT", 128, b"Read me", 0, data)])
    told = [said[it] for it in ("container", "type", "creator", "flags", "created", "modified")]
    must(told == [message("macbinary II"), "APPL", "Mine", 0x2104, 3000000000, 3000000001], f"resources.json says {told} of a MacBinary file")


def try_failure(program, path, folder):
    """A folder that can't be written to: what failed is reported, and no resources.json is there."""
    if os.geteuid() == 0:
        return
    os.mkdir(folder, 0o500)
    write(path, fork_of([Row(b"TEXT", 1, None, 0, b"")]))
    compare("a folder that takes nothing", run(program, ["unpack", path, folder]), 4, b"", folder)
    must(os.listdir(folder) == [], "something is in a folder that takes nothing")


def main(resfork, number=60):
    with tempfile.TemporaryDirectory() as top:
        path = os.path.join(top, "fork")
        try:
            try_shown(resfork, path)
            drawn = try_drawings(resfork, path, os.path.join(top, "drawing.png"))
            try_sounds(resfork, path, os.path.join(top, "sound.wav"))
            write(path, fork_of([Row(b"STR ", 2, None, 0, b"\x09"), Row(b"snd ", 1, None, 0, b""), Row(b"ICON", 1, None, 0, ICON)]))
            for words, status, told in LINES:
                words = [path if it == "FILE" else it for it in words]
                compare(" ".join(words), run(resfork, words), status, b"", re.sub("^FILE:", f"{path}:", told))
            try_forms(resfork, path, os.path.join(top, "form"))
            try_short(resfork, path)
            try_compressed(resfork, path, os.path.join(top, "icon.png"))
            tried = try_folders(resfork, path, top, number)
            try_containers(resfork, path, os.path.join(top, "container"), b"abc")
            try_failure(resfork, path, os.path.join(top, "closed"))
        except (Difference, AssertionError) as difference:
            print(f"resources that are shown and unpacked: {difference!r}")
            return 1
    print(f"resources that are shown and unpacked: {len(PICTURES) + drawn} pictures, {len(SOUNDS) + len(SILENT)} sounds, {len(TEXTS)} texts, {len(LINES)} command lines and {tried + 3} forks as they should be")
    return 0
