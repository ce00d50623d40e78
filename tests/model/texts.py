"""The texts of resources, as a small model: where they are in the bytes, and the lines that say them.

It is written from Inside Macintosh (Macintosh Toolbox Essentials, chapters 3 to 7; Text) and MPW's Types.r, and shares nothing with the program.
"""
import re
import struct

TITLE_AT = {b"WIND": 18, b"DLOG": 20, b"CNTL": 22}
# the types of a dialog's items that have a text
BUTTON, CHECK, RADIO, STATIC, EDIT = 4, 5, 6, 8, 16
MOST = 255


class NotOfType(Exception):
    """The bytes aren't those of a resource of the type."""


def must(holds):
    if not holds:
        raise NotOfType


def string_at(data, at):
    """Where the string after a byte of length begins and ends."""
    must(at < len(data) and at + 1 + data[at] <= len(data))
    return at + 1, at + 1 + data[at]


def strings_from(data, at, count):
    found = []
    for _ in range(count):
        start, at = string_at(data, at)
        found.append((start, at))
    return found, at


def menu(data):
    """The title, the items up to the byte that is 0, and nothing after it."""
    start, at = string_at(data, 14)
    found = [("title", start, at)]
    while must(at < len(data)) or data[at] != 0:
        start, at = string_at(data, at)
        found.append((f"[{len(found)}]", start, at))
        at += 4
        must(at <= len(data))
    must(at + 1 == len(data))
    return found


def items(data):
    """Of each item a long word, a rectangle, a type and data, on a whole word."""
    must(len(data) >= 2)
    at, found = 2, []
    for number in range((struct.unpack(">H", data[:2])[0] + 1) % 65536):
        must(at + 13 < len(data))
        kind = data[at + 12] & 127
        start, at = string_at(data, at + 13)
        if kind in (BUTTON, CHECK, RADIO, STATIC, EDIT):
            found.append((f"[{number + 1}]", start, at))
        if at % 2:
            must(at < len(data) and data[at] == 0)
            at += 1
    must(at == len(data))
    return found


def after_title(data, at):
    """After the title of a dialog or a window is nothing, or words, the first of them on a whole word."""
    if at < len(data):
        must(at % 2 == 0 or data[at] == 0)
        must((len(data) - at - at % 2) % 2 == 0 and len(data) > at + at % 2)


def spans(kind, data):
    """The texts of a resource: the place of each, and where its bytes begin and end. None of a type without texts."""
    if kind == b"STR ":
        start, end = string_at(data, 0)
        must(end == len(data))
        return [("", start, end)]
    if kind == b"STR#":
        must(len(data) >= 2)
        found, end = strings_from(data, 2, struct.unpack(">H", data[:2])[0])
        must(end == len(data))
        return [(f"[{it + 1}]", *span) for it, span in enumerate(found)]
    if kind == b"TEXT":
        return [("", 0, len(data))]
    if kind == b"MENU":
        return menu(data)
    if kind == b"DITL":
        return items(data)
    if kind in TITLE_AT:
        start, end = string_at(data, TITLE_AT[kind])
        if kind == b"CNTL":
            must(end == len(data))
        else:
            after_title(data, end)
        return [("title", start, end)]
    if kind == b"vers":
        found, end = strings_from(data, 6, 2)
        must(end == len(data))
        return [(place, *span) for place, span in zip(("short", "long"), found)]
    return None


def put(kind, data, texts):
    """The bytes with these texts by their places: each with its length, and what comes after it on a whole word where the type says so."""
    if kind == b"DITL":
        return put_items(data, texts)
    new, at = b"", 0
    for place, start, end in spans(kind, data):
        text = texts.get(place, data[start:end])
        counted = kind != b"TEXT"
        must(not counted or len(text) <= MOST)
        must(text or kind != b"MENU" or place == "title")
        new += data[at : start - counted] + (bytes([len(text)]) if counted else b"") + text
        at = end
    if kind in (b"WIND", b"DLOG") and at < len(data):
        at += at % 2
        new += bytes(len(new) % 2)
    return new + data[at:]


def put_items(data, texts):
    """The same of the items of a dialog, all of which are on whole words."""
    new, at = data[:2], 2
    shown = {start: place for place, start, _ in spans(b"DITL", data)}
    while at < len(data):
        start, end = string_at(data, at + 13)
        text = texts.get(shown.get(start), data[start:end])
        must(len(text) <= MOST)
        new += data[at : at + 13] + bytes([len(text)]) + text
        new += bytes(len(new) % 2)
        at = end + end % 2
    return new


ESCAPES = {13: "\\n", 9: "\\t", 34: '\\"', 92: "\\\\"}


def quoted(text):
    """A text in double quotes: MacRoman in UTF-8, and what is no letter escaped."""
    letter = lambda byte: ESCAPES.get(byte) or (f"\\x{byte:02X}" if byte < 32 or byte == 127 else bytes([byte]).decode("mac_roman"))
    return '"' + "".join(map(letter, text)) + '"'


def kind_word(kind):
    """A type without the blanks at its end, one letter at least."""
    bare = kind[:1] + kind[1:].rstrip(b" ")
    return "".join("\\x20" if byte == 32 else quoted(bytes([byte]))[1:-1] for byte in bare)


def line_of(kind, ident, place, text):
    head = " ".join([kind_word(kind), str(ident)] + [place] * bool(place))
    return f"{head:16} {quoted(text)}\n"


def entries(rows):
    """The texts of rows, each as type, id, place and bytes, and the rows whose bytes aren't of their type."""
    found, odd = [], []
    for row in rows:
        if row.name is not None:
            found.append((row.kind, row.ident, "name", row.name))
        try:
            texts = spans(row.kind, row.data) or []
        except NotOfType:
            odd.append(row)
            continue
        found += [(row.kind, row.ident, place, row.data[start:end]) for place, start, end in texts]
    return found, odd


def lines(rows):
    """The lines of all texts."""
    return "".join(line_of(*entry) for entry in entries(rows)[0])
