"""The resource fork in AppleSingle, AppleDouble, MacBinary and BinHex 4.0, as a small model.

It is written from their published formats alone, and shares nothing with the program.
"""
import binascii
import re
import struct

from model.messages import pattern

DIGITS = {byte: value for value, byte in enumerate(b"!\"#$%&'()*+,-012345689@ABCDEFGHIJKLMNPQRSTUVXYZ[`abcdefhijklmpqr")}
# the part of the comment that all tools have; macutils goes on otherwise than RFC 1741
COMMENT = re.compile(rb"(?:\A|[\r\n])[\t ]*\(This file must be converted")

# what is said of a container that is damaged, or has no such fork
TOLD = {it: pattern(it) for it in ("short", "version", "list", "entry", "sum", "fork", "no colon", "closed", "crc", "absent")}
TOLD["text"] = pattern("no digit", "open", "no byte before", "no count after")


class NoContents(Exception):
    """A container isn't read; the argument says why."""


def must(holds, fault):
    if not holds:
        raise NoContents(fault)


def in_apple(file):
    """The fork in AppleSingle or AppleDouble: the first entry with the id 2. No entry has bytes outside the file."""
    must(len(file) >= 26, "short")
    must(file[4:8] in (b"\0\1\0\0", b"\0\2\0\0"), "version")
    count = struct.unpack(">H", file[24:26])[0]
    must(26 + 12 * count <= len(file), "list")
    entries = [struct.unpack(">III", file[at : at + 12]) for at in range(26, 26 + 12 * count, 12)]
    must(all(length == 0 or start + length <= len(file) for _, start, length in entries), "entry")
    return next((file[start : start + length] for kind, start, length in entries if kind == 2), b"")


def mac_binary_version(file):
    """1 to 3, or None."""
    if len(file) < 128 or file[0] or file[74] or file[82] or not 1 <= file[1] <= 63:
        return None
    if file[102:106] == b"mBIN":
        return 3
    if file[122] >= 129 and file[123] == 129:
        return 2
    data, resource = struct.unpack(">II", file[83:91])
    return 1 if not any(file[101:126]) and data < 0x800000 and resource < 0x800000 else None


def in_mac_binary(version, file):
    """The fork after the header, a second header, and the data fork, each filled up to 128 bytes."""
    must(version == 1 or struct.unpack(">H", file[124:126])[0] == binascii.crc_hqx(file[:124], 0), "sum")
    data, resource = struct.unpack(">II", file[83:91])
    start = 128 + -(-struct.unpack(">H", file[120:122])[0] // 128) * 128
    must(data == 0 or start + data <= len(file), "fork")
    start += -(-data // 128) * 128
    must(resource == 0 or start + resource <= len(file), "fork")
    return file[start : start + resource]


def decoded(file, start):
    """The bytes of a BinHex text from its first colon on, and the fault at which they end, if there is one."""
    digits, fault = [], "text"
    for byte in file[start:]:
        if byte == 58:
            fault = None
            break
        if byte in b"\t\n\r ":
            continue
        if byte not in DIGITS:
            break
        digits.append(DIGITS[byte])
    bits = "".join(f"{digit:06b}" for digit in digits)
    packed = bytes(int(bits[at : at + 8], 2) for at in range(0, len(bits) - 7, 8))
    values, at = bytearray(), 0
    while at < len(packed):
        if packed[at] != 0x90:
            values.append(packed[at])
        else:
            at += 1
            if at == len(packed):
                return bytes(values), fault or "text"
            if packed[at] == 0:
                values.append(0x90)
            elif not values:
                return bytes(values), "text"
            else:
                values += values[-1:] * (packed[at] - 1)
        at += 1
    return bytes(values), fault


def in_bin_hex(file, after):
    """The fork in a BinHex text, whose first colon begins a line after the comment."""
    colon = re.compile(rb"(?:(?<=[\r\n])|\A)[\t ]*:").search(file, after)
    must(colon, "no colon")
    values, fault = decoded(file, colon.end())
    at = 0

    def section(length):
        nonlocal at
        must(at + length + 2 <= len(values), fault or "closed")
        part, stored = values[at : at + length], values[at + length : at + length + 2]
        must(binascii.crc_hqx(part, 0) == int.from_bytes(stored, "big"), "crc")
        at += length + 2
        return part

    must(values, fault or "closed")
    head = section(values[0] + 20)
    data, resource = struct.unpack(">II", head[-8:])
    section(data)
    fork = section(resource)
    must(not fault, fault)
    return fork


# what is there in spite of a fault


def apple_parts(file):
    """Where the entries say that the data fork and the resource fork are: the first of each id, of those that are listed within the file."""
    count = struct.unpack(">H", file[24:26])[0] if len(file) >= 26 else 0
    places = range(26, min(26 + 12 * count, len(file) - 11), 12)
    parts = {}
    for kind, start, length in (struct.unpack(">III", file[at : at + 12]) for at in places):
        parts.setdefault(kind, (start, length))
    return [parts.get(kind) for kind in (1, 2)]


def mac_binary_parts(file):
    """Where the lengths in the header say that they are."""
    data, resource = struct.unpack(">II", file[83:91])
    start = 128 + -(-struct.unpack(">H", file[120:122])[0] // 128) * 128
    return [(start, data), (start + -(-data // 128) * 128, resource)]


def mended(text):
    """A text with the digit of six zero bits for each character that is no digit, no blank and no end of a line, and for a colon before a digit."""
    good = set(DIGITS) | set(b"\t\n\r ")
    is_good = lambda at: text[at] in good or (text[at] == 58 and text[at + 1 : at + 2] not in map(bytes, zip(DIGITS)))
    return bytes(text[at] if is_good(at) else min(DIGITS, key=DIGITS.get) for at in range(len(text)))


def digits_in_spite(file):
    """The text after the colon that begins it. Where no line begins with one before a digit, it begins with the first character after the line of
    the comment, if that is a digit, and else after it: it stands where the colon should be."""
    after = COMMENT.search(file).end()
    colon = re.compile(rb"(?:(?<=[\r\n])|\A)[\t ]*:").search(file, after)
    if colon and set(file[colon.end() :]) & set(DIGITS):
        return file[colon.end() :]
    line = re.compile(rb"[\r\n][\t\n\r ]*").search(file, after)
    rest = file[line.end() :] if line else b""
    return rest if rest and rest[0] in DIGITS else rest[1:]


def text_parts(values):
    """Where the lengths in the header of what a text stands for say that they are."""
    if len(values) < (values[0] if values else 0) + 20:
        return [None, None]
    start = values[0] + 22
    data, resource = struct.unpack(">II", values[start - 10 : start - 2])
    return [(start, data), (start + data + 2, resource)]


def in_spite(file):
    """The data fork and the resource fork of a file in a container, as far as its bytes reach: of each how many bytes it should have, and those
    that are there; or None."""
    if file[:4] in (b"\0\5\x16\0", b"\0\5\x16\7"):
        parts = apple_parts(file)
    elif mac_binary_version(file):
        parts = mac_binary_parts(file)
    else:
        file = decoded(mended(digits_in_spite(file)), 0)[0]
        parts = text_parts(file)
    there = [part and (part[1], file[part[0] : part[0] + part[1]]) for part in parts]
    return [part if part and part[1] else None for part in there]


def has_fork_parts(file):
    """Whether the file has the header of a fork whose data and map lie within it, and isn't a text, which has no zero byte."""
    if len(file) < 16 or 0 not in file[:16]:
        return False
    data_at, map_at, data_length, map_length = struct.unpack(">4I", file[:16])
    return data_at + data_length <= len(file) and map_at + map_length <= len(file) and map_length >= 28


def resource_fork(file):
    """The bytes that are the file's resource fork: those in its container, or the whole file."""
    if len(file) >= 16 and not (file[0] or file[4] or file[8] or file[12]) and struct.unpack(">I", file[12:16])[0] >= 28:
        return file
    fork = None
    if file[:4] in (b"\0\5\x16\0", b"\0\5\x16\7"):
        fork = in_apple(file)
    elif version := mac_binary_version(file):
        fork = in_mac_binary(version, file)
    elif (comment := COMMENT.search(file)) and not has_fork_parts(file):
        fork = in_bin_hex(file, comment.end())
    else:
        return file
    must(fork, "absent")
    return fork
