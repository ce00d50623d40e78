"""Checks what resfork reads of damaged forks: `salvage`, `check`, and lists as JSON.

Three forks of more than 100 resources are made from fixed numbers, and in each one byte of the map is changed, 300 times. Whatever `ls`
refuses then is salvaged, and compared with the resources that were there: at least 95 of 100 are right on average. Before that come forks
that aren't damaged, which are salvaged as they are, a type that is there twice, and what is odd about forks that can be read; then
containers with each kind of fault, of which both forks are had as far as their bytes are there, and files that aren't forks. The forks are
written here, from the rules of docs/FORMAT.md.
"""
import base64
import collections
import json
import os
import random
import struct
import tempfile

from checks.fork_questions import Difference
from checks.forks import Choices, run
from model.container import TOLD, NoContents, in_spite, resource_fork
from model.contents import WRITERS, Contents
from model.fork import FORMAT, MESSAGES, NoFork, Row, listing, read_fork
from model.messages import message, refusal

FORKS, CHANGES, SHARE = 3, 300, 0.95
OTHER = message("unknown")
KINDS = [b"TEXT", b"STR ", b"CODE", b"ICN#", b"snd ", b"PAT#", b"vers", b"DITL"]


def written(entries, extra=bytes(240), attributes=0, gap=b""):
    """A fork of these entries, each a type and its rows, as the Resource Manager writes it. The gap is before the last datum."""
    rows = [row for _, rows in entries for row in rows]
    data, data_places, names, name_places = b"", [], b"", []
    for index, row in enumerate(rows):
        data += gap if index == len(rows) - 1 else b""
        data_places.append(len(data))
        data += struct.pack(">I", len(row.data)) + row.data
        name_places.append(0xFFFF if row.name is None else len(names))
        names += b"" if row.name is None else bytes([len(row.name)]) + row.name
    types, references, index = struct.pack(">H", (len(entries) - 1) % 65536), b"", 0
    for kind, of_kind in entries:
        types += struct.pack(">4sHH", kind, (len(of_kind) - 1) % 65536, 2 + 8 * len(entries) + len(references))
        for row in of_kind:
            references += struct.pack(">hHB", row.ident, name_places[index], row.attributes) + data_places[index].to_bytes(3, "big") + bytes(4)
            index += 1
    lists = types + references
    header = struct.pack(">4I", 256, 256 + len(data), len(data), 28 + len(lists) + len(names))
    return header + extra + data + header + struct.pack(">IHHHH", 0, 0, attributes, 28, 28 + len(lists)) + lists + names


def large_fork(number):
    """A fork of more than 100 resources, and its rows."""
    choices = random.Random(number)
    entries = []
    for kind in KINDS:
        rows = []
        for index in range(choices.randrange(14, 24)):
            name = choices.choice([None, f"{kind.decode().strip()} {index}".encode()])
            rows.append(Row(kind, 128 + index, name, choices.choice([0, 32, 64]), choices.randbytes(choices.randrange(200))))
        entries.append((kind, rows))
    return written(entries, choices.randbytes(240), 0x80), [row for _, rows in entries for row in rows]


def save(path, fork):
    with open(path, "wb") as file:
        file.write(fork)


def key(row):
    return row.kind, row.ident, row.name, row.attributes, row.data


def must(holds, what):
    if not holds:
        raise Difference(what)


def salvaged(program, path, fork):
    """The rows of the fork that `salvage -o` writes, or None where nothing can be read."""
    save(path, fork)
    out = path + ".out"
    if os.path.exists(out):
        os.remove(out)
    status, _, told = run(program, ["salvage", path, "-o", out])
    if status == 3:
        must(message("nothing read") in told and not os.path.exists(out), f"salvage told {told!r}")
        return None
    must(status == 0, f"salvage ended with {status} and told {told!r}")
    with open(out, "rb") as file:
        return read_fork(file.read(), FORMAT)


def listed(program, path):
    """What `check --json` and `ls --json` write of a file, with their statuses."""
    lines = []
    for words in (["check", "--json", path], ["ls", "--json", "--data", "base64", path]):
        status, text, _ = run(program, words)
        must(text.count(b"\n") == 1 and text.endswith(b"\n"), f"{words}: {text[:200]!r} is no one line")
        lines.append((status, json.loads(text)))
    return lines


def try_whole(program, path, fork):
    """A fork that isn't damaged is salvaged as it is, and has no fault."""
    rows = read_fork(fork, FORMAT) if fork else []
    found = salvaged(program, path, fork)
    must([key(row) for row in found] == [key(row) for row in rows], "salvage changed the rows of a fork that isn't damaged")
    if fork:
        must(run(program, ["salvage", path]) == (0, listing(rows).encode(), ""), "salvage lists other rows than ls")
    (checked, told), (status, json_list) = listed(program, path)
    must((checked, status, told["faults"]) == (0, 0, []), f"check ended with {checked} and told {told}")
    shown = [(it["type"].encode("mac_roman"), it["id"], it["name"] and it["name"].encode("mac_roman"), base64.b64decode(it["data"]), it["size"])
             for it in json_list["resources"]]
    wanted = [(row.kind, row.ident, row.name and row.name, row.data, len(row.data)) for row in rows]
    must([(*it[:2], it[2] or None, *it[3:]) for it in shown] == [(*it[:2], it[2] or None, *it[3:]) for it in wanted], "ls --json shows other rows")


def try_refused(program, path, fork):
    """Where `ls` refuses a fork, its fault is among those that check reports; and the reader's first condition is that of one of them."""
    status, _, told = run(program, ["ls", path])
    try:
        read_fork(fork, FORMAT)
        must(status == 0, f"ls refuses a fork that is read: {told!r}")
        return False
    except NoFork as fault:
        must(status == 3, f"ls shows a fork that isn't read, for {fault.args[0]}")
        (checked, line), (listing_status, json_list) = listed(program, path)
        must((checked, listing_status) == (3, 3) and json_list["status"] == 3, "the status of a damaged fork isn't 3")
        if "faults" not in line:
            must(line == json_list, f"check is refused with {line}, and ls with {json_list}")
            return True
        messages = [it["message"] for it in line["faults"]]
        must(MESSAGES[fault.args[0]].search(messages[0]), f"the first of {messages} is not of {fault.args[0]}")
        must(messages[0] in told, f"{told!r} is not the first of {messages}")
        return True


def try_changes(program, path, number):
    """How many changes were refused, and which share of the rows was right after each."""
    fork, rows = large_fork(number)
    try_whole(program, path, fork)
    choices, shares = random.Random(1000 + number), []
    map_at = struct.unpack(">I", fork[4:8])[0]
    there = collections.Counter(key(row) for row in rows)
    for _ in range(CHANGES):
        changed = bytearray(fork)
        place = choices.randrange(map_at, len(fork))
        changed[place] ^= choices.randrange(1, 256)
        save(path, bytes(changed))
        if not try_refused(program, path, bytes(changed)):
            continue
        found = salvaged(program, path, bytes(changed))
        right = there & collections.Counter(key(row) for row in found or [])
        shares.append(sum(right.values()) / len(rows))
    return len(rows), shares


def try_twice(program, path):
    """Rows of a type that is there twice are put together, in the order of the first of each type."""
    def row(kind, ident):
        return Row(kind, ident, None, 0, bytes([ident]))

    fork = written([(b"TEXT", [row(b"TEXT", 1), row(b"TEXT", 2)]), (b"STR ", [row(b"STR ", 3)]), (b"TEXT", [row(b"TEXT", 4)])])
    found = salvaged(program, path, fork)
    must([(it.kind, it.ident) for it in found] == [(b"TEXT", 1), (b"TEXT", 2), (b"TEXT", 4), (b"STR ", 3)], "the rows of a type that stands twice")
    status, text, _ = run(program, ["check", path])
    must(status == 3 and message("same type", "'TEXT'", "", "").split("\n")[0] in text.decode(), f"check told {text!r}")
    status, text, _ = run(program, ["salvage", "--list", path])
    must(status == 0 and [it.split()[1] for it in text.decode().splitlines()] == ["1", "2", "3", "4"], f"salvage --list wrote {text!r}")


def try_several_faults(program, path):
    """Every fault is reported, not only the first: two resources that end outside, and a name."""
    rows = [Row(b"TEXT", it, b"n", 0, b"abcd") for it in range(5)]
    fork = bytearray(written([(b"TEXT", rows)]))
    data_at, map_at = struct.unpack(">2I", fork[:8])
    fork[data_at + 8 : data_at + 12] = struct.pack(">I", 1000)  # the length of the second
    fork[data_at + 32 : data_at + 36] = struct.pack(">I", 2000)  # and of the last
    reference = map_at + 28 + 2 + 8 + 2 * 12
    fork[reference + 2 : reference + 4] = struct.pack(">H", 0x7000)  # the name of the third
    save(path, bytes(fork))
    status, text, _ = run(program, ["check", path])
    told = text.decode()
    places = [f"${data_at + 8:06X}", f"${data_at + 32:06X}", f"${map_at + 38 + 60 + 0x7000:06X}"]
    must(status == 3 and told.count("fault: ") == 3 and all(it in told for it in places), f"check told {told!r}, and not {places}")
    status, text, _ = run(program, ["salvage", path])
    lines = text.decode().splitlines()
    lost = [message("lost bytes", message("gap", length, place, left)) for length, place, left in ((1000, places[0], 28), (2000, places[1], 4))]
    unread = [message("not read", f"TEXT {it:>6}", why, f"${map_at + 38 + 12 * it:06X}") for it, why in zip((1, 4), lost)]
    must(status == 0 and [it for it in lines if "?" in it] == unread and lines[3] == "  " + message("lost name", places[2]), f"salvage wrote {lines}")


def try_odd(program, path):
    """Bytes of no resource and data that overlap are reported, and aren't faults."""
    rows = [Row(b"TEXT", it, None, 0, b"abcd") for it in range(3)]
    save(path, written([(b"TEXT", rows)], gap=bytes(10)))
    status, text, _ = run(program, ["check", path])
    must((status, text) == (0, f"warning: {message('of none', 10, 'data', f'${256 + 16:06X}')}\n".encode()), f"check told {text!r}")
    fork = bytearray(written([(b"TEXT", rows)]))
    reference = struct.unpack(">I", fork[4:8])[0] + 28 + 2 + 8 + 12
    fork[reference + 5 : reference + 8] = bytes(3)  # the second has the bytes of the first
    save(path, bytes(fork))
    status, text, _ = run(program, ["check", "--json", path])
    warnings = [(it["message"].split("\n")[0], it["place"]) for it in json.loads(text)["warnings"]]
    wanted = [(message("overlap", "data", "", "", "").split("\n")[0], 256), (message("of none", 8, "data", "").split("\n")[0], 264)]
    must((status, warnings) == (0, wanted), f"check told {text!r}")
    # the second and the third lie within the first, and not within each other
    inner = [struct.pack(">I", 1) + b"x", struct.pack(">I", 1) + b"y"]
    rows = [Row(b"TEXT", 0, None, 0, bytes(5).join(inner)), *(Row(b"TEXT", it, None, 0, b"z") for it in (1, 2))]
    fork = bytearray(written([(b"TEXT", rows)]))
    first = struct.unpack(">I", fork[4:8])[0] + 28 + 2 + 8
    for it, at in ((1, 4), (2, 14)):
        fork[first + 12 * it + 5 : first + 12 * it + 8] = at.to_bytes(3, "big")
    save(path, bytes(fork))
    status, text, _ = run(program, ["check", path])
    lines = [f"warning: {message('overlap', 'data', *(f'${place:06X}' for place in (256 + at, first, first + 12 * it)))}\n" for it, at in ((1, 4), (2, 14))]
    must((status, text.decode()) == (0, "".join(lines)), f"check told {text!r}")


def try_lost_map(program, path):
    """Where no map can be found, the runs of bytes in the data are listed."""
    rows = [Row(b"TEXT", it, None, 0, bytes(it + 1)) for it in range(4)]
    fork = bytearray(written([(b"TEXT", rows)]))
    map_at = struct.unpack(">I", fork[4:8])[0]
    save(path, bytes(fork[:map_at]))
    status, text, _ = run(program, ["salvage", path])
    sizes = [int(it.split()[2]) for it in text.decode().splitlines()]
    must(status == 0 and sizes == [1, 2, 3, 4], f"salvage wrote {text!r}")


CONTAINERS = ["applesingle", "appledouble", "macbinary", "binhex"]


def held_file():
    """A file with both forks, of which the data fork has each byte and runs."""
    rows = [Row(kind, 128 + it, b"n", 0, bytes([it] * 40 + [0x90, it])) for kind in (b"TEXT", b"STR ") for it in range(4)]
    fork = written([(kind, [row for row in rows if row.kind == kind]) for kind in (b"TEXT", b"STR ")])
    return Contents(b"Read me", b"TEXT", b"ttxt", 0x100, 3600000000, 3600000001, b"a comment", bytes(range(256)) * 2, fork), rows


def spoiled(kind, file, choices):
    """Files in a container of this kind with a fault: each with what is wrong."""
    for at in sorted(choices.sample(range(len(file) // 3, len(file)), 12)):
        yield f"cut at {at}", file[:at]
    if kind in ("applesingle", "appledouble"):
        entries = {struct.unpack(">I", file[at : at + 4])[0]: at for at in range(26, 26 + 12 * file[25], 12)}
        for ident, at in entries.items():
            yield f"entry {ident} outside", file[: at + 8] + struct.pack(">I", len(file)) + file[at + 12 :]
        yield "a version that isn't known", file[:4] + b"\0\3" + file[6:]
        yield "too many entries", file[:24] + b"\xff\xff" + file[26:]
    elif kind == "macbinary":
        for at in (2, 65, 91, 95, 99, 124):
            yield f"a bit at {at}", file[:at] + bytes([file[at] ^ 1]) + file[at + 1 :]
        yield "a longer data fork", file[:83] + struct.pack(">I", 1000) + file[87:]
    else:
        start = file.index(b"\n:") + 2
        places = [at for at in range(start, len(file.rstrip()) - 1) if file[at] not in b"\n"]
        for at in sorted(choices.sample(places, 60)):
            for other in (b"~", b".", b"\xe9", b":", bytes([file[at] ^ 1])):
                yield f"{other!r} at {at}", file[:at] + other + file[at + 1 :]
        yield "no last colon", file.rstrip()[:-1]
        yield "no first colon", file.replace(b"\n:", b"\n", 1)
        for other in (b"~", b".", b"\xe9"):
            yield f"{other!r} for the first colon", file.replace(b"\n:", b"\n" + other, 1)


def try_spoiled(program, path, kind, what, file, rows):
    """Compares what is salvaged of a file in a container with a fault. The result is whether its resources are all there."""
    try:
        resource_fork(file)
        return False
    except NoContents as fault:
        told = TOLD[fault.args[0]]
    data, resource = in_spite(file)
    out, raw = path + ".out", path + ".raw"
    for words, part, name in ((["--data", out], data, "data fork"), ([], resource, "resource fork"), (["-o", out], resource, "resource fork")):
        if os.path.exists(out):
            os.remove(out)
        save(path, file)
        status, output, said = run(program, ["salvage", path, *words])
        begins = f"{path}: {message(kind)}: "
        fault = told.match(said, len(begins))
        must(said.startswith(begins) and fault, f"{what}: salvage {words} told {said!r}")
        if part is None:
            must((status, output) == (3, b"") and not os.path.exists(out), f"{what}: salvage {words} ended with {status} and wrote {output!r}")
            continue
        must(refusal(path, "damaged container", message(kind), fault.group(), len(part[1]), part[0], name)[1] in said, f"{what}: salvage {words} told {said!r}")
        if name == "data fork":
            with open(out, "rb") as saved:
                must((status, saved.read()) == (0, part[1]), f"{what}: salvage {words} wrote another data fork")
            continue
        save(raw, part[1])
        alone = run(program, ["salvage", raw, *words[:-1], *([raw + ".out"] if words else [])])
        if alone[0] == 0:
            must((status, output) == alone[:2], f"{what}: salvage {words} ended with {status} and wrote {output!r}, and of the fork alone {alone}")
    # where something is written, each other command names salvage
    words = ASKED[len(what) % len(ASKED)]
    said = run(program, [words[0], path, *words[1:]])
    must((said[0], said[1]) == (3, b"") and said[2].startswith(begins) and said[2].endswith(message("salvage", "", path) + "\n") == (status == 0), f"{what}: {words} told {said}")
    if resource is None or resource[1] != WHOLE:
        return False
    with open(out, "rb") as saved:
        must([key(row) for row in read_fork(saved.read(), FORMAT)] == [key(row) for row in rows], f"{what}: other resources")
    return True


WHOLE = held_file()[0].resource
ASKED = [["ls"], ["info"], ["check"], ["get", "TEXT", "128"], ["show"], ["derez"]]


def try_containers(program, path):
    """Containers with faults: both forks are had as far as they are there, and the fault is named."""
    it, rows = held_file()
    choices, whole = random.Random(83), 0
    for kind in CONTAINERS:
        file = WRITERS[kind](it)
        save(path, file)
        # without a fault nothing is said, and the data fork is the whole
        must(run(program, ["salvage", path]) == (0, listing(rows).encode(), ""), f"salvage of {kind} without a fault")
        status, _, told = run(program, ["salvage", path, "--data", path + ".out"])
        if kind == "appledouble":
            must((status, told) == (3, f"{path}: {message(kind)}: {message('no data')}\n"), f"salvage --data of {kind} told {told!r}")
        else:
            with open(path + ".out", "rb") as saved:
                must((status, told, saved.read()) == (0, "", it.data), f"salvage --data of {kind} ended with {status} and told {told!r}")
        for what, changed in spoiled(kind, file, choices):
            whole += try_spoiled(program, path, kind, f"{kind}, {what}", changed, rows)
    must(whole > 100, f"only {whole} of the forks were whole")


def not_forks():
    """Files that aren't forks, with what is said of each."""
    choices = random.Random(5)
    text = b"Call me Ishmael. Some years ago - never mind how long precisely - having little or no money in my purse, " * 40
    yield "a text", text, OTHER
    yield "a short text", b"hello", OTHER
    yield "zeros", bytes(5000), OTHER
    for size in (17, 300, 5000, 100000):
        yield f"{size} random bytes", choices.randbytes(size), OTHER
    yield "an old StuffIt archive", b"SIT!" + bytes(6) + b"rLau" + choices.randbytes(500), message("archive", message("StuffIt"), message("unar").removesuffix("FILE"))
    yield "a StuffIt archive", b"StuffIt (c)1997-1998 Aladdin Systems, Inc." + choices.randbytes(500), message("archive", message("StuffIt"), message("unar").removesuffix("FILE"))
    yield "a disk image", bytes(1024) + b"BD" + choices.randbytes(3000), message("archive", message("HFS"), message("hmount").partition("FILE")[0])
    yield "a DiskCopy image", b"\4Disk" + bytes(59) + choices.randbytes(18) + b"\1\0" + choices.randbytes(3000), message("archive", message("DiskCopy"), message("tail").partition("FILE")[0])


def try_not_forks(program, path):
    """Files that aren't forks are refused in the words of `ls`, and nothing is written. Where they begin as no fork does, with 16 bytes of which none is
    zero, or are known as something else, no place in them is named."""
    out = path + ".out"
    for what, file, told in not_forks():
        save(path, file)
        lines = (2, 3) if told == OTHER and (len(file) < 16 or 0 in file[:16]) else (1,)
        if os.path.exists(out):
            os.remove(out)
        for words in (["ls", path], ["salvage", path], ["salvage", path, "-o", out], ["salvage", path, "--data", out]):
            status, output, said = run(program, words)
            must((status, output) == (3, b"") and said.startswith(f"{path}: {told}") and said.count("\n") in lines, f"{what}: {words} ended with {status}, wrote {output[:200]!r} and told {said!r}")
        must(not os.path.exists(out), f"{what}: something was written")
    save(path, written([]))
    status, output, said = run(program, ["salvage", path, "--data", out])
    must((status, output, said) == (3, b"", f"{path}: {message('raw')}: {message('no data')}\n"), f"salvage --data of a fork told {said!r}")
    # a fork in which nothing is found: the header alone
    save(path, struct.pack(">4I", 256, 512, 256, 100))
    for words in ([], ["-o", out]):
        must(run(program, ["salvage", path, *words]) == (3, b"", refusal(path, "nothing read")[1]), "salvage of a header alone")


def main(program):
    """Tries all of it, and prints how much of damaged forks is read."""
    with tempfile.TemporaryDirectory() as folder:
        path, what = os.path.join(folder, "fork"), "forks that aren't damaged"
        try:
            try_whole(program, path, b"")
            for number in range(40):
                choices = Choices(number)
                rows = choices.rows()
                try_whole(program, path, written(list(({kind: [Row(kind, *key(row)[1:]) for row in of_kind] for kind, of_kind in rows.items()}).items())))
            for attempt in (try_twice, try_several_faults, try_odd, try_lost_map, try_containers, try_not_forks):
                what = attempt.__name__
                attempt(program, path)
            counts, shares = [], []
            for number in range(1, FORKS + 1):
                what = f"large fork {number}"
                count, some = try_changes(program, path, number)
                counts.append(count)
                shares += some
        except (Difference, NoFork) as difference:
            print(f"{what}: {difference}")
            return 1
    mean = sum(shares) / len(shares)
    print(f"salvage: {FORKS * CHANGES} changes of one map byte in forks of {counts} resources; {len(shares)} were refused, and {100 * mean:.1f} of 100 resources "
          f"were right on average, {100 * min(shares):.1f} at worst; all of them after {sum(it == 1 for it in shares)}")
    return 0 if mean >= SHARE else 1
