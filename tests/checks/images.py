"""Checks what resfork reads of disk images, against volumes that tests/model/volume.py makes: their lists, and the forks of each file.

Names are typed as `ls` shows them. Images with one wrong number are read as far as they say, or refused with the place of the fault; so are
formats that aren't read. Nothing is changed in an image, and one that says more than it holds takes no more time and memory than it may.
"""
import hashlib
import os
import struct
import tempfile

from checks.fork_questions import Difference
from checks.forks import compare, run
from checks.shown import fork_of, must, write
from measured import Measure, slowness
from model.fork import Row
from model.messages import message
from model.volume import BLOCK, CHANGED, File, Folder, NotRead, Reader, catalog_key, day, disk_copy, disk_map, extents_of, filled, hfs, mfs, text, tree

FORK = fork_of([Row(b"TEXT", 128, b"Read me", 0, b"Hello"), Row(b"STR ", 1, None, 0, b"\x02Hi")])
# names with letters that aren't ASCII, that parts of paths can't have, and of all lengths
FILES = [
    File(b"Read me", b"hello" * 300, FORK),
    File(b"9/41", b"", b"x" * 700, b"APPL", b"DKCL", 0x2100),
    Folder(b"Games", [File(b"Dark Castle", b"data" * 400, FORK, pieces=7), Folder(b"Old", [File(b"Deep", b"1", b"2")]), Folder(b"Empty", [])]),
    File(b"Icon\r", b"", FORK),
    File(b"b\x8Fte \\ \xCA", b"12", b"3"),
    File(b"a" * 31, b"4"),
]
MANY = [Folder(b"Folder %d" % it, [File(b"File %d" % it, b"%d" % it)]) for it in range(60)]
FLAT = [File(b"Read me", b"hello" * 300, FORK), File(b"9/41", b"", b"x" * 3000), File(b"a" * 63, b"5" * 2048, b"6")]
ONE, TWO = hfs(b"One", FILES, blocks=200), hfs(b"Two", MANY, 1024)
# how many seconds a command may take, and how many times as many bytes as an image has
SECONDS, MOST = 3.0, 12
# bytes of a floppy disk
FLOPPY = 819200


def shown(name):
    """A name in a path, as `ls` shows it."""
    text = ""
    for byte in name:
        letter = bytes([byte]).decode("mac_roman")
        text += {"/": ":", "\\": "\\\\"}.get(letter, letter if byte >= 32 and byte != 127 else f"\\x{byte:02X}")
    return text


def things(items, path=()):
    """Folders and files with their paths, in the order of a catalog."""
    level = [(path, items)]
    for above, some in level:
        for one in sorted(some, key=lambda it: (it.name.lower(), it.name)):
            yield (*above, one.name), one
        level += [((*above, one.name), one.items) for one in sorted(some, key=lambda it: 0) if isinstance(one, Folder)]


def line(path, one, front=""):
    """The line of a folder or a file."""
    text = front + "/".join(map(shown, path))
    if isinstance(one, Folder):
        return f"-    -    {len(one.items):>9} {'-':>9} {day(CHANGED)} {text}/\n"
    return f"{one.kind.decode()} {one.creator.decode()} {len(one.data):>9} {len(one.resource):>9} {day(CHANGED)} {text}\n"


def lines(items, front=""):
    """The lines of all that is in a volume, sorted."""
    return sorted(line(path, one, front) for path, one in things(items))


def listed(program, words):
    """The lines that a list has, sorted."""
    done = run(program, ["ls", *words])
    if done[0] or done[2]:
        raise Difference(f"ls {words}: {done}")
    return sorted(done[1].decode().splitlines(True))


def sums(data, resource):
    return hashlib.sha1(data).hexdigest(), hashlib.sha1(resource).hexdigest()


def try_forks(program, image, items, front=""):
    """Compares the forks, the name and the type of each file."""
    out = f"{image}.bin"
    for path, one in things(items):
        if isinstance(one, Folder):
            continue
        word = f"{image}:{front}{'/'.join(map(shown, path))}"
        compare(word, run(program, ["convert", "--to", "macbinary", "-q", word, out]), 0, b"", "")
        with open(out, "rb") as file:
            found = file.read()
        os.remove(out)
        data, resource = struct.unpack_from(">II", found, 83)
        start = 128 + -(-data // 128) * 128
        must(sums(found[128:128 + data], found[start:start + resource]) == sums(one.data, one.resource), f"{word}: its forks differ")
        must((found[2:2 + found[1]], found[65:73]) == (one.name, one.kind + one.creator), f"{word}: its name or its type differs")


def try_image(program, path, image, items, front=""):
    """Compares the lists of an image and the forks of its files."""
    write(path, image)
    here = [line((one.name,), one, front) for one in items]
    must(bool(front) or listed(program, [path]) == listed(program, [f"{path}:"]) == sorted(here), f"{path}: its first list differs")
    wanted = lines(items, front)
    got = [it for it in listed(program, ["-R", path]) if it in wanted or not front]
    must(got == wanted, f"{path}: its list differs: {[it for it in wanted if it not in got]} and {[it for it in got if it not in wanted]}")
    try_forks(program, path, items, front)


def try_read(program, path):
    """Compares images of all kinds with what they were made of."""
    for image, items in ((ONE, FILES), (TWO, MANY), (hfs(b"None", []), []), (disk_copy(ONE), FILES), (disk_map([(b"Apple_HFS", TWO)]), MANY),
                         (disk_map([(b"Apple_HFS", ONE)], 2048), FILES), (mfs(b"Flat", FLAT), FLAT), (disk_copy(mfs(b"Flat", FLAT)), FLAT)):
        try_image(program, path, image, items)
    both = disk_map([(b"Apple_HFS", ONE), (b"Apple_Free", bytes(BLOCK)), (b"apple_hfs", TWO)])
    for items, front in ((FILES, "One/"), (MANY, "Two/")):
        try_image(program, path, both, items, front)
    write(path, ONE)
    reader = Reader(ONE)
    found = [(path, *reader.forks(data)) for path, data in reader.things() if data[0] == 2]
    must(len(found) == sum(not isinstance(one, Folder) for _, one in things(FILES)), "the model reads other files than it wrote")


def try_commands(program, path):
    """Tries each command that reads a file on one in an image; what it shows is that of a file with just this fork."""
    write(path, ONE)
    alone = f"{path}.rsrc"
    write(alone, FORK)
    for word in ("Read me", "read ME", "Games/Dark Castle", "games/DARK castle", "Icon\\x0D"):
        for words in (["ls"], ["ls", "--types"], ["get", "TEXT", "128"], ["show", "STR", "1"], ["check"], ["derez"], ["ls", "--sha256"]):
            one, other = (run(program, [words[0], it, *words[1:]]) for it in (f"{path}:{word}", alone))
            must(one == other, f"{words} {word}: {one} and not {other}")
    compare("diff", run(program, ["diff", f"{path}:Read me", alone]), 0, b"", "")
    compare("diff", run(program, ["diff", alone, f"{path}:Games/Dark Castle"]), 0, b"", "")
    other = f"{path}.other"
    write(other, b"")
    compare("cp", run(program, ["cp", f"{path}:Read me", other]), 0, None, "")
    must(run(program, ["ls", "--sha256", other]) == run(program, ["ls", "--sha256", alone]), "cp: other resources")
    compare("salvage", run(program, ["salvage", f"{path}:Read me", "--data", other]), 0, b"", "")
    with open(other, "rb") as file:
        must(file.read() == FILES[0].data, "salvage --data: other bytes")
    compare("unpack", run(program, ["unpack", f"{path}:Read me", f"{path}.folder"]), 0, b"", "")
    told = run(program, ["info", path])
    must(told[0] == 0 and b"HFS" in told[1] and b"name: One" in told[1] and b"files: 7, folders: 3" in told[1], f"info: {told}")
    must(run(program, ["check", path]) == told, "check and info differ of a sound image")


def try_paths(program, path):
    """Tries paths that name nothing, or no file; and files of the host with colons in their names."""
    write(path, ONE)
    name = os.path.basename(path)
    for word, status, told in (
            ("Read you", 1, "there is nothing named Read you; near it: Read me"), ("Games/Dork", 1, "there is nothing named Dork in Games/; near it: Dark Castle"),
            ("Read me/x", 1, "there is nothing named x in Read me, which is a file"), ("Read me/", 1, message("a file")),
            ("Games", 1, "it is a folder, and no file"), ("", 1, "it is a volume, and no file"),
            ("Games//Dark", 1, "name 2 of the path is empty"), ("b\u0451te", 1, "name 1 of the path has a character that a Macintosh doesn't have"),
            ("a\\q", 1, "name 1 of the path has a backslash"), ("9/41", 1, "there is nothing named 9")):
        compare(f"get {word}", run(program, ["get", f"{path}:{word}", "TEXT", "128"]), status, b"", told)
    for word in ("Games", "Games/", "games"):
        must(listed(program, [f"{path}:{word}"]) == sorted(line((b"Games", one.name), one) for one in FILES[2].items), f"ls {word}: another list")
    plain = f"{path}:Read me"
    write(plain, fork_of([Row(b"STR ", 5, None, 0, b"\x01x")]))
    compare("ls of a file with a colon", run(program, ["ls", plain]), 0, b"STR       5        2 -\n", "")
    os.remove(plain)
    colons = os.path.join(os.path.dirname(path), f"a:{name}")
    write(colons, ONE)
    must(listed(program, [f"{colons}:Games"]) != [], "an image with a colon in its name isn't read")
    write(f"{path}.text", b"no image")
    compare("a path in no image", run(program, ["ls", f"{path}.text:x"]), 4, b"", message("no file or image"))


def changed(image, at, new):
    return image[:at] + new + image[at + len(new):]


def find(image, name, catalog):
    """Where the data of the record of a file or a folder are, in a catalog at a place."""
    at = image.index(bytes([len(name)]) + name, catalog)
    return at + 1 + len(name) + (1 + len(name) + 6) % 2


def try_damaged(program, path):
    """Tries images with wrong numbers: what isn't read is named with its place, and hides nothing else."""
    catalog = struct.unpack_from(">H", ONE, 1024 + 150)[0] * BLOCK + struct.unpack_from(">H", ONE, 1024 + 28)[0] * BLOCK
    for what, image, told in (
            ("the first leaf", changed(ONE, catalog + 24, struct.pack(">I", 9999)), "node 9999 lies outside the volume"),
            ("a leaf", changed(ONE, catalog + BLOCK + 8, b"\0"), "node 1 is no leaf"),
            ("a loop", changed(ONE, catalog + BLOCK, struct.pack(">I", 1)), "node 1 is in the chain already"),
            ("the header", changed(changed(ONE, catalog + 8, b"\xFF"), len(ONE) - 2 * BLOCK, bytes(BLOCK)), "node 0 is no header"),
            ("a key", changed(ONE, catalog + BLOCK + 14, b"\xC8"), "record 0 of node 1 has a wrong key"),
            ("blocks", changed(changed(ONE, 1024 + 20, struct.pack(">I", 700)), len(ONE) - 2 * BLOCK, bytes(BLOCK)), "no multiple of 512"),
            ("UDIF", ONE[:-BLOCK] + b"koly" + bytes(BLOCK - 4), "7z x or dmg2img unpacks it"),
            ("HFS Plus", bytes(1024) + b"H+\0\4" + bytes(FLOPPY), "HFS Plus; 7z x unpacks it"),
            ("a raw CD", b"\0" + b"\xFF" * 10 + bytes(FLOPPY), "bchunk unpacks it"),
            ("ISO 9660", bytes(32768) + b"\1CD001" + bytes(FLOPPY), "7z x unpacks it"),
            ("no volume", disk_map([(b"Apple_UNIX_SVR2", ONE)]), "partitions is a volume of HFS or MFS")):
        write(path, image)
        compare(what, run(program, ["ls", path]), 3, b"", told)
        compare(what, run(program, ["get", f"{path}:Read me", "TEXT", "128"]), 3, b"", told)
    outside = changed(ONE, find(ONE, b"Read me", catalog) + 86, struct.pack(">HH", 60000, 3))
    write(path, outside)
    must(listed(program, ["-R", path]) == lines(FILES), "a damaged fork hides files")
    compare("a damaged fork", run(program, ["get", f"{path}:Read me", "TEXT", "128"]), 3, b"", "its resource fork has blocks that the volume hasn't")
    compare("another fork", run(program, ["get", f"{path}:Games/Dark Castle", "TEXT", "128"]), 0, b"Hello", "")
    try:
        forks = dict((names[-1], Reader(outside).forks(data)) for names, data in Reader(outside).things() if data[0] == 2)
        must(forks[b"Dark Castle"][1] == FORK, "the model reads another fork")
    except NotRead as why:
        raise Difference(f"the model doesn't read it: {why}") from why
    two = disk_map([(b"Apple_HFS", changed(ONE, catalog + BLOCK + 8, b"\0")), (b"Apple_HFS", TWO)])
    write(path, two)
    compare("one of two volumes", run(program, ["check", path]), 3, None, "")
    compare("the other", run(program, ["salvage", f"{path}:Two/Folder 7/File 7", "--data", f"{path}.out"]), 0, b"", "")


def try_changes(program, path):
    """Tries commands that change files: none changes an image."""
    write(path, ONE)
    inside = f"{path}:Read me"
    write(f"{path}.rsrc", FORK)
    for words in (["put", inside, "TEXT", "128", "-i", path], ["put", "--create", f"{path}:New", "TEXT", "1", "-i", path], ["rm", inside, "TEXT", "128"],
                  ["set", inside, "TEXT", "128", "--id", "5"], ["cp", f"{path}.rsrc", inside], ["rm", "-n", inside, "TEXT", "128"]):
        compare(f"{words}", run(program, words), 2, b"", message("in an image"))
    rsrc, new = f"{path}.rsrc", f"{path}:New"
    write(f"{path}.r", run(program, ["derez", rsrc])[1])
    run(program, ["unpack", rsrc, f"{path}.unpacked"])
    for words in (["get", rsrc, "TEXT", "128", "-o", new], ["get", inside, "TEXT", "128", "-o", new], ["show", rsrc, "STR", "1", "-o", new], ["page", rsrc, "-o", new],
                  ["salvage", rsrc, "-o", new], ["salvage", inside, "--data", new], ["unpack", rsrc, new], ["convert", "--to", "macbinary", rsrc, new],
                  ["convert", "--to", "appledouble", inside, f"{path}.double", "--data", new], ["put", rsrc, "TEXT", "128", "-i", path, "-o", new],
                  ["rm", rsrc, "TEXT", "128", "-o", new], ["set", rsrc, "TEXT", "128", "--id", "5", "-o", new], ["rez", f"{path}.r", "-o", new],
                  ["cp", rsrc, rsrc, "--replace", "-o", new], ["pack", f"{path}.unpacked", new], ["get", rsrc, "TEXT", "128", "-o", inside]):
        compare(f"{words}", run(program, words), 2, b"", f"{words[-1]}: {message('into an image')}")
    with open(path, "rb") as file:
        must(file.read() == ONE and not os.path.exists(new) and not os.path.exists(inside), "an image was changed")


def hostile(count, depth=255):
    """A volume of so many folders, all as deep as a path can be."""
    rows = [(2 if it == 16 else it - 1, b"x" * 31, struct.pack(">BBHHIIII", 1, 0, 0, 1, it, 0, 0, 0)) for it in range(16, 16 + depth - 1)]
    rows += [(16 + depth - 2, b"%031d" % it, struct.pack(">BBHHIIII", 1, 0, 0, 0, 100000 + it, 0, 0, 0)) for it in range(count)]
    nodes = tree([(catalog_key(parent, name), filled(data, 70)) for parent, name, data in rows], 37)
    start = 4
    size = 512 * (1 + len(nodes) // 65000)
    catalog = b"".join(nodes)
    blocks = -(-len(catalog) // size)
    mdb = struct.pack(">HIIHHHHHIIHIH", 0x4244, 0, 0, 0x100, 0, 3, 0, blocks, size, size, start, 16, 0) + text(b"Deep", 28)
    mdb = filled(mdb, 146) + struct.pack(">I", len(catalog)) + extents_of([(0, blocks)])
    return bytes(1024) + filled(mdb, BLOCK) + bytes(BLOCK) + filled(catalog, blocks * size) + bytes(2 * BLOCK)


def try_hostile(program, path):
    """Tries an image of which each of many folders is as deep as it can be: no path is kept."""
    image = hostile(100000)
    write(path, image)
    with tempfile.TemporaryDirectory() as folder:
        measure = Measure(folder)
        for words in (["ls", path], ["info", path], ["get", f"{path}:x", "TEXT", "128"]):
            took = measure.run([program, *words], 4 << 30)
            must(took.seconds < SECONDS * slowness(), f"{words}: it took {took.seconds:.2f} s")
            must(took.memory << 10 < MOST * len(image), f"{words}: it took {took.memory >> 10} MiB, where the image has {len(image) >> 20}")


def main(program):
    with tempfile.TemporaryDirectory() as folder:
        path = os.path.join(folder, "disk.img")
        for part in (try_read, try_commands, try_paths, try_damaged, try_changes, try_hostile):
            try:
                part(program, path)
            except Difference as difference:
                print(f"{part.__name__}: {difference}")
                return 1
    print(f"{len(list(things(FILES))) + len(list(things(MANY))) + len(FLAT)} folders and files of images of 10 kinds")
    return 0
