"""Checks what resfork does where others may write, and with files made to take long.

Folders that others may write are refused or not by their owner and their mode, and while a folder is unpacked to, a second program puts links in the way
of its folders: no file is made elsewhere. A file that may not be so long is refused. Forks, texts, folders and containers that are as big as their formats
let them be, or say more than they hold, are shown or refused within a bound of time and of memory. Number: how many times links are put in the way.
"""
import contextlib
import json
import os
import resource
import struct
import subprocess
import sys
import tempfile

from checks.fork_questions import Difference
from checks.forks import compare, run
from checks.shown import fork_of, must, write
from measured import Measure, slowness
from model.fork import Row
from model.messages import message, refusal
from model.shown import folder_name

# a user other than the one who runs the checks, and the seconds and the bytes that a command may take besides three times its file
OTHER = 12345
SECONDS, BYTES = 1.0, 48 << 20
# the bytes that a program gets at most
MOST = 4 << 30
# the most bytes that a BinHex text stands for which has at most a third of them
UNPACKED = 64 << 20


def swapping(folder, elsewhere, names, go):
    """Another user, who swaps the folders of types for links as long as a file is there: the process, once it has begun."""
    begun, begins = os.pipe()
    other = os.fork()
    if other == 0:
        try:
            os.setgroups([])
            os.setgid(OTHER)
            os.setuid(OTHER)
            os.write(begins, b".")
            while os.path.exists(go):
                for path in (os.path.join(folder, name) for name in names):
                    with contextlib.suppress(OSError):
                        os.rename(path, path + "-aside")
                        os.symlink(elsewhere, path)
        finally:
            os._exit(0)
    os.read(begun, 1)
    os.close(begun)
    os.close(begins)
    return other


def spent(program, words, size):
    """Runs a command, which must take no longer and no more memory than it may for files of this size: what `run` gives of it."""
    with tempfile.TemporaryDirectory() as folder:
        took = Measure(folder).run([program, *words], MOST)
    must(took.seconds < SECONDS or took.seconds < SECONDS * slowness(), f"{words}: it took {took.seconds:.2f} s")
    must(took.memory << 10 < 3 * size + BYTES, f"{words}: it took {took.memory >> 10} MiB, where its files have {size >> 20}")
    return took.status, took.output, took.told.decode(errors="replace")


def four(number):
    """One of 14776336 types of letters and digits."""
    signs = b"ABCDEFGHIJKLMNOPQRSTUVWXYZabcdefghijklmnopqrstuvwxyz0123456789"
    return bytes(signs[number // 62**place % 62] for place in (3, 2, 1, 0))


def try_owners(program, room):
    """Compares which folders that are there are unpacked to, by their owner and their mode."""
    fork = os.path.join(room, "fork")
    write(fork, fork_of([Row(b"TEXT", 1, None, 0, b"Hello")]))
    owners = [os.getuid()] + ([OTHER] if os.getuid() == 0 else [])
    for owner in owners:
        for mode in (0o700, 0o755, 0o775, 0o757, 0o777):
            folder = os.path.join(room, f"{owner}-{mode:o}")
            os.mkdir(folder)
            os.chmod(folder, mode)
            if owner != os.getuid():
                os.chown(folder, owner, owner)
            refused = owner != os.getuid() and mode & 0o022
            told = refusal(fork, "another's folder", folder)[1] if refused else ""
            compare(f"unpack to a folder of {owner} with mode {mode:o}", run(program, ["unpack", fork, folder]), 4 if refused else 0, b"", told)
            must(os.listdir(folder) == [] if refused else sorted(os.listdir(folder)) == ["TEXT", "resources.json"], f"{folder} has {os.listdir(folder)}")
    link, folder = os.path.join(room, "link"), os.path.join(room, "led")
    os.mkdir(folder)
    os.symlink(folder, link)
    compare("unpack to a link", run(program, ["unpack", fork, link]), 0, b"", "")
    must(sorted(os.listdir(folder)) == ["TEXT", "resources.json"], "a link that is named isn't followed")


def try_links(program, room, times):
    """Unpacks while another user puts links to a folder in the way of the folders of types: nothing is made in that one."""
    if os.getuid() != 0:
        print("folders: no links are put in the way, which takes two users: run it as root")
        return
    kinds = [four(number) for number in range(12)]
    fork, elsewhere, folder, go = (os.path.join(room, name) for name in ("many", "elsewhere", "shared", "go"))
    write(fork, fork_of([Row(kind, number, None, 0, b"Hello") for kind in kinds for number in range(4)]))
    os.chmod(room, 0o755)
    os.mkdir(elsewhere)
    reached = set()
    for turn in range(times):
        os.mkdir(folder)
        os.chmod(folder, 0o777)
        write(go, b"")
        other = swapping(folder, elsewhere, [folder_name(kind, kinds) for kind in kinds], go)
        status, _, told = run(program, ["unpack", fork, folder])
        os.remove(go)
        os.waitpid(other, 0)
        reached.add(status)
        must(os.listdir(elsewhere) == [], f"a file was made where a link led: {os.listdir(elsewhere)}")
        must(status == 0 or (status == 4 and "unpacked" in told), f"status {status}, and it told {told!r}")
        must((status == 0) == os.path.exists(os.path.join(folder, "resources.json")), "resources.json is there, and not all is unpacked")
        subprocess.run(["rm", "-rf", folder], check=True)
    must(times < 100 or 4 in reached, "no link was in the way")


def try_limit(program, room):
    """Unpacks where a file may not be so long: it is refused in words, and no signal ends the program."""
    fork, folder = os.path.join(room, "long"), os.path.join(room, "limited")
    write(fork, fork_of([Row(b"TEXT", 1, None, 0, bytes(1000)), Row(b"TEXT", 2, None, 0, bytes(70000))]))
    within = lambda: resource.setrlimit(resource.RLIMIT_FSIZE, (65536, 65536))
    done = subprocess.run([program, "unpack", fork, folder], capture_output=True, text=True, preexec_fn=within, check=False)
    compare("unpack with a limit", (done.returncode, done.stdout, done.stderr), 4, "", f"{fork}: {message('not all unpacked', f'{folder}/TEXT/2.bin', '')}")
    must(not os.path.exists(os.path.join(folder, "resources.json")), "resources.json is there, and not all is unpacked")


def manifest_of(count, file):
    return {
        "extra": "00" * 240,
        "map_attributes": 0,
        "resources": [{"type": "TEXT", "id": number - 32768, "name": None, "attributes": 0, "file": file} for number in range(count)],
    }


def try_pack(program, room):
    """Packs folders whose manifest names one file many times."""
    folder, out = os.path.join(room, "packed"), os.path.join(room, "out")
    os.makedirs(os.path.join(folder, "TEXT"))
    one = os.path.join(folder, "TEXT", "1.bin")
    for count, size, told in [(20000, 1000, message("too big")), (20000, 1, message("too big")), (5000, 3000, "")]:
        write(one, bytes(size))
        said = json.dumps(manifest_of(count, "TEXT/1.bin")).encode()
        write(os.path.join(folder, "resources.json"), said)
        status = 4 if told else 0
        files = len(said) + count * size * (status == 0)
        compare(f"pack of {count} times {size} bytes", spent(program, ["pack", "-q", folder, out], files), status, b"", told)
    with open(one, "wb") as file:
        file.truncate(1 << 40)
    compare("pack of a file that is too long", spent(program, ["pack", "-q", folder, out], 0), 4, b"", f"TEXT/1.bin {message('too long', 1 << 30)}\n")
    os.remove(one)
    os.mkfifo(one)
    compare("pack of a pipe", spent(program, ["pack", "-q", folder, out], 0), 4, b"", f"TEXT/1.bin {message('unreadable', message('irregular'))}\n")


def shared_fork(kinds, more):
    """A fork of these types, each of one resource: the bytes of the first entry of the type list are the reference of all of them, the id 1 and no name.
    Its map has so many bytes more than its type list."""
    entries = b"".join(struct.pack(">4s2H", kind, 0, 2) for kind in kinds)
    data = bytes(1024)  # and then: no attributes, and data at the offset 2, followed by four bytes
    body = struct.pack(">H", (len(kinds) - 1) % 65536) + entries + bytes(more)
    header = struct.pack(">4I", 256, 256 + len(data), len(data), 28 + len(body))
    return header + bytes(240) + data + header + bytes(6) + struct.pack(">3H", 0, 28, 65535) + body


def try_forks(program, room):
    """Shows forks of as many types and resources as there may be."""
    path, text = os.path.join(room, "many_types"), os.path.join(room, "text")
    rows = [Row(four(number), 1, None, 0, b"x") for number in range(3270)]
    forks = [rows, [Row(b"TEXT", number - 2700, None, 0, b"") for number in range(5458)], [Row(b"TEXT", 1, b"n" * 255, 0, b"x")] * 256]
    for some in forks:
        fork = fork_of(some)
        write(path, fork)
        kinds = list(dict.fromkeys(row.kind for row in some))
        lines = "".join(f"{kind.decode()} {len(some) // len(kinds):>6}\n" for kind in kinds)
        compare("ls --types", spent(program, ["ls", "--types", path], len(fork)), 0, lines.encode(), "")
        status, said, _ = spent(program, ["info", path], len(fork))
        must(status == 0 and said.endswith(lines.encode()), "info lists other types")
        for words in (["ls", path], ["ls", "--json", path], ["info", "--json", path], ["check", path], ["derez", path], ["diff", path, path]):
            must(spent(program, words, len(fork))[0] == 0, f"{words[0]} of a large fork fails")
        write(text, run(program, ["derez", path])[1])
        compare("rez", spent(program, ["rez", "-q", "--force", text, "-o", path + ".made"], os.path.getsize(text)), 0, b"", "")


def try_types(program, room):
    """Shows forks of as many types as a type list has: with room for all resources in the map, with too little of it, and with types that are there twice."""
    path = os.path.join(room, "all_types")
    kinds = [b"\0\1\xff\xff", *(four(number) for number in range(1, 65535))]
    fork = shared_fork(kinds, 4 * len(kinds))
    write(path, fork)
    for words in (["ls", "--types", path], ["info", path]):
        status, said, told = spent(program, words, len(fork))
        must((status, told) == (0, "") and said.count(b"      1\n") == len(kinds), f"{words}: not all of 65535 types are counted: {status}, {told}")
    crowded = message("row count", 65535, 524310, 524310 // 12)
    last, same = (message("same type", kind, "", "").split("\n")[0] for kind in ("'AAAB'", "'AAAA'"))
    for some, more, said in ((kinds, 0, crowded), ([*kinds[:-1], b"AAAB"], 4 * len(kinds), last), ([b"AAAA"] * 65535, 4 * len(kinds), same)):
        fork = shared_fork(some, more)
        write(path, fork)
        for words in (["ls", path], ["info", path], ["check", path]):
            status, shown, told = spent(program, words, len(fork))
            must(status == 3 and said in told + shown.decode("latin-1"), f"{words}: status {status}, and it told {told[:200]!r}")
        must(spent(program, ["salvage", path], len(fork))[0] == 0, "salvage of a fork of 65535 types fails")


def try_texts(program, room):
    """Reads a text of more types than a fork has."""
    path = os.path.join(room, "types.r")
    text = b"".join(b"data '" + four(number) + b"' (1) {};\n" for number in range(200000))
    write(path, text)
    compare("rez of 200000 types", spent(program, ["rez", path, "-o", path + ".made"], 10 * len(text)), 4, b"", message("too big"))


def apple(ids, fork):
    """An AppleDouble file with these entries, of which the one with the id 2 is the fork."""
    at = 26 + 12 * len(ids)
    entries = b"".join(struct.pack(">3I", one, at, len(fork) if one == 2 else 0) for one in ids)
    return struct.pack(">2I16xH", 0x51607, 0x20000, len(ids)) + entries + fork


def try_entries(program, room):
    """Reads and changes AppleDouble files with as many entries as there may be."""
    path, out = os.path.join(room, "._entries"), os.path.join(room, "._out")
    fork = fork_of([Row(b"TEXT", 1, None, 0, b"Hello")])
    others = list(range(1000, 1000 + 65534))
    for ids in ([2, *others], [*others, 2]):
        file = apple(ids, fork)
        for words in (["info", path], ["check", path], ["put", "-q", path, "TEXT", "2", "-i", path, "-o", out], ["convert", "-q", "--lossy", "--to", "applesingle", path, out]):
            write(path, file)
            if os.path.exists(out):
                os.remove(out)
            status, _, told = spent(program, words, 2 * len(file))
            must(status == 0, f"{words}: status {status}, and it told {told!r}")


def hexed(raw):
    """Bytes as a BinHex text; $90 is written by whoever calls."""
    signs = b"!\"#$%&'()*+,-012345689@ABCDEFGHIJKLMNPQRSTUVXYZ[`abcdefhijklmpqr"
    raw += bytes(-len(raw) % 3)
    number = lambda at: int.from_bytes(raw[at : at + 3], "big")
    digits = b"".join(bytes(signs[number(at) >> shift & 63] for shift in (18, 12, 6, 0)) for at in range(0, len(raw), 3))
    return b"(This file must be converted with BinHex 4.0)\n\n:" + digits + b":\n"


def try_runs(program, room):
    """Reads BinHex texts of runs: what a text stands for is bounded by the text, and by 64 MiB where that is less."""
    path = os.path.join(room, "runs.hqx")
    for runs in (UNPACKED // 254, UNPACKED // 254 + 1, 1600000):
        text = hexed(b"\0" + b"\x90\xff" * runs)
        write(path, text)
        # one byte, and 254 more for each run; and those that fill the last digits
        least = 1 + 254 * runs
        status, _, told = spent_text(program, path, least, len(text))
        bound = max(UNPACKED, 3 * len(text))
        refused = least + 2 > bound
        # (bytes of 0 are those of a file without a name and with two empty forks, and their checksums are 0)
        must(status == (3 if refused else 0) and (message("long text", "", bound).partition("bytes")[2] in told) == refused, f"{least} bytes of {len(text)}: status {status}, and it told {told!r}")


def spent_text(program, path, unpacked, size):
    """Reads a BinHex text. One that isn't refused takes the time of its bytes."""
    if unpacked > max(UNPACKED, 3 * size):
        return spent(program, ["info", path], size)
    return run(program, ["info", path])


def try_memory(program, room):
    """Reads and changes the largest forks, and containers with them: memory is bounded by the file."""
    path, out = os.path.join(room, "large"), os.path.join(room, "large_out")
    fork = fork_of([Row(b"TEXT", number, None, 0, bytes(4000000)) for number in range(4)])
    write(path, fork)
    for words in (["ls", path], ["info", path], ["check", path], ["rm", "-q", path, "TEXT", "1", "-o", out]):
        status, _, told = spent(program, words, len(fork))
        must((status, told) == (0, ""), f"{words}: status {status}, and it told {told!r}")


def main(program, times=250):
    with tempfile.TemporaryDirectory() as room:
        try:
            try_owners(program, room)
            try_links(program, room, times)
            try_limit(program, room)
            try_pack(program, room)
            try_forks(program, room)
            try_types(program, room)
            try_texts(program, room)
            try_entries(program, room)
            try_runs(program, room)
            try_memory(program, room)
        except Difference as difference:
            print(f"folders: {difference}")
            return 1
    print(f"folders: {times} times links were put in the way of a folder, and large files were shown in time")
    return 0


if __name__ == "__main__":
    sys.exit(main(*sys.argv[1:]))
