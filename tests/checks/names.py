"""Checks that names of files do no harm where resfork shows them, and what it says before it reads too much, writes too much or replaces a file.

Names with control characters, signs of direction, quotes and blanks are shown as the rules in docs/resfork.1 say, in messages and in titles; what
can be typed is given to bash, which reads back the same bytes. `--limit` refuses devices, pipes and sparse files in little memory. The standard
output ends by a message where a file may not be so long. `convert --data` keeps both forks whatever fails, and refuses one file by two paths. What this
machine doesn't let a program try is left out, and it says so. Needs a C compiler: `cc`, or $CC; and bash.
"""
import json
import os
import re
import resource
import subprocess
import tempfile

from checks.fork_questions import Difference
from checks.kept import DATA, apple, apple_single, bin_hex
from checks.replaced import Bench
from measured import Measure
from model.messages import MISSING, message, refusal
from places import TOP

SAMPLE = os.path.join(TOP, "crates/resfork/data/sample.rsrc")
NOBODY = 65534
# the bytes that a refusal of a long file may take; and that a program gets at most
BYTES, MOST = 64 << 20, 4 << 30
MESSAGE = re.compile(message("salvage", "", "(.*)") + r"\n\Z", re.S)
NAMES = [
    "plain.rsrc", "with blank", " leading", "trailing ", '"quote', 'a"quote', "back\\slash", "\\x1B", "\x1b[31mred", "new\nline", "tab\t", "del\x7f", "c1\u0085x\u009b",
    "bidi\u202egpj", "alm\u061c", "lrm\u200e", "ls\u2028ps\u2029", "iso\u2066x\u2069", "bom\ufeff", "-dash", "-", "--", "-\x1b", "it's", "it's\n\\x41!'7", "$(touch x)", "`id`", "~home",
    "a=b", "=ls", "\u00e9.rsrc", "\u03a9 \u65e5\u672c", "*?[a]", "#hash", "a;b&c|d<e>f", "!!", "a\x1bb'", '"\x1b"', "$'\x1b'", "a:b", "a: b",
]


def is_harmful(letter):
    """Whether a terminal obeys a character, or doesn't show it."""
    code = ord(letter)
    return code < 0x20 or 0x7F <= code <= 0x9F or code in (0x61C, 0x200E, 0x200F, 0xFEFF) or 0x2028 <= code <= 0x202E or 0x2066 <= code <= 0x2069


def letter_shown(letter):
    if letter in '"\\':
        return "\\" + letter
    if not is_harmful(letter):
        return letter
    return f"\\x{ord(letter):02X}" if ord(letter) < 128 else f"\\u{{{ord(letter):X}}}"


def shown(name):
    """A name in a message."""
    if name and name[0] not in ' "' and name[-1] != " " and not any(map(is_harmful, name)):
        return name
    return '"' + "".join(map(letter_shown, name)) + '"'


class Room:
    """A folder in which resfork runs."""

    def __init__(self, program):
        self.program, self.made = program, tempfile.TemporaryDirectory()
        self.folder = self.made.name
        os.chmod(self.folder, 0o755)

    def __enter__(self):
        return self

    def __exit__(self, *why):
        self.made.cleanup()

    def path(self, name):
        return os.path.join(self.folder, name)

    def write(self, name, data):
        with open(self.path(name), "wb") as file:
            file.write(data)

    def read(self, name):
        with open(self.path(name), "rb") as file:
            return file.read()

    def run(self, *words, **settings):
        done = subprocess.run([*settings.pop("start", [self.program]), *words], cwd=self.folder, stdin=settings.pop("stdin", subprocess.DEVNULL), stdout=settings.pop("stdout", subprocess.PIPE), stderr=subprocess.PIPE, check=False, **settings)
        return done.returncode, (done.stdout or b"").decode("utf-8", "replace"), done.stderr.decode("utf-8", "replace")


def must(what, got, wanted):
    if got != wanted:
        raise Difference(f"{what}:\n  {got!r}\n  where the model has\n  {wanted!r}")


def manifest(*files):
    """What `unpack` writes of resources in these files."""
    entries = [{"type": "TEXT", "id": it, "name": None, "attributes": 0, "file": file} for it, file in enumerate(files)]
    return json.dumps({"extra": "00" * 240, "map_attributes": 0, "resources": entries}).encode()


def damaged():
    """The sample, with a byte changed, so that three of four resources can be read."""
    with open(SAMPLE, "rb") as file:
        fork = bytearray(file.read())
    fork[256] = 0xFF
    return bytes(fork)


def typed_back(word):
    """The bytes that bash reads of a word."""
    return subprocess.run(["bash", "-c", f"printf %s {word}"], capture_output=True, check=True, cwd="/").stdout


def try_name(room, name, fork):
    """One name, in a message, in advice and in a title."""
    room.write(name, fork)
    status, _, said = room.run("ls", "--", "./" + name if name == "-" else name)
    path = "./-" if name == "-" else name
    must(f"the status of {name!r}", status, 3)
    head, advice = shown(path) + ": ", MESSAGE.search(said)
    if not said.startswith(head) or advice is None:
        raise Difference(f"{name!r} is shown as\n  {said!r}\n  where the model has\n  {head!r}")
    if any(is_harmful(letter) for letter in said.replace("\n", "")):
        raise Difference(f"{name!r} does harm in\n  {said!r}")
    back = typed_back(advice.group(1))
    must(f"what bash reads of {advice.group(1)!r}", back, ("./" + path if path.startswith("-") else path).encode())
    must("how many lines the name takes", said.count("\n"), 3)
    with open(room.path("good"), "rb") as good:
        room.write(name, good.read())
    _, titles, _ = room.run("ls", "--", path, "good")
    must(f"the title of {name!r}", titles.split("\n")[0], shown(path) + ":")
    os.remove(room.path(name))


def archives(room):
    """The command that opens an archive is one that can be typed."""
    room.write("it's a\x1b.sit", b"SIT!\0\1\0\0\0\x20rLau" + bytes(100))
    status, _, said = room.run("ls", "it's a\x1b.sit")
    must("the status of an archive", status, 3)
    must("what bash reads", typed_back(said.rstrip("\n").split(message("unar").removesuffix("FILE"))[1]), b"it's a\x1b.sit")
    status, _, said = room.run("ls", "-", stdin=open(room.path("it's a\x1b.sit"), "rb"))  # pylint: disable=consider-using-with
    must("the standard input in advice", said.rstrip("\n").endswith(message("unar").replace("FILE", "-")), True)


def others(room):
    """Names that messages have beside the file's, and those on the standard output."""
    room.write("a\x1bb", damaged())
    must("salvage", room.run("salvage", "a\x1bb", "-o", "c\x1bd")[2], '"a\\x1Bb": ' + message("written", message("tally", 3, 4), '"c\\x1Bd"') + "\n")
    os.mkdir(room.path("f\x1b"))
    folder = '"f\\x1B": '
    must("a folder", room.run("pack", "f\x1b", "out")[2], folder + '"f\\x1B/resources.json" ' + message("unreadable", MISSING) + "\n")
    room.write("f\x1b/resources.json", b"\xff")
    must("a manifest", room.run("pack", "f\x1b", "out")[2], folder + message("not UTF-8", '"f\\x1B/resources.json"') + "\n")
    room.write("s\x1b", apple_single(room.read("good")))
    must("convert", room.run("convert", "s\x1b", "n\x1b", "--to", "binhex", "--lossy")[1].split(": ")[0], '"n\\x1B"')
    with open(room.path("text"), "wb") as text:
        room.run("derez", "good", stdout=text)
    must("rez over a container", room.run("rez", "text", "-o", "s\x1b")[2].split(": ")[0], '"s\\x1B"')
    must("a folder with files", room.run("unpack", "good", "f\x1b")[2], refusal("good", "files there", '"f\\x1B"')[1])
    must("no folder", room.run("unpack", "good", "n\n/x")[2], refusal("good", "no folder", '"n\\x0A/x"', MISSING)[1])
    room.write("f\x1b/resources.json", manifest("../a\nb"))
    must("an entry", room.run("pack", "f\x1b", "out")[2], folder + message("bad entry", '"../a\\x0Ab"', message("entry's file")) + "\n")
    room.write("f\x1b/resources.json", manifest("TEXT/a\nb"))
    must("no file", room.run("pack", "f\x1b", "out")[2], folder + '"f\\x1B/TEXT/a\\x0Ab" ' + message("unreadable", MISSING) + "\n")
    room.write("f\x1b/resources.json", manifest())
    text = bin_hex(room.read("good"))
    room.write("cut\x1b", text[: len(text) // 2])
    said = room.run("pack", "--like", "cut\x1b", "f\x1b", "out")
    must("a text that is cut", (said[0], said[2].startswith('"cut\\x1B": ' + message("unwritten", ""))), (4, True))


def words(room):
    """Bad words in messages, of which no line ends within a word."""
    for what, before, start in (("an option", ["ls"], "--qq"), ("an option with a value", ["ls"], "--qq=q"), ("a command", [], "qq"), ("an operand", ["salvage", "a"], "qq")):
        plain = room.run(*before, f"{start}\u03a9qq")
        must(f"{what} that is wrong", (plain[0], "qq" in plain[2]), (2, True))
        for letter in filter(is_harmful, map(chr, [*range(1, 0x20), *range(0x7F, 0xA0), 0x61C, 0x2028, 0x202E, 0x2066, 0xFEFF])):
            must(f"{what} with {letter!r}", room.run(*before, f"{start}{letter}qq"), (2, "", plain[2].replace("\u03a9", letter_shown(letter))))


def sparse(room):
    """A file of 20 GB that takes no room on the disk, and whether it may be made."""
    try:
        with open(room.path("sparse"), "wb") as file:
            file.truncate(20 << 30)
    except OSError as error:
        print(f"names: no file of 20 GB can be made here, so none is refused: {error}")
        return False
    return True


def limits(room, measure):
    """Files that are longer than what is read."""
    size = len(room.read("good"))
    for limit, status in ((size, 0), (size - 1, 4)):
        for source in (["good"], ["-"]):
            got = room.run("info", "--limit", str(limit), *source, **({"stdin": subprocess.PIPE} if source == ["good"] else {"stdin": open(room.path("good"), "rb")}))  # pylint: disable=consider-using-with
            must(f"--limit {limit} of {source}", (got[0], got[2]), (status, "" if status == 0 else refusal(source[0], "too long", limit)[1]))
    is_sparse = sparse(room)
    for words, said in (
        (["ls", "sparse"], refusal("sparse", "too long", 1 << 30)[1]),
        (["rm", "sparse", "TEXT", "128"], refusal("sparse", "too long", 1 << 30)[1]),
        (["ls", "--limit", "1M", "/dev/zero"], refusal("/dev/zero", "too long", 1 << 20)[1]),
        (["info", "--limit=8M", "/dev/zero"], refusal("/dev/zero", "too long", 8 << 20)[1]),
        (["diff", "--limit=2K", "good", "/dev/zero"], refusal("/dev/zero", "too long", 2048)[1]),
        (["put", "good", "TEXT", "128", "-i", "sparse"], refusal("sparse", "too long", 1 << 30)[1]),
        (["convert", "--limit", "1G", "--to", "macbinary", "--data", "sparse", "good", "new"], f"good: sparse {message('too long', 1 << 30)}\n"),
        (["rez", "text", "-o", "sparse"], f"text: sparse {message('too long', 1 << 30)}\n"),
    ):
        if not is_sparse and "sparse" in words:
            continue
        took = measure.run([room.program, *words], MOST, cwd=room.folder)
        must(f"{words}", (took.status, took.told.decode()), (4, said))
        if took.memory << 10 > BYTES:
            raise Difference(f"{words} took {took.memory} kB")
    os.remove(room.path("sparse"))
    for commands in ("get good TEXT 128", "check good", "salvage good", "show good", "unpack good dir", "put good STR 0 -i good", "rm good STR 0", "set good STR 0 --id 9", "cp good good", "diff good good", "derez good", "rez good -o new", "pack --like good dir new", "convert good new --to macbinary"):
        words = commands.split()
        before = sorted(os.listdir(room.folder))
        wanted = 0 if words[0] == "get" else 4
        must(f"{words} with a limit", room.run(words[0], "--limit", "9", *words[1:])[0], wanted)
        must(f"what {words} left", (sorted(os.listdir(room.folder)), room.read("good")), (before, open(SAMPLE, "rb").read()))  # pylint: disable=consider-using-with
    for word in ("", "+5", "-5", "5k", "5T", "K", "1.5M", "0x10", "17179869184G", "99999999999999999999"):
        must(f"--limit {word!r}", room.run("info", f"--limit={word}", "good")[::2], refusal("error", "bad limit"))
    for word in ("17179869183G", "18446744073709551615", "0009999"):
        must(f"--limit {word!r}", room.run("info", f"--limit={word}", "good")[0], 0)


def outputs(room):
    """The standard output, where a file may be so long and no longer."""
    if not os.path.exists("/proc/self/fdinfo/1"):
        print("names: how long a file may be isn't tried: there is no /proc, which says it")
        return
    whole = room.run("info", "good")[1].encode()
    said = refusal("good", "no output", "file too large")[1]
    for old, most, mode in ((0, len(whole), "wb"), (0, len(whole) - 1, "wb"), (0, 0, "wb"), (50, 50 + len(whole), "ab"), (50, 49 + len(whole), "ab"), (50, 10, "ab")):
        room.write("out", bytes(old))
        with open(room.path("out"), mode) as out:
            got = room.run("info", "good", stdout=out, preexec_fn=lambda: resource.setrlimit(resource.RLIMIT_FSIZE, (most, most)))  # pylint: disable=cell-var-from-loop
        fits = old + len(whole) <= most
        must(f"the output after {old} bytes where {most} are allowed", (got[0], got[2], room.read("out")), (0, "", bytes(old) + whole) if fits else (4, said, bytes(old)))
    room.run("set", "good", "STR", "0", "--id", "9", "-o", "changed")
    for words in (["ls", "good", "good"], ["get", "good", "TEXT", "128"], ["derez", "good"], ["show", "good"], ["--help"], ["diff", "good", "changed"], ["ls", "--json", "good"]):
        with open(room.path("out"), "wb") as out:
            got = room.run(*words, stdout=out, preexec_fn=lambda: resource.setrlimit(resource.RLIMIT_FSIZE, (3, 3)))
        must(f"{words} where 3 bytes are allowed", (got[0], len(room.read("out")) <= 3), (4, True))
    got = room.run("info", "good", preexec_fn=lambda: resource.setrlimit(resource.RLIMIT_FSIZE, (3, 3)))
    must("a pipe has no limit", got, (0, whole.decode(), ""))


def one_file(room):
    """The output and the data fork's file are one, or one of them is the input."""
    fork = room.read("good")
    old = apple_single(fork)
    for second in ("./Game", "soft", "hard", "Game"):
        room.write("Game", old)
        os.symlink("Game", room.path("soft"))
        os.link(room.path("Game"), room.path("hard"))
        for output, data in ((second, "Game"), ("Game", second)):
            got = room.run("convert", "Game", output, "--to", "raw", "--data", data)
            must(f"{output} and {data} are one", (got[0], got[2], room.read("Game")), (*refusal("Game", "one file"), old))
            got = room.run("convert", "Game", output, "--to", "raw", "--data", data, "-n")
            must(f"{output} and {data} are one, with -n", got[0], 2)
        new = "./new" if second == "./Game" else "new"
        must("a path that isn't there, twice", room.run("convert", "Game", "new", "--to", "raw", "--data", "./new")[0], 2)
        got = room.run("convert", "Game", new, "--to", "raw", "--lossy", "--data", second)
        must(f"{second} gets the data fork", (got[0], room.read(second), room.read("new")), (0, DATA, fork))
        for name in ("Game", "soft", "hard", "new"):
            os.remove(room.path(name))


def kept_forks(room, bench):
    """Whatever fails, each fork is in its new file, or the input has both."""
    fork = room.read("good")
    old = apple_single(fork)
    for output, data in (("Out", "./Game"), ("./Game", "Data"), ("Out", "Data")):
        turn, calls = 0, None
        while calls is None or turn <= len(calls):
            for setting in ("REPLACE_END", "REPLACE_FAIL", "REPLACE_FROM"):
                for name in ("Game", "Out", "Data"):
                    if os.path.exists(room.path(name)):
                        os.remove(room.path(name))
                room.write("Game", old)
                log = os.path.join(bench.folder, "log")
                with open(log, "wb"):
                    pass
                shim = {"LD_PRELOAD": bench.shim, "REPLACE_LOG": log, **({setting: str(turn)} if turn else {})}
                got = room.run("convert", "Game", output, "--to", "raw", "--lossy", "--data", data, env={**os.environ, **shim})
                with open(log, encoding="ascii") as file:
                    calls = calls or file.read()
                there = {name: room.read(name) for name in ("Game", "Out", "Data") if os.path.exists(room.path(name))}
                has_fork, has_data = there.get(os.path.basename(output)) == fork, there.get(os.path.basename(data)) == DATA
                if there.get("Game") != old and not (has_fork and has_data) or got[0] == 0 and not (has_fork and has_data):
                    raise Difference(f"{output} and {data}, {setting} {turn} of {calls}: status {got[0]}, {got[2]!r}, {sorted(there)}")
            turn += 1


def losses(room, bench):
    """What is said before a file is replaced."""
    edit = ("set", "good", "STR", "0", "--id")
    os.link(room.path("good"), room.path("name"))
    must("two names", room.run(*edit, "7")[2], f"good: {message('links', 2)}\n")
    must("one name", room.run("set", "good", "STR", "7", "--id", "8")[2], "")
    os.link(room.path("name"), room.path("third\x1b"))
    must("-o over a file of two names", room.run("get", "good", "TEXT", "128", "-o", "third\x1b")[2], '"third\\x1B": ' + message("links", 2) + "\n")
    if why := another_group(room, bench):
        print(f"names: what is said where the group changes isn't tried: {why}")


def another_group(room, bench):
    """What is said where another user changes a file, who can't give it to its group; or why that can't be tried here."""
    if bench.no_users:
        return bench.no_users
    how = {"start": [bench.public()], "user": NOBODY, "group": NOBODY, "extra_groups": []}
    os.chown(room.path("good"), NOBODY, 1234)
    os.chown(room.folder, NOBODY, NOBODY)
    os.chmod(room.path("good"), 0o664)
    said = room.run("set", "good", "STR", "8", "--id", "9", **how)
    must("another group", said[2], f"good: {message('new owner', f'group {NOBODY}', 'group 1234')}\n")
    os.chown(room.folder, 0, 0)
    return None


def main(program):
    with tempfile.TemporaryDirectory() as folder, Room(program) as room:
        with open(SAMPLE, "rb") as file:
            room.write("good", file.read())
        room.write("other", apple(0x51607, [(2, room.read("good"))]))
        try:
            texts = {shown(name) for name in NAMES}
            must("how many names look alike", len(NAMES) - len(texts), 0)
            for name in NAMES:
                try_name(room, name, damaged())
            archives(room)
            others(room)
            words(room)
            limits(room, Measure(folder))
            outputs(room)
            one_file(room)
            bench = Bench(program, folder)
            kept_forks(room, bench)
            losses(room, bench)
        except Difference as difference:
            print(f"names: {difference}")
            return 1
    print(f"{len(NAMES)} names, limits, outputs and pairs of files are as the pages say")
    return 0
