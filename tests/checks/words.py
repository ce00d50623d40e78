"""Checks what a macheap program takes the words of its command line for: a zone, a question for help, or words that are bad.

Each row below is one run of the program, on a script of one ZoneMap, in a folder of its own that has a file `old` of three bytes, which
are no fork, and an empty folder `folder`. Where a row has a `@`, the program is given that folder. What files it has after the run is compared, too.
"""
import os
import re
import subprocess
import tempfile

from places import TOP

SCRIPT = b"ZoneMap\n"
OLD = b"old"
OPTIONS = ("--zone", "--limit", "--base", "--mode", "--fork", "--journal", "--large")

# words, and the zone that they ask for: its first address, its size in bytes, and that of its master block
ZONES = [
    ("", 1048576, 4096, 264),
    ("--zone 8192", 1048576, 8192, 264),
    ("--zone=8192", 1048576, 8192, 264),
    ("--limit 4096", 1048576, 4096, 264),
    ("--zone 1024 --limit=1040", 1048576, 1024, 264),
    ("--limit 1048576", 1048576, 4096, 264),
    ("--base 0004096", 4096, 4096, 264),
    ("--base=4096 --zone 4096", 4096, 4096, 264),
    ("--zone 1048576 --base 15728640", 15728640, 1048576, 264),
    ("--base 16773120", 16773120, 4096, 264),
    ("--mode 24", 1048576, 4096, 264),
    ("--mode 32", 1048576, 4096, 268),
    ("--mode=32 --zone=1024", 1048576, 1024, 268),
    ("--large", 1048576, 4096, 264),
    ("--large --zone 1048580", 1048576, 1048580, 264),
    ("--base 4096 --zone 16773120 --large", 4096, 16773120, 264),
    ("--mode 32 --large --base 16773124", 16773124, 4096, 268),
    ("--large --mode 32 --base 4227858428 --zone 67108864", 4227858428, 67108864, 268),
]

HELP = ["--help", "-h", "--fork @/new --help"]

# words that ask for the version
VERSIONS = ["--version", "-V", "--fork @/new --version"]

# words that don't match the options
NO_WORDS = [
    "--zone",
    "--zone 4096 --zone 4096",
    "--large --large",
    "--large=1",
    "--base=4096 --base=4096",
    "--limit 4096 --limit 4096",
    "--limit",
    "--zone -4096",
    "--fork",
    "--fork @/new --fork",
    "--fork -a",
    "--forks new",
    "--fork @/new script",
    "--fork @/new --zone 4096 --zone 4096",
    "script",
    "-z 4096",
    "--mode 24 --mode 32",
    "--mode",
]

# words of which one is no UTF-8 text
NO_TEXT = ["\udcff", "--fork \udcff\udcfe", "--fork=@/new\udcff", "--fork @/new --zone \udcff"]

# words that give this option a value which is no number
NO_NUMBERS = [
    ("--zone=-4096", "zone"),
    ("--zone +4096", "zone"),
    ("--zone $1000", "zone"),
    ("--limit=", "limit"),
    ("--limit=-1 --base a", "limit"),
    ("--base=", "base"),
    ("--base 4294967296", "base"),
    ("--mode thirtytwo", "mode"),
    ("--mode=", "mode"),
    ("--mode=-32", "mode"),
    ("--base a --mode b", "base"),
    ("--fork @/new --zone a", "zone"),
    ("--base a --fork @/folder", "base"),
]

# words that give this mode, and there is no such mode
NO_MODES = [
    ("--mode 0", 0),
    ("--mode 31", 31),
    ("--zone 1022 --mode 64", 64),
    ("--fork @/folder --mode 0", 0),
]

# words that give numbers, and why there is no such zone
NO_ZONES = [
    ("--zone 1022", "a zone's size is a multiple of 4 bytes, and 1022 is none"),
    ("--zone 1020", "a zone has 1024 bytes at least, and 1020 are too few"),
    ("--zone 1048580", "a zone's limit is 1048576 bytes at most, and 1048580 are too many"),
    ("--large --zone 1073741828", "a zone's limit is 1073741824 bytes at most, and 1073741828 are too many"),
    ("--large --base 4096 --zone 16773124", "a zone that has grown ends at 16777216 or below, and 16777220 is above"),
    ("--limit 4098", "a zone's limit is a multiple of 4 bytes, and 4098 is none"),
    ("--limit 1048580", "a zone's limit is 1048576 bytes at most, and 1048580 are too many"),
    ("--limit 4092", "a zone's limit is its size at least, and 4092 is below it"),
    ("--limit 4108", "a zone that may grow may grow by 16 bytes at least, and 12 are too few"),
    ("--base 4092", "a zone begins at 4096 or above, and 4092 is too low"),
    ("--base 4098", "a zone begins at a multiple of 4, and 4098 is none"),
    ("--mode 32 --base 16773124", "a zone that has grown ends at 16777216 or below, and 16777220 is above"),
    ("--large --mode 32 --base 4294963200", "a zone that has grown ends at 4294967295 or below, and 4294967296 is above"),
    ("--base 16773124", "a zone that has grown ends at 16777216 or below, and 16777220 is above"),
    ("--fork @/new --zone 1020", "a zone has 1024 bytes at least, and 1020 are too few"),
]

# words that name files, and the files that are made
FORKS = [
    ("--fork @/new", ["new"]),
    ("--fork=@/new", ["new"]),
    ("--fork @/folder/new", ["folder/new"]),
    ("--fork @/new --mode 24 --fork=@/other", ["new", "other"]),
    ("--fork @/new --fork @/new", ["new"]),
    ("--fork @/new --fork @/old", ["new"]),
    ("--fork @/a --fork @/b --fork @/c --fork @/d --fork @/e --fork @/f --fork @/g --fork @/h", list("abcdefgh")),
]

# words whose first file is there and is no fork: opening it is refused before the first line
NO_FORKS = ["--fork @/old", "--fork=@/old --zone 4096"]

# words of which a file can't be opened, which it is and why, and the files that are made: those before it
IS_FOLDER, NO_FOLDER = "it is a folder; name a file", "there is no such folder; make it first"
TWICE = "a word before it names the same file; name another file"
CANNOT_OPEN = [
    ("--fork @/folder", "@/folder", IS_FOLDER, []),
    ("--fork=", '""', NO_FOLDER, []),
    ("--fork @/missing/new", "@/missing/new", NO_FOLDER, []),
    ("--fork @/old/new", "@/old/new", NO_FOLDER, []),
    ("--fork @/folder --fork @/new", "@/folder", IS_FOLDER, []),
    ("--fork @/new --fork @/folder", "@/folder", IS_FOLDER, ["new"]),
    ("--fork @/new --journal @/missing/new", "@/missing/new", NO_FOLDER, ["new"]),
    ("--fork @/folder --zone 1024 --mode 32", "@/folder", IS_FOLDER, []),
    # where there are journals, no file may be named twice
    ("--fork @/new --journal @/new", "@/new", TWICE, ["new"]),
    ("--fork @/new --journal @/folder/../new", "@/folder/../new", TWICE, ["new"]),
    ("--fork @/a --fork @/b --journal @/j --journal @/j", "@/j", TWICE, ["a", "b", "j"]),
    ("--fork @/a --fork @/a --journal @/j --journal @/k", "@/a", TWICE, ["a"]),
    ("--journal @/k --journal @/a --fork @/a --fork @/b", "@/a", TWICE, ["a", "b", "k"]),
    # names that a terminal obeys, or doesn't show, are between quotes, and others aren't
    ('--fork @/"a\\b"/new', '@/"a\\b"/new', NO_FOLDER, []),
    ("--fork @/\u00e9\u65e5/new", "@/\u00e9\u65e5/new", NO_FOLDER, []),
    ("--fork @/a\x1b[31m/new", '"@/a\\x1B[31m/new"', NO_FOLDER, []),
    ("--fork @/a\x01\x7f/new", '"@/a\\x01\\x7F/new"', NO_FOLDER, []),
    ("--fork @/a\x80\x9f/new", '"@/a\\u{80}\\u{9F}/new"', NO_FOLDER, []),
    ("--fork @/a\u061c\ufeff/new", '"@/a\\u{61C}\\u{FEFF}/new"', NO_FOLDER, []),
    ("--fork @/\u202egpj/new", '"@/\\u{202E}gpj/new"', NO_FOLDER, []),
    ('--fork @/"a\\b"\u00e9\x1b/new', '"@/\\"a\\\\b\\"\u00e9\\x1B/new"', NO_FOLDER, []),
    ("--fork @/new --journal @/a\x1b/new", '"@/a\\x1B/new"', NO_FOLDER, ["new"]),
    # names in this folder are longer than the system takes
    (f"--fork @/{'n' * 300}", f"@/{'n' * 300}", "the system refuses it; name another file", []),
]

# words with more files than a run may have, which is reported before what is wrong with numbers
TOO_MANY = [
    "--fork @/a" + " --fork @/b" * 8,
    "--fork @/folder" + " --fork=@/folder" * 8,
    "--fork @/new" + " --fork @/new" * 19,
    "--zone a --mode 0" + " --fork @/a" * 9,
]

IS_NO_TEXT = "error: a word of the command line is no UTF-8 text; write the options in plain ASCII\n"
NO_NUMBER = "error: --{} takes decimal digits for a number up to 4294967295; see 'macheap --help'\n"
NO_MODE = "error: --mode is 24 or 32, and not {}; see 'macheap --help'\n"
TOO_MANY_FORKS = "error: --fork may be given 8 times; see 'macheap --help'\n"
NO_ZONE = "error: {}; give other numbers with --zone, --limit and --base, see 'macheap --help'\n"


def map_of(base, size, master):
    """What ZoneMap prints of a new zone: the zone's header of 52 bytes, a master block, and the rest free."""
    first = base + 52
    return f"1 ZoneMap 2 0\n  ${first:08X} {master} master\n  ${first + master:08X} {size - 52 - master} free\n"


def is_of_other_words(message):
    """Whether a message is of words that don't match: an error, and none of those of numbers and of too many files."""
    others = ("takes decimal digits", "is 24 or 32", "give other numbers", "may be given")
    return message.startswith("error: ") and not any(it in message for it in others)


def files_in(folder):
    """The bytes of the files of a folder and the folders in it, by their names."""
    found = {}
    for around, _, names in os.walk(folder):
        for name in names:
            path = os.path.join(around, name)
            with open(path, "rb") as file:
                found[os.path.relpath(path, folder)] = file.read()
    return found


def run(program, words):
    """One run: how it ended, how many bytes of the script were read, and the files after it."""
    with tempfile.TemporaryDirectory() as folder, tempfile.TemporaryFile() as script:
        os.mkdir(os.path.join(folder, "folder"))
        with open(os.path.join(folder, "old"), "wb") as file:
            file.write(OLD)
        script.write(SCRIPT)
        script.flush()
        os.lseek(script.fileno(), 0, os.SEEK_SET)
        words = words.replace("@", folder).split()
        ran = subprocess.run([program, *words], stdin=script, capture_output=True, text=True, check=False)
        ran.stderr = ran.stderr.replace(folder, "@")
        return ran, os.lseek(script.fileno(), 0, os.SEEK_CUR), files_in(folder)


def main(program):
    passed, failed = 0, 0

    def check(words, what, status, is_output, is_message, made=()):
        nonlocal passed, failed
        ran, read, files = run(program, words)
        # the script is read where it is run, and only there
        is_read = read == (len(SCRIPT) if status == 0 and "ZoneMap" in ran.stdout else 0)
        are_files = files == {"old": OLD, **dict.fromkeys(made, b"")}
        if ran.returncode == status and is_output(ran.stdout) and is_message(ran.stderr) and is_read and are_files:
            passed += 1
        else:
            failed += 1
            print(f"macheap {words!r}: {what}; it ended with status {ran.returncode}, printed {ran.stdout!r}, told {ran.stderr!r}", end="")
            print(f", read {read} bytes of the script and left {files}")

    for words, base, size, master in ZONES:
        check(words, f"is to run on {size} bytes at {base}", 0, map_of(base, size, master).__eq__, "".__eq__)
    for words in HELP:
        check(words, "is to print help", 0, lambda it: all(option in it for option in OPTIONS), "".__eq__)
    version = re.search('const VERSION: &str = "(.*)"', open(f"{TOP}/crates/macheap/src/asked.rt", encoding="utf-8").read())[1]
    for words in VERSIONS:
        check(words, "is to print the version alone", 0, f"macheap {version}\n".__eq__, "".__eq__)
    for words in NO_WORDS:
        check(words, "is to be refused for its words", 2, "".__eq__, is_of_other_words)
    for words in NO_TEXT:
        check(words, "is to be refused for a word that is no UTF-8", 2, "".__eq__, IS_NO_TEXT.__eq__)
    for words, option in NO_NUMBERS:
        check(words, f"is to be refused for --{option}", 2, "".__eq__, NO_NUMBER.format(option).__eq__)
    for words, mode in NO_MODES:
        check(words, f"is to be refused for the mode {mode}", 2, "".__eq__, NO_MODE.format(mode).__eq__)
    for words, fault in NO_ZONES:
        check(words, f"is to be refused since {fault}", 2, "".__eq__, NO_ZONE.format(fault).__eq__)
    a_map = map_of(1048576, 4096, 264)
    for words, made in FORKS:
        check(words, f"is to run, and to make {made}", 0, a_map.__eq__, "".__eq__, made)
    for words in NO_FORKS:
        check(words, "is to run, where the first file is no fork", 0, ("0 OpenResFile -39\n" + a_map).__eq__, "".__eq__)
    for words, path, why, made in CANNOT_OPEN:
        check(words, "is to tell that a file can't be opened", 1, "".__eq__, f"cannot open {path}: {why}\n".__eq__, made)
    for words in TOO_MANY:
        check(words, "is to be refused for too many files", 2, "".__eq__, TOO_MANY_FORKS.__eq__)
    print(f"words: {passed} as they should be, {failed} not")
    return 1 if failed else 0
