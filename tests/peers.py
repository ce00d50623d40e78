#!/usr/bin/env python3
"""Compares resfork with other programs that read and write resource forks, as Debian has them:

    tests/peers.py [--resfork PROGRAM] [--seconds N] [FILE..]

It isn't a part of the gate, since it needs programs that a machine may lack; it says which are missing, and goes on without them:
`apt-get install macutils hfsutils unar fontforge-nox fondu t1utils libconvert-binhex-perl python3-fonttools libimage-exiftool-perl`.

Raw forks are made by t1mac, fontforge, ufond and lumper of a font of this machine, and by the model of tests/checks/forks.py; files that are
named are added. Each is put in containers by macstream, binhex, tobin, hcopy, t1mac and Convert::BinHex, and taken out again by unar as
AppleDouble. Of each raw fork `resfork ls` must list what fontTools and exiftool list; of each other file, what it lists of the fork that went
into it. Each resource has to have the same bytes by `resfork get`, and the outline fonts that fondu takes out of a fork are those of its
resources.

Then resfork writes: each file gets a resource more, which is renamed, and removed again; each fork is written of its text and of the folder that
it is unpacked to, and is converted to each container. Of what is written fontTools and exiftool list what resfork lists, FreeType, fontforge, fondu and t1unmac find the fonts of the file
before, and the fork that macunpack, macsave, frombin, unar, hcopy or hexbin takes out of a container has the resources that resfork lists in it. What was
changed and changed back has the resources that it had. It stops after 120 seconds, or N.
"""
import argparse
import glob
import json
import os
import re
import shutil
import subprocess
import sys
import tempfile
import time

from checks.forks import Choices
from model.container import resource_fork
from model.fork import NoFork, read_fork
from places import TOP

# fontTools reads a fork in a process of its own, since another Python may have it
READ = r"""
import json, sys
from fontTools.misc.macRes import ResourceReader
reader, rows = ResourceReader(sys.argv[1]), []
for kind in reader.types:
    for row in reader[kind]:
        name = row.name
        if isinstance(name, str):
            name = name.encode("mac_roman")
        four = kind.encode("mac_roman") if isinstance(kind, str) else bytes(kind)
        rows.append([four.hex(), row.id, row.attr, None if name is None else bytes(name).hex(), bytes(row.data).hex()])
print(json.dumps(rows))
"""
CODE = {name: 1 << bit for bit, name in enumerate(["bit0", "changed", "preload", "protected", "locked", "purgeable", "sysHeap", "bit7"])}
LINE = re.compile(r"(\S.{3}|(?:\\x..|\\.|\S).*?) +(-?\d+) +(\d+) (\S+)(?: (\".*\"))?")
EXIF = re.compile(r"^(?:\| )*(.{4}) resource ID 0x([0-9a-f]{4}) \(offset 0x[0-9a-f]+, (\d+) bytes, name='(.*)'\):$", re.M)


class Peers:
    """Runs programs in a folder until time is over, and counts what was compared."""

    def __init__(self, resfork, folder, seconds):
        self.resfork, self.folder, self.end = resfork, folder, time.monotonic() + seconds
        self.missing, self.failed, self.compared, self.faults = set(), [], {}, []

    def run(self, words, **more):
        """What a program did, or None where it isn't there, fails, or takes too long."""
        left = self.end - time.monotonic()
        if left <= 0:
            return None
        if not shutil.which(words[0]):
            self.missing.add(words[0])
            return None
        environment = {**os.environ, "HOME": self.folder, "PERL_UNICODE": ""}
        try:
            return subprocess.run(words, env=environment, stdin=subprocess.DEVNULL, capture_output=True, timeout=min(20, left), **{"cwd": self.folder, **more})
        except subprocess.TimeoutExpired:
            self.failed.append(f"{words[0]}: no answer in time")
            return None

    def made(self, words, output=None):
        """The file that a program makes: its standard output, or a file that it was given."""
        done = self.run(words)
        if done is None:
            return None
        path = os.path.join(self.folder, output)
        if not os.path.exists(path) and done.returncode == 0:
            with open(path, "wb") as file:
                file.write(done.stdout)
        if done.returncode or not os.path.getsize(path):
            self.failed.append(f"{' '.join(words)}: {done.stderr.decode(errors='replace').strip()[:100]}")
            return None
        return path

    def fault(self, text):
        self.faults.append(text)
        print(text)

    def listed(self, path):
        """The list of a file's resources, or None."""
        done = subprocess.run([self.resfork, "ls", path], capture_output=True, timeout=20)
        if done.returncode:
            self.fault(f"{os.path.basename(path)}: status {done.returncode}, {done.stderr.decode(errors='replace').strip()}")
            return None
        return done.stdout.decode()

    def does(self, words):
        """Whether resfork does something, as it should, in silence."""
        done = subprocess.run([self.resfork, *words], capture_output=True, timeout=60)
        if done.returncode:
            self.fault(f"resfork {' '.join(map(os.path.basename, words))}: status {done.returncode}, {(done.stderr or done.stdout).decode(errors='replace').strip()[:200]}")
        return done.returncode == 0

    def datum(self, path, kind, nth, ident):
        words = [self.resfork, "get", path, kind, str(ident)] + (["--nth", str(nth)] if nth > 1 else [])
        done = subprocess.run(words, capture_output=True, timeout=20)
        return done.stdout if done.returncode == 0 else None


def rows_listed(text):
    """The lines of a list: type, id, length, attributes and whether there is a name."""
    rows = []
    for line in text.splitlines():
        kind, ident, length, attributes, name = LINE.fullmatch(line).groups()
        bits = 0 if attributes == "-" else sum(CODE[it] for it in attributes.split(","))
        rows.append((kind, int(ident), int(length), bits, name is not None))
    return rows


def tried(peers, way):
    peers.compared[way] = peers.compared.get(way, 0) + 1


def python_with_font_tools():
    for python in (sys.executable, "/usr/bin/python3"):
        if os.path.exists(python) and subprocess.run([python, "-c", "import fontTools"], capture_output=True).returncode == 0:
            return python
    return None


def beside_font_tools(peers, python, path):
    """Compares the list and all bytes with those that fontTools reads. It is None where fontTools doesn't read the file."""
    done = peers.run([python, "-c", READ, path])
    if done is None:
        return
    if done.returncode:
        last = done.stderr.decode(errors="replace").strip().splitlines()[-1:]
        peers.failed.append(f"fontTools on {os.path.basename(path)}: {' '.join(last)[:100]}")
        return
    text = peers.listed(path)
    if text is None:
        return
    theirs, ours, seen = json.loads(done.stdout), rows_listed(text), {}
    short = [(row[1], len(row[4]) // 2, row[2], row[3] is not None) for row in theirs]
    if [it[1:] for it in ours] != short:
        peers.fault(f"{os.path.basename(path)}: fontTools lists {len(theirs)} resources, {short[:3]}.., and resfork {ours[:3]}..")
        return
    for kind, ident, _, _, data in theirs:
        seen[kind, ident] = seen.get((kind, ident), 0) + 1
        word = "'" + "".join(f"\\x{byte:02X}" for byte in bytes.fromhex(kind)) + "'"
        if peers.datum(path, word, seen[kind, ident], ident) != bytes.fromhex(data):
            peers.fault(f"{os.path.basename(path)}: the bytes of {word} {ident} are others")
    tried(peers, "fontTools")


def beside_exif_tool(peers, path):
    """Compares types, ids and lengths with those that exiftool lists; it lists at most some of a long list, by type."""
    done = peers.run(["exiftool", "-v3", "-m", path])
    if done is None:
        return
    text = done.stdout.decode("latin-1")
    theirs = [(int(ident, 16) - (65536 if int(ident, 16) > 32767 else 0), int(length)) for _, ident, length, _ in EXIF.findall(text)]
    listed = peers.listed(path)
    if "RSRC directory" not in text or listed is None:
        peers.failed.append(f"exiftool on {os.path.basename(path)}: no RSRC directory")
        return
    if sorted(theirs) != sorted((row[1], row[2]) for row in rows_listed(listed)):
        peers.fault(f"{os.path.basename(path)}: exiftool lists {len(theirs)} resources, and resfork {len(rows_listed(listed))}")
    tried(peers, "exiftool")


def beside_fondu(peers, path):
    """Compares the outline fonts that fondu takes out of a fork with the bytes of its resources of type 'sfnt'."""
    listed = peers.listed(path)
    wanted = [row[1] for row in rows_listed(listed or "") if row[0] == "sfnt"]
    out = os.path.join(peers.folder, "fondu")
    shutil.rmtree(out, ignore_errors=True)
    os.mkdir(out)
    if not wanted or peers.run(["fondu", "-force", path], cwd=out) is None:
        return
    theirs = []
    for font in glob.glob(os.path.join(out, "*.[ot]tf")):
        with open(font, "rb") as file:
            theirs.append(file.read())
    if sorted(theirs) != sorted(peers.datum(path, "sfnt", 1, ident) or b"" for ident in wanted):
        peers.fault(f"{os.path.basename(path)}: fondu takes out {len(theirs)} outline fonts, and not just the bytes of {len(wanted)} resources 'sfnt'")
    tried(peers, "fondu")


def beside_fork(peers, way, path, fork):
    """Compares a container with the fork that went into it: the list, and all bytes."""
    ours, theirs = peers.listed(path), peers.listed(fork)
    if ours is None or theirs is None:
        return
    if ours != theirs:
        peers.fault(f"{way}: {os.path.basename(path)} has another list than {os.path.basename(fork)}")
        return
    seen = {}
    for kind, ident, *_ in rows_listed(theirs)[:40]:
        seen[kind, ident] = seen.get((kind, ident), 0) + 1
        word = kind.strip() or kind
        if peers.datum(path, word, seen[kind, ident], ident) != peers.datum(fork, word, seen[kind, ident], ident):
            peers.fault(f"{way}: {os.path.basename(path)}: the bytes of {kind} {ident} are others")
    tried(peers, way)


# how programs that read fonts are run on a file: on a raw fork, and on a container of each kind. (FreeType takes each MacBinary file
# whose name has two letters for a Windows font, whose first bytes are those, too. So no file here has such a name.)
FONTS = {
    "fork": [["ftdump", "-n"], ["fontforge", "-quiet", "-lang=ff", "-c", 'Open($1); Print($fontname, " ", CharCnt())'], ["t1unmac", "--raw"]],
    "MacBinary": [["ftdump", "-n"], ["t1unmac", "--macbinary"]],
    "AppleSingle": [["ftdump", "-n"], ["t1unmac", "--applesingle"]],
    "AppleDouble": [["ftdump", "-n"], ["t1unmac", "--appledouble"]],
    "BinHex": [["t1unmac", "--binhex"]],
}


def beside_fonts(peers, kind, path, old, old_kind=None):
    """Compares what readers of fonts find in a file with what they find in the one before, which may be of another kind."""
    known = {words[0]: words for words in FONTS[old_kind or kind]}
    for words in FONTS[kind]:
        before = peers.run([*known[words[0]], old]) if words[0] in known else None
        after = peers.run([*words, path])
        if before is None or after is None or before.returncode:
            continue
        if (after.returncode, after.stdout) != (0, before.stdout):
            peers.fault(f"{words[0]} finds other fonts in {os.path.basename(path)} than in {os.path.basename(old)}")
        tried(peers, f"{words[0]} on what resfork writes")


# by way of an HFS volume, and as BinHex out of it
BY_HFS = (
    'truncate -s 8M v && hformat -l Test v >/dev/null && hmount v >/dev/null && cp "$0" h.bin '
    "&& hcopy -m h.bin :kept && hcopy -b :kept h.hqx && rm h.bin && hexbin -r h.hqx"
)

# what takes the resource fork out of a file of each kind, in a folder of its own
TAKEN = {
    "MacBinary": [
        ("macunpack", ["macunpack", "-r"]),
        ("macsave", ["sh", "-c", 'macsave -r < "$0"']),
        ("frombin", ["frombin"]),
        ("unar", ["unar", "-q", "-k", "hidden"]),
        ("hcopy", ["sh", "-c", BY_HFS]),
    ],
    "AppleSingle": [("unar", ["unar", "-q", "-k", "hidden"])],
    "AppleDouble": [],
    "BinHex": [("hexbin", ["hexbin", "-r"]), ("unar", ["unar", "-q", "-k", "hidden"])],
}


ENDINGS = {"MacBinary": "bin", "BinHex": "hqx"}


def taken_out(peers, words, kind, path):
    """The fork that a program takes out of a container, as a file, or None."""
    out, fork = os.path.join(peers.folder, "taken"), os.path.join(peers.folder, "taken.rsrc")
    shutil.rmtree(out, ignore_errors=True)
    os.mkdir(out)
    there = shutil.copy(path, f"{out}.{ENDINGS.get(kind, 'as')}")
    done = peers.run([*words, there], cwd=out)
    found = glob.glob(f"{out}/**/*.rsrc", recursive=True) + glob.glob(f"{out}/**/._*", recursive=True)
    if done is None or done.returncode or len(found) != 1:
        return None
    with open(found[0], "rb") as file, open(fork, "wb") as other:
        other.write(resource_fork(file.read()))
    return fork


def beside_takers(peers, kind, path, old):
    """Compares the resources of the fork that other programs take out of a container with those that resfork lists in it."""
    for name, words in TAKEN[kind]:
        fork = taken_out(peers, words, kind, path)
        if fork:
            beside_fork(peers, f"{name} on what resfork writes", path, fork)
        elif taken_out(peers, words, kind, old):
            peers.fault(f"{name} takes no fork out of {os.path.basename(path)}, and does so of {os.path.basename(old)}")


def beside_all(peers, python, kind, path, old):
    """Compares a file that resfork wrote with what other programs read in it."""
    beside_fonts(peers, kind, path, old)
    if kind != "fork":
        beside_takers(peers, kind, path, old)
    elif not os.path.basename(path).startswith("model"):
        if python:
            beside_font_tools(peers, python, path)
        beside_exif_tool(peers, path)
        beside_fondu(peers, path)


def written(peers, python, kind, path):
    """Has resfork change a file and change it back."""
    front, ending = os.path.splitext(path)
    added, back = f"{front}.added{ending}", f"{front}.back{ending}"
    if (
        peers.does(["put", "--new", path, "PEER", "-77", "-i", sys.argv[0], "--name", "peers", "-o", added])
        and peers.does(["set", added, "PEER", "-77", "--id", "77", "--name", "caf\u00e9", "--attrs", "locked,preload"])
        and peers.does(["rm", added, "PEER", "77", "-o", back])
        and peers.does(["diff", path, back])
    ):
        beside_all(peers, python, kind, added, path)
        beside_all(peers, python, kind, back, path)
        tried(peers, "changed and changed back")


def made_again(peers, python, kind, path):
    """Has resfork write a file of its text, and of the folder that it is unpacked to."""
    front, ending = os.path.splitext(path)
    text, folder, packed = f"{front}.r", f"{front}.unpacked", f"{front}.packed{ending}"
    shutil.rmtree(folder, ignore_errors=True)
    like = [] if kind == "fork" else ["--like", path]
    if peers.does(["unpack", path, folder]) and peers.does(["pack", *like, folder, packed]) and peers.does(["diff", path, packed]):
        beside_all(peers, python, kind, packed, path)
        tried(peers, "unpacked and packed")
    with open(text, "wb") as file:
        file.write(subprocess.run([peers.resfork, "derez", path], capture_output=True, timeout=60).stdout)
    fork = f"{front}.rez.rsrc"
    if peers.does(["rez", text, "-o", fork]) and peers.does(["diff", path, fork]) and kind == "fork":
        beside_all(peers, python, kind, fork, path)
        tried(peers, "text and back")


# what `convert` calls each kind, and those that hold no data fork
TARGETS = {"fork": "raw", "AppleDouble": "appledouble", "AppleSingle": "applesingle", "MacBinary": "macbinary", "BinHex": "binhex"}
APART = ("fork", "AppleDouble")


def converted(peers, python, kind, path):
    """Has resfork write a file in each container, and other programs take the fork out of it."""
    front = os.path.splitext(path)[0]
    for other, word in TARGETS.items():
        new = f"{front}.to.{ENDINGS.get(other, word)}"
        data = ["--data", f"{front}.data"] if other in APART and kind not in APART else []
        if not peers.does(["convert", "--lossy", *data, "--to", word, path, new]) or not peers.does(["diff", path, new]):
            continue
        tried(peers, f"converted to {word}")
        beside_fonts(peers, other, new, path, kind)
        if other == "fork" and not os.path.basename(path).startswith("model"):
            if python:
                beside_font_tools(peers, python, new)
            beside_exif_tool(peers, new)
        for name, words in TAKEN.get(other, []):
            fork = taken_out(peers, words, other, new)
            if fork:
                beside_fork(peers, f"{name} on what convert writes", new, fork)
            elif shutil.which(words[0]) and time.monotonic() < peers.end:
                peers.failed.append(f"{name} takes no fork out of a file that was converted to {word}")


def some_font():
    for path in sorted(glob.glob("/usr/share/fonts/**/*.ttf", recursive=True), key=os.path.getsize):
        return path
    return None


def raw_forks(peers, named):
    """The paths of raw forks."""
    forks, font, folder = [], some_font(), peers.folder
    for index, path in enumerate(named):
        forks.append(shutil.copy(path, os.path.join(folder, f"named{index}.rsrc")))
    if font:
        shutil.copy(font, os.path.join(folder, "a.ttf"))
        ff = ["fontforge", "-quiet", "-lang=ff", "-c"]
        peers.run(ff + ['Open("a.ttf"); SelectAll(); ScaleToEm(1000); Generate("a.pfb"); Generate("forge.dfont"); Generate("forge.otf.dfont")'])
        forks += [path for path in (os.path.join(folder, it) for it in ("forge.dfont", "forge.otf.dfont")) if os.path.exists(path)]
        if os.path.exists(os.path.join(folder, "a.pfb")):
            forks += [peers.made(["t1mac", "-r", "a.pfb", "type1.rsrc"], "type1.rsrc")]
        for flag, ending in (("-dfont", "dfont"), ("-res", "res")):
            if (done := peers.run(["ufond", flag, "a.ttf"])) and not done.returncode:
                new = [it for it in glob.glob(os.path.join(folder, f"*.{ending}")) if os.path.basename(it).split(".")[0] not in ("ff", "uf")]
                forks += [shutil.move(new[0], os.path.join(folder, f"uf.{ending}.rsrc"))] if new else []
        if len(forks) > 1 and forks[0]:
            shutil.copy(forks[0], os.path.join(folder, "lumped.rsrc"))
            if (done := peers.run(["lumper", "lumped.rsrc", os.path.basename(forks[1])])) and not done.returncode:
                forks.append(os.path.join(folder, "lumped.rsrc"))
    for number in range(1, 40):
        fork = Choices(number).fork()
        try:
            rows = read_fork(fork)
        except NoFork:
            continue
        if rows:
            forks.append(os.path.join(folder, f"model{number}.rsrc"))
            with open(forks[-1], "wb") as file:
                file.write(fork)
    return [it for it in forks if it]


def containers(peers, fork):
    """A fork in the containers that tools make of it: the way, and the path. A tool that can't is named."""
    name = os.path.basename(fork)
    with open(os.path.join(peers.folder, "bh.pl"), "w", encoding="ascii") as script:
        script.write(
            "use Convert::BinHex; local $/; open(F, '<:raw', $ARGV[0]) or die; my $r = <F>;"
            "my $h = Convert::BinHex->new(filename => 'a file', flags => 0, type => 'APPL', creator => 'abcd');"
            "$h->resource(Data => $r); $h->data(Data => 'some data'); open(O, '>:raw', $ARGV[1]) or die; $h->encode(\\*O); close O;"
        )
    ways = [
        ("macstream", ["macstream", "-r", "-tAPPL", "-cabcd", name], name + ".ms.bin"),
        ("binhex", ["binhex", "-r", "-tAPPL", "-cabcd", name], name + ".hqx"),
        ("tobin", ["tobin", "-res", name, "-type", "APPL", "-creator", "abcd", "data"], "data.bin"),
        ("Convert::BinHex", ["perl", "bh.pl", name, name + ".pl.hqx"], name + ".pl.hqx"),
    ]
    with open(os.path.join(peers.folder, "data"), "wb") as file:
        file.write(b"some data")
    for way, words, output in ways:
        path = peers.made(words, output)
        if path:
            kept = shutil.move(path, os.path.join(peers.folder, f"{name}.{way[:4]}.kept"))
            yield way, kept
            if way == "tobin":
                yield from by_hcopy(peers, kept, name)
                yield from by_unar(peers, kept)


def by_hcopy(peers, binary, name):
    """MacBinary and BinHex by way of an HFS volume. (FreeType takes a longer file with a name of two letters for a font of Windows.)"""
    image = os.path.join(peers.folder, "hfs.img")
    with open(image, "wb") as file:
        file.truncate(8000000)
    inside = os.path.join(peers.folder, "h.bin")
    shutil.copy(binary, inside)
    for words in (["hformat", "-l", "Test", image], ["hmount", image], ["hcopy", "-m", "h.bin", ":kept"]):
        done = peers.run(words)
        if done is None or done.returncode:
            peers.failed += [f"{words[0]} of {name}: {done.stderr.decode(errors='replace').strip()[:100]}"] if done else []
            return
    for flag, ending in (("-m", "hc.bin"), ("-b", "hc.hqx")):
        path = peers.made(["hcopy", flag, ":kept", f"{name}.{ending}"], f"{name}.{ending}")
        if path:
            yield f"hcopy {flag}", path


def by_unar(peers, binary):
    """AppleDouble that unar makes of MacBinary."""
    out = os.path.join(peers.folder, "unar")
    shutil.rmtree(out, ignore_errors=True)
    done = peers.run(["unar", "-q", "-k", "hidden", "-o", out, binary])
    if done is None or done.returncode:
        return
    for path in glob.glob(out + "/**/._*", recursive=True):
        yield "unar", shutil.move(path, f"{binary}.unar")  # whose name says of which fork it is


def of_t1mac(peers):
    """The containers that t1mac makes of one font."""
    for flag in ("--macbinary", "--applesingle", "--appledouble", "--binhex"):
        if os.path.exists(os.path.join(peers.folder, "a.pfb")):
            path = peers.made(["t1mac", flag, "a.pfb", f"t1{flag}"], f"t1{flag}")
            if path:
                yield f"t1mac {flag}", path


# the kinds of the containers that tools make
KINDS = {"macstream": "MacBinary", "tobin": "MacBinary", "hcopy -m": "MacBinary", "unar": "AppleDouble"}
KINDS |= {way: "BinHex" for way in ("binhex", "Convert::BinHex", "hcopy -b")}
KINDS |= {f"t1mac --{kind.lower()}": kind for kind in ("MacBinary", "AppleSingle", "AppleDouble", "BinHex")}


def written_of(peers, python, way, path):
    """Has resfork write a container again."""
    written(peers, python, KINDS[way], path)
    made_again(peers, python, KINDS[way], path)
    converted(peers, python, KINDS[way], path)


def main():
    words = argparse.ArgumentParser(description=__doc__, formatter_class=argparse.RawDescriptionHelpFormatter)
    words.add_argument("--resfork", default=os.path.join(TOP, "crates/resfork/out/resfork"))
    words.add_argument("--seconds", type=float, default=120)
    words.add_argument("files", nargs="*", metavar="FILE", help="a raw fork")
    asked = words.parse_args()
    with tempfile.TemporaryDirectory() as folder:
        peers = Peers(os.path.abspath(asked.resfork), folder, asked.seconds)
        forks, python = raw_forks(peers, asked.files), python_with_font_tools()
        if not python:
            peers.missing.add("fontTools")
        for fork in forks:
            if time.monotonic() > peers.end:
                break
            if not os.path.basename(fork).startswith("model"):  # these are odd in ways that fontTools and exiftool don't read
                if python:
                    beside_font_tools(peers, python, fork)
                beside_exif_tool(peers, fork)
                beside_fondu(peers, fork)
            written(peers, python, "fork", fork)
            made_again(peers, python, "fork", fork)
            converted(peers, python, "fork", fork)
            for way, path in containers(peers, fork):
                beside_fork(peers, way, path, fork)
                written_of(peers, python, way, path)
        t1 = os.path.join(folder, "type1.rsrc")
        for way, path in of_t1mac(peers) if os.path.exists(t1) else []:
            beside_fork(peers, way, path, t1)
            written_of(peers, python, way, path)
        over = time.monotonic() > peers.end
    for text in sorted(set(peers.failed)):
        print(f"not compared: {text}")
    if peers.missing:
        print(f"missing: {', '.join(sorted(peers.missing))}")
    print(f"{len(forks)} raw forks; compared: " + ", ".join(f"{way} {count}" for way, count in sorted(peers.compared.items())))
    if over:
        print("the time was over before all was tried: give more by --seconds")
    print(f"{len(peers.faults)} differences")
    return 1 if peers.faults else 0


if __name__ == "__main__":
    sys.exit(main())
