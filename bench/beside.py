#!/usr/bin/env python3
"""Times programs side by side: beside.py [--zone] PROGRAM [PEER..].

The scripts are those on the way from text to call and from reply to text; with --zone, those whose calls search, cut, join, move, purge and copy
blocks in a zone of 1,048,576 bytes, each without the time of the script that only makes what is needed before.

Each program reads a script and takes `--zone N`, as macheap does. On each script they run in turn, forty times, and the least
processor time counts. The most memory is shown where /usr/bin/time is there. The last column is PROGRAM's time over each PEER's.
"""
import os
import subprocess
import sys
import tempfile

HERE = os.path.dirname(os.path.abspath(__file__))
RUNS = 40
CLOCK = "/usr/bin/time"
MIXES = [
    ("start", "notes 0", 4096),
    ("comments and blanks", "notes 65536", 4096),
    ("handles made and disposed of", "handles 65536", 4096),
    ("Poke 1, Peek 100", "bytes 65536", 4096),
    ("Poke 100, Peek 100", "pokes 16384", 4096),
    ("Poke 100 in digits", "hexes 4096", 4096),
    ("Peek 4,000 in digits", "digits 16384", 8192),
    ("Peek 4,000 as they are", "plain 16384", 8192),
    ("200 variables", "names 200 60000", 4096),
    ("20,000 variables", "names 20000 40000", 4096),
]

# a title, the script, and the one whose time is taken off
ZONE_MIXES = [
    ("start of 1 MB", "notes 0", None),
    ("NewPtr, DisposePtr among 200", "pointers 200 40000", "pointers 200 0"),
    ("among 2,000", "pointers 2000 40000", "pointers 2000 0"),
    ("among 20,000", "pointers 20000 40000", "pointers 20000 0"),
    ("the making of 20,000", "pointers 20000 0", "notes 0"),
    ("10,000 holes below", "holes 10000 30000", "holes 10000 0"),
    ("behind 500 KB live", "behind 500000 40000", "behind 500000 0"),
    ("behind 500 KB free", "freed 500000 20000", "pointers 20000 0"),
    ("900,000 to 450,000 and back", "sizes 900000 2000", "sizes 900000 0"),
    ("a number inside 500 KB", "inside 500000 40000", "inside 500000 0"),
    ("1 MB slides, of 20 blocks", "slid 20 1000", "slid 20 0"),
    ("of 2,000 blocks", "slid 2000 1000", "slid 2000 0"),
    ("of 20,000 blocks", "slid 20000 1000", "slid 20000 0"),
    ("one gap of 20,000 arranged", "gathered 20000 6000", "gathered 20000 0"),
    ("3,300 gaps arranged", "parted 20000 3000", "parted 20000 0"),
    ("20,000 purged for one", "purged 20000 1", "purged 20000 0"),
    ("nearly full of 2,000", "crowded 2000 60000", "crowded 2000 0"),
    ("nearly full of 20,000", "crowded 20000 38000", "crowded 20000 0"),
    ("HandAndHand of 100", "appended 100 40000", "appended 100 0"),
    ("HandAndHand of 100,000", "appended 100000 4000", "appended 100000 0"),
    ("PtrToHand of 100", "copied 100 40000", "copied 100 0"),
    ("PtrToHand of 100,000", "copied 100000 4000", "copied 100000 0"),
]


def once(program, script, zone):
    """Seconds of processor time of one run."""
    with open(script, "rb") as given, open(os.devnull, "wb") as output:
        child = subprocess.Popen([program, "--zone", str(zone)], stdin=given, stdout=output)
        _, status, used = os.wait4(child.pid, 0)
    if status != 0:
        sys.exit(f"{program} ended with {status} on {script}")
    return used.ru_utime + used.ru_stime


def memory(program, script, zone):
    """The most memory of one run in megabytes, as text."""
    if not os.path.exists(CLOCK):
        return "-"
    with open(script, "rb") as given:
        run = subprocess.run([CLOCK, "-f", "%M", program, "--zone", str(zone)], stdin=given, stdout=subprocess.DEVNULL, stderr=subprocess.PIPE, check=True)
    return f"{int(run.stderr.split()[-1]) / 1024:.1f}"


def made(folder, words):
    """The script that make_script.py makes of these words, and how many lines it has."""
    script = os.path.join(folder, words.replace(" ", "_"))
    with open(script, "wb") as output:
        subprocess.run([sys.executable, os.path.join(HERE, "make_script.py"), *words.split()], stdout=output, check=True)
    with open(script, "rb") as text:
        return script, text.read().count(b"\n")


def least_of(programs, script, zone):
    """The least time of each program."""
    least = [float("inf")] * len(programs)
    for _ in range(RUNS):
        for place, program in enumerate(programs):
            least[place] = min(least[place], once(program, script, zone))
    return least


def main():
    words = sys.argv[1:]
    of_zone = words[:1] == ["--zone"]
    programs = words[of_zone:]
    if not programs:
        sys.exit(__doc__)
    mixes = [(title, script, base, 1048576) for title, script, base in ZONE_MIXES] if of_zone else [(title, script, None, zone) for title, script, zone in MIXES]
    print(f"{'script':30} {'lines':>6}" + "".join(f" {os.path.basename(p)[:14]:>14} {'MB':>5}" for p in programs) + "  ratios")
    with tempfile.TemporaryDirectory() as folder:
        for title, of_script, of_base, zone in mixes:
            script, lines = made(folder, of_script)
            least = least_of(programs, script, zone)
            if of_base is not None:
                base, lines_before = made(folder, of_base)
                lines -= lines_before
                least = [max(taken - before, 0) for taken, before in zip(least, least_of(programs, base, zone))]
            each = "".join(f" {least[i] * 1e9 / max(lines, 1):11.0f} ns {memory(p, script, zone):>5}" for i, p in enumerate(programs))
            ratios = "".join(f" {least[0] / peer:5.2f}" if peer else "     -" for peer in least[1:])
            print(f"{title:30} {lines:6}{each} {ratios}")


main()
