"""Checks what `macheap --look` shows of zones that were laid out by hand (tests/checks/looked.py), in text and as JSON, whole and with a fault, and
which words, and files, it refuses.
"""
import json
import os
import subprocess
import tempfile

from checks.looked import ZONE_24, ZONE_32

TEXT_24 = b"""$00002034 24 ptr 16
$0000204C 16 rel $0000203C 5 LP-
$0000205C 20 ptr 12
$00002070 16 free
free 1 (16 bytes), nonrelocatable 2 (44 bytes), relocatable 1 (16 bytes): locked 1 (16 bytes), purgeable 0 (0 bytes)
3 free master pointers, trailer of 12 bytes
"""
TEXT_32 = b"""$00002034 28 ptr 16
$00002050 20 rel $00002040 5 LP-
$00002064 24 ptr 12
$0000207C 20 free
free 1 (20 bytes), nonrelocatable 2 (52 bytes), relocatable 1 (20 bytes): locked 1 (20 bytes), purgeable 0 (0 bytes)
3 free master pointers, trailer of 16 bytes
"""
# the second block's size is 4
CUT_24 = ZONE_24[:0x4D] + bytes([0, 0, 4]) + ZONE_24[0x50:]
TEXT_CUT = b"""$00002034 24 ptr 16
free 0 (0 bytes), nonrelocatable 1 (24 bytes), relocatable 0 (0 bytes): locked 0 (0 bytes), purgeable 0 (0 bytes)
0 free master pointers, trailer of 12 bytes
fault 5 at $0000204C: a block is so small that it overlaps the next: $00000004, and not $0000000B
"""
JSON_24 = {
    "blocks": [
        {"address": 0x2034, "size": 24, "kind": "ptr", "length": 16},
        {"address": 0x204C, "size": 16, "kind": "rel", "length": 5, "handle": 0x203C, "lock": True, "purge": True, "resource": False},
        {"address": 0x205C, "size": 20, "kind": "ptr", "length": 12},
        {"address": 0x2070, "size": 16, "kind": "free", "length": 0},
    ],
    "free_masters": 3,
    "trailer": 12,
    "fault": None,
}
JSON_CUT = {"blocks": JSON_24["blocks"][:1], "free_masters": 0, "trailer": 12, "fault": {"problem": 5, "place": 0x204C, "found": 4, "wanted": 11}}
# words, the status, and what is shown: text, JSON, or anything (None)
RUNS = [
    ("--look ram --base 8192", 0, TEXT_24),
    ("--look ram --base $2000 --mode 24", 0, TEXT_24),
    ("--base $2000 --look=ram", 0, TEXT_24),
    ("--look ram32 --base 8192 --mode 32", 0, TEXT_32),
    ("--look zone --base 8192 --from $2000", 0, TEXT_24),
    ("--look cut --base 8192", 3, TEXT_CUT),
    ("--look ram --base 8192 --json", 0, JSON_24),
    ("--look cut --json --base 8192", 3, JSON_CUT),
    ("--look ram", 3, None),
    ("--look empty", 3, None),
    ("--look ram --base 4294967295", 3, None),
    ("--look ram --help", 0, None),
    ("--look --help", 2, b""),
    ("--look missing", 1, b""),
    ("--look .", 1, b""),
    ("--look long", 1, b""),
    ("--look /dev/zero", 1, b""),
    ("--look pipe", 1, b""),
    ("--look", 2, b""),
    ("--look ram --base x", 2, b""),
    ("--look ram --base $", 2, b""),
    ("--look ram --base +8192", 2, b""),
    ("--look ram --base $+2000", 2, b""),
    ("--look ram --base $20G0", 2, b""),
    ("--look ram --base 8192 --from x", 2, b""),
    ("--look ram --base 8192 --base 8192", 2, b""),
    ("--look ram --base $0002000 --mode=24", 0, TEXT_24),
    ("--look ram --base 4294967296", 2, b""),
    ("--look ram --base 8192 --from 8193", 2, b""),
    ("--look ram --mode 16", 2, b""),
    ("--look ram --zone 4096", 2, b""),
    ("--look ram other", 2, b""),
]


def main(program):
    wrong = 0
    with tempfile.TemporaryDirectory() as room:
        files = {"ram": bytes(0x2000) + ZONE_24, "ram32": bytes(0x2000) + ZONE_32, "zone": ZONE_24, "cut": bytes(0x2000) + CUT_24, "empty": b""}
        for name, contents in files.items():
            with open(os.path.join(room, name), "wb") as it:
                it.write(contents)
        # a file with a hole, one byte longer than what is read
        with open(os.path.join(room, "long"), "wb") as it:
            it.truncate((1 << 30) + 1)
        # nobody writes to it, so opening it would never end
        os.mkfifo(os.path.join(room, "pipe"))
        for words, status, wanted in RUNS:
            done = subprocess.run([program, *words.split()], cwd=room, capture_output=True, check=False, stdin=subprocess.DEVNULL, timeout=60)
            shown = json.loads(done.stdout) if isinstance(wanted, dict) else done.stdout
            is_silent = done.stderr == b"" if status in (0, 3) else done.stderr.startswith(b"error: ")
            if done.returncode != status or wanted not in (None, shown) or not is_silent:
                wrong += 1
                print(f"macheap {words}: status {done.returncode}, {done.stdout}, {done.stderr}, and not {status}, {wanted}")
        if sorted(os.listdir(room)) != sorted([*files, "long", "pipe"]):
            wrong += 1
            print("a look has made a file")
    print(f"looks: {len(RUNS)} runs, {wrong} wrong")
    return 1 if wrong else 0
