#!/usr/bin/env python3
"""Prints how many processor seconds each crate takes from nothing: its check, and its must-fail edits.

    tools/gate_times.py [NAME..]

It works on a copy of this checkout, over the libraries that `rt ci` built here, and takes one crate after the other. Run it on a quiet machine.
"""
import os
import resource
import shutil
import subprocess
import sys
import tempfile

TOP = os.path.dirname(os.path.dirname(os.path.abspath(__file__)))


def seconds(*command, folder):
    """How many processor seconds a command takes, with all that it starts, and whether it ends well."""
    before = resource.getrusage(resource.RUSAGE_CHILDREN)
    ran = subprocess.run(command, cwd=folder, stdout=subprocess.DEVNULL, stderr=subprocess.DEVNULL, check=False)
    after = resource.getrusage(resource.RUSAGE_CHILDREN)
    return after.ru_utime + after.ru_stime - before.ru_utime - before.ru_stime, ran.returncode == 0


def crates():
    """The crates, the lowest first."""
    with open(os.path.join(TOP, "crates.txt"), encoding="utf-8") as lines:
        return [line.split(":")[0].split(" ")[0] for line in lines if ":" in line and not line.startswith("#")]


def main(names):
    total = 0.0
    with tempfile.TemporaryDirectory() as room:
        copy = os.path.join(room, "copy")
        shutil.copytree(TOP, copy, ignore=shutil.ignore_patterns(".git"))
        print(f"{'crate':<16}{'check':>8}{'edits':>8}")
        for name in names or crates():
            folder = os.path.join(copy, "crates", name)
            shutil.rmtree(os.path.join(folder, "out"), ignore_errors=True)
            check, is_well = seconds("rt", "check", "--jobs", "1", folder=folder)
            edits = seconds("rt", "must-fail", name, "--anew", folder=copy)[0] if os.path.isdir(os.path.join(folder, "must-fail")) else 0.0
            total += check + edits
            print(f"{name:<16}{check:>8.0f}{edits:>8.0f}{'' if is_well else '  not proved'}", flush=True)
    print(f"in all {total / 60:.1f} minutes")
    return 0


if __name__ == "__main__":
    unknown = set(sys.argv[1:]) - set(crates())
    if unknown:
        sys.exit(f"no crate of crates.txt: {' '.join(sorted(unknown))}; usage: tools/gate_times.py [NAME..]")
    sys.exit(main(sys.argv[1:]))
