#!/usr/bin/env python3
"""Times the update that is too big by a byte, and says how quiet the machine was: quiet.py PROGRAM [RUNS].

PROGRAM is a macheap. Each run of the script (5,457 changed resources, and UpdateResFile at each line that there may be) is made on one
processor, and before and after it that processor runs the loop of quiet.c, which takes twice as long where the host's other work
shares it. What is shown of each: the nanoseconds that a row took in C before and after, and the seconds of processor time of the run.
It needs a C compiler and Linux.
"""
import os
import subprocess
import sys
import tempfile

from hostile import RUNS, cut, run

NAME = "an update that is too big by a byte, and 5,457 changed resources"


def main(program, runs):
    forks, lines = next((forks, lines) for name, forks, lines in RUNS if name == NAME)
    script = cut("\n".join(lines).split("\n"))
    processors = sorted(os.sched_getaffinity(0))
    with tempfile.TemporaryDirectory() as folder:
        loop = os.path.join(folder, "quiet")
        source = os.path.join(os.path.dirname(os.path.abspath(__file__)), "quiet.c")
        subprocess.run(["cc", "-O2", "-o", loop, source], check=True)
        for it in range(runs):
            os.sched_setaffinity(0, {processors[it % len(processors)]})
            before = float(subprocess.run([loop], check=True, capture_output=True).stdout)
            used = run(program, folder, forks, script)[1]
            after = float(subprocess.run([loop], check=True, capture_output=True).stdout)
            print(f"{before:5.2f} ns a row, then {used.ru_utime + used.ru_stime:5.2f} s, then {after:5.2f} ns a row", flush=True)


if __name__ == "__main__":
    if len(sys.argv) not in (2, 3) or not os.access(sys.argv[1], os.X_OK):
        sys.exit(__doc__)
    main(os.path.realpath(sys.argv[1]), int(sys.argv[2]) if len(sys.argv) == 3 else 20)
