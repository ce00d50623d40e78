#!/usr/bin/env python3
"""Lists the goals of a crate that cost the prover most: tools/slow_goals.py [--modules] CRATE [N].

It reads what a check from nothing left in crates/CRATE/out/incremental. A step is one of the prover's own, so what is
listed doesn't depend on what else ran: a million is a second, or a little more. After a second check of changed
files the goals of both are listed.

With --modules it lists the modules that took longest: of a check by one job (`rt check --jobs 1`), a module took the time since
the file before it was written. What else the machine did meanwhile counts too.
"""
import os
import re
import sys

GOAL = re.compile(r'"name":"([^"]+)","notes"(?:(?!"name":").){0,60000}?"steps":\[(\d+),', re.S)


def kept(crate):
    """What a check kept of a crate: each file, and its module."""
    for at, _, names in os.walk(f"crates/{crate}/out/incremental"):
        for name in names:
            if name.endswith(".oantt"):
                yield f"{at}/{name}", name.removeprefix("Rattle-").removesuffix(".oantt").removesuffix(".decls")


def goals(crate):
    """The goals of a crate, each with its steps in millions."""
    for path, module in kept(crate):
        if os.path.basename(os.path.dirname(path)) == "records" and path.endswith(".decls.oantt"):
            with open(path, encoding="utf-8", errors="replace") as it:
                for goal in GOAL.finditer(it.read()):
                    yield int(goal[2]) / 1e6, f"{module} {goal[1]}"


def modules(crate):
    """The modules of a crate, each with the seconds that it took."""
    done = sorted((os.lstat(path).st_mtime_ns / 1e9, module) for path, module in kept(crate))
    return ((now - before, module) for (before, _), (now, module) in zip(done, done[1:]))


def main():
    words = sys.argv[1:]
    listed, unit = (modules, "s") if words[:1] == ["--modules"] else (goals, "million")
    words = words[listed is modules :]
    if len(words) not in (1, 2):
        print(__doc__.split("\n")[0])
        return 2
    found = sorted(listed(words[0]), reverse=True)
    for cost, name in found[: int(words[1]) if len(words) == 2 else 20]:
        print(f"{cost:7.2f} {unit}  {name}")
    print(f"{sum(cost for cost, _ in found):7.2f} {unit} in all, of {len(found)}")
    return 0


if __name__ == "__main__":
    os.chdir(f"{os.path.dirname(os.path.abspath(__file__))}/..")
    sys.exit(main())
