#!/usr/bin/env python3
"""Runs a script of calls of the Memory Manager and the Resource Manager by Python alone; prints what macheap prints:

    tools/play.py SCRIPT [--zone N] [--limit N] [--base N] [--mode 24|32] [--large] [--fork FILE].. [--html OUT]

The options are macheap's (docs/SCRIPT.md). If there are none, those of the line '# macheap OPTIONS' at the head of the
script count, as in examples/; its files are in the script's folder. SCRIPT may be - for the standard input. It runs on
the model of tests/model, which is written from the rules alone: no toolchain is needed, and nothing is proved of it.
Files are read and never written.

With --html it also writes a page, for any browser: the zone's map after each call. The exit status is 0, or 3 for a
fault in the script, 2 for one in the words, 1 if a file can't be read or written.
"""
from __future__ import annotations

import argparse
import os
import re
import sys

TOP = os.path.dirname(os.path.dirname(os.path.abspath(__file__)))
sys.path.append(os.path.join(TOP, "tests"))
import heap_page  # noqa: E402
from model.fork import MOST_BYTES  # noqa: E402
from model.script import LACKING, Call, Fault, Run, read_script  # noqa: E402
from model.script import MOST_BYTES as MOST_OF_SCRIPT  # noqa: E402
from model.toolbox import Toolbox  # noqa: E402

HEAD = re.compile(rb"(?:#.*\n)*?# macheap (--.*)\n")
LEAST_ZONE, LEAST_BASE, LEAST_GROWTH = 1024, 4096, 16


class NotPlayed(Exception):
    """Nothing is run, or no page is made: the exit status and why."""


def words() -> argparse.ArgumentParser:
    """The words of the command line."""
    parser = argparse.ArgumentParser(
        description=__doc__, formatter_class=argparse.RawDescriptionHelpFormatter, allow_abbrev=False
    )
    parser.add_argument("script", metavar="SCRIPT")
    for name in ("zone", "limit", "base", "mode"):
        parser.add_argument(f"--{name}", metavar="N", type=number)
    parser.add_argument("--large", action="store_true")
    parser.add_argument("--fork", metavar="FILE", action="append", default=[])
    parser.add_argument("--html", metavar="OUT")
    return parser


def number(text: str) -> int:
    """A number in decimal digits."""
    if not re.fullmatch("[0-9]{1,10}", text):
        raise argparse.ArgumentTypeError("decimal digits are expected")
    return int(text)


def no_zone(asked: argparse.Namespace) -> str | None:
    """Why there is no zone of these sizes, if there is none."""
    zone, limit, base = asked.zone, asked.limit, asked.base
    most = 1073741824 if asked.large else 1048576
    end = 4294967295 if asked.large and asked.mode == 32 else 16777216
    faults = {
        f"--mode is 24 or 32, and not {asked.mode}": asked.mode not in (24, 32),
        f"a zone's size is a multiple of 4 bytes, and {zone} is none": zone % 4,
        f"a zone has {LEAST_ZONE} bytes at least, and {zone} are too few": zone < LEAST_ZONE,
        f"a zone's limit is a multiple of 4 bytes, and {limit} is none": limit % 4,
        f"a zone's limit is {most} bytes at most, and {limit} are too many": limit > most,
        f"a zone's limit is its size at least, and {limit} is below it": limit < zone,
        f"a zone that may grow may grow by {LEAST_GROWTH} bytes at least, and {limit - zone} are too few": 0
        < limit - zone
        < LEAST_GROWTH,
        f"a zone begins at a multiple of 4, and {base} is none": base % 4,
        f"a zone begins at {LEAST_BASE} or above, and {base} is too low": base < LEAST_BASE,
        f"a zone that has grown ends at {end} or below, and {base + limit} is above": base + limit > end,
    }
    return next((fault for fault, holds in faults.items() if holds), None)


def bytes_of(path: str, most: int) -> bytes:
    """The bytes of a file, one more than these at most."""
    if path != "-" and os.path.exists(path) and not os.path.isfile(path):
        raise NotPlayed(1, f"{path}: can't be read: it is no regular file")
    try:
        with open(0 if path == "-" else path, "rb") as file:
            return file.read(most + 1)
    except OSError as error:
        raise NotPlayed(1, f"{path}: can't be read: {error.strerror}") from error


def asked_for(given: list[str], text: bytes) -> argparse.Namespace:
    """What the words ask for, with those of the script's head if there are no others."""
    asked = words().parse_args(given)
    head = HEAD.match(text)
    if head and not (
        asked.fork or asked.large or any(it is not None for it in (asked.zone, asked.limit, asked.base, asked.mode))
    ):
        folder = os.path.dirname(asked.script)
        of_head = words().parse_args([asked.script, *head[1].decode("latin-1").split()])
        of_head.fork = [os.path.join(folder, it) for it in of_head.fork]
        of_head.html, asked = asked.html, of_head
    asked.zone = 4096 if asked.zone is None else asked.zone
    asked.limit = asked.zone if asked.limit is None else asked.limit
    asked.base = 0x100000 if asked.base is None else asked.base
    asked.mode = 24 if asked.mode is None else asked.mode
    fault = no_zone(asked) or ("--fork may be given 8 times" if len(asked.fork) > 8 else None)
    if fault:
        raise NotPlayed(2, fault)
    return asked


def toolbox(asked: argparse.Namespace) -> Toolbox:
    """The zone and the files that are asked for."""
    disks = [bytes_of(it, MOST_BYTES) if it == "-" or os.path.exists(it) else b"" for it in asked.fork]
    return Toolbox(asked.mode, asked.zone, asked.limit, asked.base, disks or [b""])


def played(given: list[str]) -> None:
    """Runs a script, and prints its replies as its calls are made."""
    text = bytes_of(words().parse_args(given).script, MOST_OF_SCRIPT)
    asked = asked_for(given, text)
    lines = read_script(text)
    lacking = sorted({it.name for it in lines if isinstance(it, Call)}.intersection(LACKING))
    if lacking:
        raise NotPlayed(1, f"the model has no {', '.join(lacking)}: run the script by macheap")
    if asked.html:
        heap_page.may_write(asked.html)
    run = Run(toolbox(asked))
    before = list(run.toolbox.disks)
    refused = run.start()
    if refused:
        print(refused, flush=True)
    steps = heap_page.Steps(run, asked.html is not None)
    for done in run.calls(lines):
        print(done.reply, flush=True)
        steps.add(done)
    for path, old, new in zip(asked.fork, before, run.toolbox.disks):
        if old != new:
            print(
                f"tools/play.py: {path} is left as it is; macheap would write a fork of {len(new)} bytes",
                file=sys.stderr,
            )
    if asked.html:
        heap_page.write(asked.html, os.path.basename(asked.script), text, steps)


def main(given: list[str]) -> int:
    """Does what the words ask for, and returns the exit status."""
    try:
        played(given)
    except Fault as fault:
        print(f"script fault at line {fault.line}")
        print(f"error: line {fault.line}: {fault.wrong}", file=sys.stderr)
        return 3
    except (NotPlayed, heap_page.NoPage) as why:
        *status, said = why.args
        print(f"tools/play.py: {''.join(it if it.isprintable() else '?' for it in said)}", file=sys.stderr)
        return status[0] if status else 1
    except BrokenPipeError:
        # who reads may stop before the end
        os.dup2(os.open(os.devnull, os.O_WRONLY), 1)
        return 1
    return 0


if __name__ == "__main__":
    sys.exit(main(sys.argv[1:]))
