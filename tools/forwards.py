#!/usr/bin/env python3
"""Lists the functions that only call a function or a method of their own name, and counts them: forwards.py [CRATE..].

The call may be in `Ok(..)` or `Some(..)`, and `?`, `;` or a `.map(..)` may come after it. Tests don't count.
"""
import pathlib
import re
import sys

CRATES = pathlib.Path(__file__).resolve().parent.parent / "crates"
HEAD = re.compile(r'( *)(?:pub(?:\(crate\))? )?(?:const )?(?:unsafe )?(?:extern "C" )?fn (\w+)')


def functions(lines):
    """The name of each function, and its body."""
    for at, line in enumerate(lines):
        head = HEAD.match(line)
        if not head:
            continue
        indent, name = head.groups()
        for first in range(at, len(lines)):
            if lines[first].endswith(";"):
                break
            if lines[first] == indent + "{" or lines[first].endswith(") {"):
                last = lines.index(indent + "}", first) if indent + "}" in lines[first:] else first
                yield name, lines[first + 1 : last]
                break


def is_forward(name, body):
    """Whether the body is one call of this name."""
    code = " ".join(line.strip() for line in body if not re.match(r"\s*(//|prove!)", line))
    code = re.sub(r"\.map\(.*\)$", "", code.replace(" .", ".").rstrip(";?"))
    wrapped = re.fullmatch(r"(?:Ok|Some)\((.*)\)", code)
    code = wrapped.group(1).rstrip("?") if wrapped else code
    called = re.match(rf"[&\w.:<>()]*?\b{name}(\(.*\))$", code)
    if not called:
        return False
    depth = 0
    for place, letter in enumerate(called.group(1)):
        depth += {"(": 1, ")": -1}.get(letter, 0)
        if depth == 0:
            return place == len(called.group(1)) - 1
    return False


def main():
    found = []
    for path in sorted(CRATES.glob("*/src/**/*.rt")):
        crate = path.relative_to(CRATES).parts[0]
        if not crate.endswith("_tests") and (crate in sys.argv[1:] or not sys.argv[1:]):
            lines = path.read_text().splitlines()
            found += [f"{path.relative_to(CRATES)}: {name}" for name, body in functions(lines) if is_forward(name, body)]
    print(*found, f"{len(found)} functions only pass a call on", sep="\n")


if __name__ == "__main__":
    main()
