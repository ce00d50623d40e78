"""Checks that each definition, law and function of the crates is reached by some other, as tools/unused.py finds, and that what may stay without
is there.
"""
import sys

from places import TOP

sys.path.append(f"{TOP}/tools")
from unused import STAYS, unused  # noqa: E402


def main():
    found, gone = unused()
    for it in found:
        print(f"nothing reaches {it.line}")
    for line in sorted(gone):
        print(f"tools/unused.py lets this stay, but it is reached, or isn't there: {line}")
    if not found and not gone:
        print(f"reached: all, but for {len(STAYS)} that may stay")
    return 1 if found or gone else 0
