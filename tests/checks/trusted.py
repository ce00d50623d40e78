"""Checks that tools/trusted.txt has the functions that call the system or note a call, and no others, as tools/trusted.py finds them."""
import sys

from places import TOP

sys.path.append(f"{TOP}/tools")
import trusted  # noqa: E402


def main():
    return trusted.compare()
