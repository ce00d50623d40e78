#!/usr/bin/env python3
"""Makes the man pages docs/macheap.1 and docs/macheap.3, and writes them: tools/man_pages.py.

macheap(1) has the program's own texts: its options and their help from crates/macheap/src, and the first example from docs/SCRIPT.md.
macheap(3) has the comments and declarations of the headers in c/include/. `tests/run pages` sees that what is written is what is made.
"""
import os
import re
import sys
import textwrap

TOP = os.path.dirname(os.path.dirname(os.path.abspath(__file__)))
HEAD = '.TH MACHEAP {} 2026-11-28 "macheap {}"'
# a table of more lines than this is left out
LONG = 50
VERSION = re.compile(r'#define MACHEAP_VERSION "(.*)"')
OPTION = re.compile(r'\.arg\(\w+_option\(alloc, "(\w+)", (\w+)\)\)')
HELP = re.compile(r'let (\w+_help) =\s*"([^"]*)";')
ABOUT = re.compile(r'const ABOUT: &\[u8\] =\s*b"([^"\\]*)')
# what an option takes that takes no number
VALUES = {"fork": "FILE", "journal": "FILE", "large": ""}
QUOTE = re.compile(r"^```text \S+\n(.*?)^```$", re.M | re.S)
COLUMNS = 70
# the exit statuses of macheap: what happened, what both outputs have then, the status
STATUSES = [
    ("all lines were run; or help was asked for", "their replies; or the help", "nothing", 0),
    ("the host refused memory", "the replies so far, and the line `no memory`", "nothing", 1),
    ("reading the script failed, or was interrupted", "nothing", "nothing", 1),
    ("writing failed, was interrupted, or took no byte", "the replies so far, the last perhaps in part", "nothing", 1),
    ("a file can't be opened or made, or another program is at work on it", "nothing", "which file, written as by resfork(1), why, and what to do", 1),
    ("the command line has a mistake", "nothing", "a message", 2),
    ("the script has a fault", "the line `script fault at line N`", "what is wrong in that line", 3),
]
# what --look does, its options, and its exit statuses
LOOK = "Shows the blocks of a heap zone that anyone made, how many there are, and the first thing that is wrong with it, and runs nothing."
LOOK_OPTIONS = [
    ("look", "FILE", "A file of memory, up to 4294967296 bytes."),
    ("base", "N", "The zone's address, in decimal digits, or as $ and hexadecimal ones (default 0)."),
    ("from", "N", "The address of the file's first byte (default 0)."),
    ("mode", "N", "The headers of its blocks, 24 or 32 (default 24)."),
    ("json", "", "Writes JSON. Kinds of faults have the numbers of macheap(3)."),
]
LOOK_STATUSES = "0 if nothing is wrong, 1 if the file can't be read, the output not be written, or the host has no memory, 2 for a mistake in the words, 3 if something is wrong."
# a comment of a header that begins a line, or what is between two of them
ITEM = re.compile(r"^/\*(.*?)\*/\n|((?:(?!/\*)[^\n]*\n)+)", re.M | re.S)
GUARD = re.compile(r'^#.*\n|^extern "C" \{\n|^\}\n', re.M)


def read(path):
    with open(os.path.join(TOP, path), encoding="utf-8") as it:
        return it.read()


def safe(line):
    """A line of text as roff takes it."""
    line = line.replace("\\", "\\e")
    line = re.sub(r"(?<!\w)-(?=[\w-])|(?<=-)-", r"\\-", line)
    return "\\&" + line if line[:1] in (".", "'") else line


def words(text):
    """A text of Markdown: code in bold, links as their words, a sentence a line."""
    text = re.sub(r"\[([^\]]*)\]\([^)]*\)", r"\1", " ".join(text.split()))
    text = re.sub(r"`([^`]*)`", r"<<\1>>", text)
    sentences = re.split(r"(?<=[a-z0-9)>]\.) (?=[A-Z<])", text)
    lines = [safe(line) for it in sentences for line in textwrap.wrap(it, COLUMNS, break_on_hyphens=False)]
    return "\n".join(lines).replace("<<", "\\fB").replace(">>", "\\fR")


def code(text):
    """Lines that are shown as they are; where one is too long, the rest comes on the next."""
    lines = []
    for line in re.sub(r",\n {8,}", ", ", text.rstrip("\n")).split("\n"):
        rest = " " * (len(line) - len(line.lstrip()) + 4)
        whole = re.sub(r" (?=\*|\w+[,)])", "\0", line)
        lines += textwrap.wrap(whole, COLUMNS, subsequent_indent=rest, break_on_hyphens=False) or [""]
    shown = [safe(it.replace("\0", " ")).replace("\\-", "-").replace("-", "\\-") for it in lines]
    return "\n".join([".RS 2", ".nf", *shown, ".fi", ".RE"])


def options():
    """The program's options: name, what its value is called, and its help."""
    source = read("crates/macheap/src/asked.rt")
    helps = dict(HELP.findall(source))
    return [(name, VALUES.get(name, "N"), helps[text]) for name, text in OPTION.findall(source)]


def program():
    """macheap(1)."""
    about = ABOUT.search(read("crates/macheap/src/program.rt"))[1]
    script, printed = QUOTE.findall(read("docs/SCRIPT.md"))[:2]
    made = [head(1), ".SH NAME", f"macheap \\- {about[0].lower()}{about[1:]}", ".SH SYNOPSIS", ".B macheap"]
    for name, value, _ in options():
        made += [f".RB [ \\-\\-{name}", f".IR {value} ]" + ("...\\&" if value == "FILE" else "")] if value else [f".RB [ \\-\\-{name} ]"]
    made += [".I < SCRIPT", ".br", ".B macheap \\-\\-look", ".I FILE"]
    for name, value, _ in LOOK_OPTIONS[1:]:
        made += [f".RB [ \\-\\-{name}", f".IR {value} ]"] if value else [f".RB [ \\-\\-{name} ]"]
    made += [".SH DESCRIPTION", words("A script has a call of the Memory Manager or the Resource Manager in each line.")]
    made += [words("Each call prints its line number, name, result and code. docs/SCRIPT.md has the language and all calls.")]
    made += [".SH OPTIONS"]
    for name, value, said in options():
        made += [".TP", f'.BI \\-\\-{name} " {value}"' if value else f".B \\-\\-{name}", words(said) + "."]
    made += [".TP", ".BR \\-h \", \" \\-\\-help", "Prints help, and runs nothing.", ".SH EXIT STATUS"]
    for what, output, message, status in STATUSES:
        made += [".TP", f".B {status}", words(f"{what[0].upper()}{what[1:]}. Standard output: {output}. Standard error: {message}.")]
    made += [".SH A ZONE THAT OTHERS MADE", words(LOOK)]
    for name, value, said in LOOK_OPTIONS:
        made += [".TP", f'.BI \\-\\-{name} " {value}"' if value else f".B \\-\\-{name}", words(said)]
    made += [".PP", words(f"The exit status is {LOOK_STATUSES}")]
    made += [".SH EXAMPLES", "After three lines of comment, the script", code(script), "prints", code(printed)]
    made += [".SH SEE ALSO", ".BR resfork (1),", ".BR macheap (3)"]
    return "\n".join(made) + "\n"


def comment(text):
    """A comment of a header: its paragraphs, the points of a list, and lines of code, which are indented."""
    lines = [re.sub(r"^ ?\* ?", "", it) for it in text.strip().split("\n")]
    made = []
    for part in re.split(r"\n\s*\n", "\n".join(lines)):
        if part.startswith("    "):
            made += [".PP", code(textwrap.dedent(part))]
            continue
        first, *points = re.split(r"^ *- ", part, flags=re.M)
        made += [".PP", words(first)]
        for point in points:
            made += [".IP \\(bu 3", words(point)]
    return made


def header(path):
    """What a header says of itself, and its declarations, each group before its comment."""
    first, *items = ITEM.finditer(read(path))
    made, said = [], []
    for item in items:
        if item[1] is not None:
            made, said = made + said, comment(item[1])
            continue
        declared = GUARD.sub("", item[2]).strip("\n")
        if declared.count("\n") > LONG:
            said = []
        elif declared:
            made += [".PP", code(re.sub(r"\n{2,}", "\n", declared)), *said]
            said = []
    return comment(first[1]), made + said


def head(section):
    """The first line of the page in that section, with the version that the header has."""
    with open(os.path.join(TOP, "c/include/macheap.h"), encoding="utf-8") as it:
        return HEAD.format(section, VERSION.search(it.read())[1])


def library():
    """macheap(3)."""
    made = [head(3), ".SH NAME", "macheap, resman, macheap_fork, macheap_traps \\- the classic Macintosh Memory Manager, Resource Manager and resource forks, for C and C++"]
    made += [".SH SYNOPSIS", code('#include "macheap.h"\n#include "resman.h"\n#include "macheap_fork.h"\n#include "macheap_traps.h"'), code("cc emulator.c $(pkg-config --cflags --libs macheap)")]
    for path, title in [("c/include/macheap.h", "MEMORY MANAGER"), ("c/include/resman.h", "RESOURCE MANAGER"), ("c/include/macheap_fork.h", "RESOURCE FORKS"), ("c/include/macheap_traps.h", "TRAPS")]:
        said, declared = header(path)
        made += [f".SH {title}", *said[1:], *declared]
    return "\n".join([*made, ".SH SEE ALSO", ".BR macheap (1),", ".BR resfork (1)"]) + "\n"


def pages():
    """The pages, by where each is written."""
    return {"docs/macheap.1": program(), "docs/macheap.3": library()}


def main():
    for path, made in pages().items():
        with open(os.path.join(TOP, path), "w", encoding="utf-8") as it:
            it.write(made)
    return 0


if __name__ == "__main__":
    sys.exit(main())
