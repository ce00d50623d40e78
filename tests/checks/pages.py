"""Checks README.md and the pages of docs/: that their links lead to a page and to a heading, that README links each page, that what a
page quotes is there, that DESIGN.md names each crate, and that lines, pages and all of them are short and use no word that CONTRIBUTING.md
rules out; that no comment of the crates has such a word; and that docs/macheap.1 and docs/macheap.3 are what tools/man_pages.py makes,
and no man page has such a word. A quote is a block between ``` whose first line names the file, as
'```text PATH': its lines are in that file in this order, whatever blanks are before them. Of what a program prints a quote has all lines, or
a line '..' where some are left out. Tables and quotes may be wider than other lines.
"""
import glob
import os
import re
import sys

from places import TOP

sys.path.append(f"{TOP}/tools")
import man_pages  # noqa: E402

LINK = re.compile(r"\]\(([^)\s]+)\)")
QUOTE = re.compile(r"^```\w+ (\S+)\n(.*?)^```$", re.M | re.S)
BLOCK = re.compile(r"^```.*?^```$", re.M | re.S)
CODE = re.compile(r"`[^`\n]*`|^    .*$", re.M)
# the most lines that each page may have; there are no others
LINES = {
    "README.md": 110,
    "docs/CONTRIBUTING.md": 66,
    "docs/DECISIONS.md": 60,
    "docs/DESIGN.md": 205,
    "docs/DIFFERENCES.md": 88,
    "docs/EMULATORS.md": 130,
    "docs/FILES.md": 184,
    "docs/FORMAT.md": 78,
    "docs/SCRIPT.md": 276,
    "docs/THEOREM.md": 228,
}
WIDTH = 100
# the most words of all pages, code blocks aside
WORDS = 13300
# the page that names each crate
GLOSSARY = "docs/DESIGN.md"
# a line of a quote that says that lines are left out, and the files of which a quote has to say so: what programs print
LEFT_OUT, PRINTED = "..", re.compile(r"\.output$|/stdout$")
# the page that has the line with the words that no page uses, and what is allowed of them
RULES = "docs/CONTRIBUTING.md"
ALLOWED = re.compile(r"\bstands? for\b")
UNUSED = re.compile(r"^Not used on these pages, nor in comments: ([^.]*)\.$", re.M)
# where the version is, which is one for the programs, the library, the crate of C's and the pages
VERSIONS = {
    "c/include/macheap.h": re.compile(r'#define MACHEAP_VERSION "(.*)"'),
    "crates/fork_words/src/command.rt": re.compile(r'\.version\("(.*)"\)'),
    "crates/macheap/src/asked.rt": re.compile(r'const VERSION: &str = "(.*)"'),
    "c/rust/Cargo.toml": re.compile(r'^version = "(.*)"', re.M),
    "docs/resfork.1": re.compile(r'^\.TH .*"resfork (.*)"', re.M),
}
# where a comment begins in a source
COMMENTS = {".rt": re.compile(r"//.*"), ".antt": re.compile(r"--(?: .*|$)")}


def lacks(file, quoted):
    """The first line of a quote that the file doesn't have after those before it, if there is one."""
    with open(file, encoding="utf-8") as it:
        lines = [line.strip() for line in it.read().rstrip("\n").split("\n")]
    may_skip = skips = not PRINTED.search(file)
    for line in map(str.strip, quoted.strip("\n").split("\n")):
        if line == LEFT_OUT:
            skips = True
            continue
        rest = lines if skips else lines[:1]
        if line not in rest:
            return line
        lines, skips = lines[rest.index(line) + 1 :], may_skip
    return None if skips or not lines else f"{LEFT_OUT}, or: {lines[0]}"


def wrong_quotes(text):
    """What is wrong with the quotes of a page."""
    for file, quoted in QUOTE.findall(text):
        line = lacks(file, quoted) if os.path.isfile(file) else "(there is no such file)"
        if line is not None:
            yield f"it quotes what {file} does not have there: {line}"


def anchors(text):
    """The names by which links reach the headings of a page."""
    heads = re.findall(r"^#+ (.*)$", BLOCK.sub("", text), re.M)
    return {re.sub(r"[^\w -]", "", head.lower()).replace(" ", "-") for head in heads}


def wrong_links(page, text, texts):
    """What is wrong with the links of a page, where these are the texts of all pages."""
    for link in LINK.findall(text):
        file, _, anchor = link.partition("#")
        path = os.path.normpath(os.path.join(os.path.dirname(page), file)) if file else page
        if re.match(r"\w+:", link):
            continue
        if not os.path.exists(path):
            yield f"the link to {link} leads nowhere"
        elif anchor and anchor not in anchors(texts.get(path, "")):
            yield f"{path} has no heading for the link to {link}"


def wrong_lines(page, text, unused):
    """What is wrong with the lines of a page: how many and how wide they are, and which words they use."""
    lines = text.rstrip("\n").split("\n")
    if len(lines) > LINES.get(page, 0):
        yield f"it has {len(lines)} lines, and at most {LINES.get(page, 0)} are allowed"
    # quotes and tables may be wide
    for line in QUOTE.sub("", text).split("\n"):
        if len(line) > WIDTH and not line.startswith("|"):
            yield f"a line has {len(line)} columns: {line}"
    yield from words_used(CODE.sub("", BLOCK.sub("", UNUSED.sub("", text))), unused)


def words_used(prose, unused):
    """What is wrong with the words of a text: those that no page uses."""
    for word in unused:
        if re.search(rf"\b{word}\b", ALLOWED.sub("", prose), re.I):
            yield f"it uses the word '{word}'"


def words_of(text):
    """The words of a page, but for those of code blocks: what has a letter or a digit, between blanks."""
    return [word for word in re.sub(r"^    .*$", "", BLOCK.sub("", text), flags=re.M).split() if re.search(r"\w", word)]


def wrong_in_all(texts):
    """What is wrong with all pages together."""
    targets = [it.partition("#")[0] for it in LINK.findall(texts["README.md"])]
    for page in texts:
        if page != "README.md" and page not in targets:
            yield f"README.md does not link {page}"
    words = sum(len(words_of(text)) for text in texts.values())
    if words > WORDS:
        yield f"all pages have {words} words, and at most {WORDS} are allowed"
    with open("crates.txt", encoding="utf-8") as it:
        crates = [line.split(":")[0].split()[0] for line in it if ":" in line and not line.startswith("#")]
    for crate in crates:
        if not re.search(rf"\b{crate}\b", texts[GLOSSARY]):
            yield f"{GLOSSARY} does not name the crate {crate}"


def wrong_man_pages(unused):
    """What is wrong with the man pages, of which a tool makes all but one."""
    for page, made in man_pages.pages().items():
        if not os.path.exists(page) or man_pages.read(page) != made:
            yield f"{page} is not what tools/man_pages.py makes: run it"
    for page in sorted(glob.glob("docs/*.[1-9]")):
        yield from (f"{page}: {it}" for it in words_used(man_pages.read(page), unused))


def wrong_versions():
    """What is wrong with the versions, which are all the same."""
    found = {path: version.findall(man_pages.read(path)) for path, version in VERSIONS.items()}
    first = next(iter(found.values()))
    if len(first) != 1 or any(it != first for it in found.values()):
        yield f"there is more than one version: {found}"


def wrong_comments(unused):
    """What is wrong with the comments of the crates' sources."""
    for ending, comment in COMMENTS.items():
        for path in sorted(glob.glob(f"crates/*/*/**/*{ending}", recursive=True)):
            if "/out/" in path:
                continue
            with open(path, encoding="utf-8") as it:
                said = "\n".join(found[0] for found in map(comment.search, it) if found)
            yield from (f"{path}: {it}" for it in words_used(CODE.sub("", said), unused))


def main():
    texts = {}
    for page in ["README.md", *sorted(glob.glob("docs/*.md"))]:
        with open(page, encoding="utf-8") as it:
            texts[page] = it.read()
    found = UNUSED.search(texts[RULES])
    unused = re.findall(r"\*(\w+)\*", found[1]) if found else []
    faults = [*wrong_in_all(texts), *wrong_man_pages(unused), *wrong_comments(unused), *wrong_versions()]
    if not unused:
        faults.append(f"{RULES} has no line 'Not used on these pages, nor in comments: *WORD*, ..'")
    for page, text in texts.items():
        wrong = [*wrong_links(page, text, texts), *wrong_quotes(text), *wrong_lines(page, text, unused)]
        faults += [f"{page}: {it}" for it in wrong]
    for it in faults:
        print(it)
    if not faults:
        links, quotes = (sum(len(it.findall(text)) for text in texts.values()) for it in (LINK, QUOTE))
        words = sum(len(words_of(text)) for text in texts.values())
        print(f"pages: {len(texts)} pages with {words} words, {links} links and {quotes} quotes")
    return 1 if faults else 0
