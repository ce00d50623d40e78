"""Checks tools/play.py, which runs scripts on the models by Python alone: that it prints what examples/ have, reads
texts as tests/cases/lines.txt and wrong.txt say, and prints what runs.txt says; and that no text of a run can add
anything to the page that it writes.
"""
import base64
import contextlib
import glob
import hashlib
import html.parser
import io
import json
import os
import re
import sys
import tempfile

from checks import runs, script_page, words
from model.script import LACKING, OPERANDS, Fault, Run, read_script
from model.toolbox import Toolbox
from places import TOP

sys.path.append(f"{TOP}/tools")
import play  # noqa: E402

# what a text would need to begin an element, an attribute or a script
HOSTILE = [
    "</script><script>alert(1)</script>",
    '"><img src=x onerror=alert(1)>',
    "<!--",
    "]]>",
    "&lt;b&gt;",
    "'-alert(1)-'",
    "$DATA ${DATA} $$",
    "\\u003c",
]
SIZES = ("--zone", "--limit", "--base", "--mode")


def ran(*given):
    """The exit status of the tool with these words, and what it prints and says."""
    printed, said = io.StringIO(), io.StringIO()
    with contextlib.redirect_stdout(printed), contextlib.redirect_stderr(said):
        try:
            status = play.main(list(given))
        except SystemExit as end:
            status = end.code
    return status, printed.getvalue(), said.getvalue()


def wrong_examples():
    """Examples that come out otherwise, or whose files are written."""
    for script in sorted(glob.glob("examples/*.script")):
        with open(script, encoding="utf-8") as it:
            status = int((re.findall(r"^# exit status (\d+)$", it.read(), re.M) or ["0"])[0])
        forks = {it: os.stat(it).st_mtime_ns for it in glob.glob("examples/*.rsrc")}
        found = ran(script)
        with open(script.replace(".script", ".output"), encoding="ascii") as it:
            if found[:2] != (status, it.read()):
                yield f"{script} ends with {found}"
        if forks != {it: os.stat(it).st_mtime_ns for it in glob.glob("examples/*.rsrc")}:
            yield f"{script} changes a file of examples/"


def fault_of(text):
    """The first line of a text that is none, and what is wrong with it, or None of a script."""
    try:
        read_script(text)
    except Fault as fault:
        return fault.line, fault.wrong
    return None


def wrong_texts():
    """Rows of the tables of texts that are read otherwise."""
    for text, line in runs.read("lines.txt", runs.texts):
        found = fault_of(text)
        if (found and found[0]) != line:
            yield f"{text[:200]!r} is read as {found}, and not as {line}"
    for text, line, wrong in runs.read("wrong.txt", runs.wrongs):
        if fault_of(text) != (int(line), wrong):
            yield f"{text[:200]!r} is read as {fault_of(text)}, and not as {line}: {wrong}"


def wrong_runs():
    """Rows of the tables of runs in zones of at most 1 MB that come out otherwise."""
    for options, script, wanted in runs.read("runs.txt", runs.rows) + runs.read("memory_refusals.txt", runs.refusals):
        if "--large" in options:
            continue
        given = dict(zip(options[::2], map(int, options[1::2])))
        zone, limit, base, mode = (given.get(it) for it in SIZES)
        run = Run(Toolbox(mode or 24, zone or 4096, limit or zone or 4096, base or 0x100000, [b""]))
        fault = fault_of(script.encode("latin-1"))
        run.start()
        printed = (
            f"{runs.FAULT}{fault[0]}\n"
            if fault
            else "".join(f"{it.reply}\n" for it in run.calls(read_script(script.encode("latin-1"))))
        )
        if not runs.are_wanted(printed, wanted):
            yield f"{script!r} {' '.join(options)} printed {printed!r}"


class Markup(html.parser.HTMLParser):
    """The elements and attributes of a page, the texts of some elements, and the policy."""

    def __init__(self, text):
        super().__init__()
        self.tags, self.texts, self.policy, self.inside = [], {}, "", ""
        self.feed(text)

    def handle_starttag(self, tag, attrs):
        self.tags.append((tag, sorted(it for it in attrs if it[0] != "content")))
        self.inside = tag + str(dict(attrs).get("id", ""))
        if dict(attrs).get("http-equiv"):
            self.policy = dict(attrs)["content"]

    def handle_endtag(self, tag):
        self.inside = ""

    def handle_data(self, data):
        self.texts[self.inside] = self.texts.get(self.inside, "") + data


def made_page(folder, name, text):
    """The page of a script of this name."""
    path, out = os.path.join(folder, name), os.path.join(folder, "page.html")
    with open(path, "w", encoding="utf-8") as it:
        it.write(text)
    status, _, said = ran(path, "--html", out)
    if status:
        raise AssertionError(f"no page of {name} is made: {said}")
    with open(out, encoding="utf-8") as it:
        return Markup(it.read())


def wrong_pages(folder):
    """What is wrong with pages of hostile texts."""
    plain = made_page(folder, "plain", "# macheap isn't asked for anything here\nh = NewHandle 3\n")
    for hostile in HOSTILE:
        name = hostile.replace("/", "\u2215") + hostile.replace("/", "")
        quoted = "".join(f"{ord(it):02X}" for it in hostile)
        text = f'# {hostile}\nh = NewHandle {len(hostile)}\nPoke h 0 $"{quoted}"\nPeek h 0 {len(hostile)}\n'
        text += f'AddResource h $"3C2F7363" 1 $"{quoted}"\nPeek h 0 99 # {hostile}\n'
        page = made_page(folder, name, text)
        if page.tags != plain.tags or page.texts["script"] != plain.texts["script"] or page.policy != plain.policy:
            yield f"{hostile!r} adds something to the page"
        if json.loads(page.texts["scriptdata"])["lines"] != text.split("\n") or page.texts["h1"].strip() != name:
            yield f"{hostile!r} isn't in the page as it is in the script"
    for kind, element in (("style", "style"), ("script", "script")):
        digest = base64.b64encode(hashlib.sha256(plain.texts[element].encode()).digest()).decode()
        if f"{kind}-src 'sha256-{digest}'" not in plain.policy or "default-src 'none'" not in plain.policy:
            yield f"the policy doesn't allow the {kind} of the page, or allows more: {plain.policy}"


def wrong_refusals(folder):
    """Words, and pages, that have to be refused and aren't."""
    script, many = os.path.join(folder, "script"), os.path.join(folder, "many")
    for path, text in ((script, "ZoneMap\n"), (many, "NewHandle 0\n" * 60 + "MemError\n" * 4096)):
        with open(path, "w", encoding="utf-8") as it:
            it.write(text)
    for given, status, said in [
        *((text.replace("@", folder).split(), 2, fault) for text, fault in words.NO_ZONES if "@" not in text),
        *((text.split(), 2, "--mode is 24 or 32") for text, _ in words.NO_MODES if "@" not in text),
        (["--html", script], 1, "is there, and is no page"),
        (["--html", os.path.join(folder, "none", "page")], 1, "can't be written"),
        (["--fork", folder], 1, "no regular file"),
    ]:
        found = ran(script, *given)
        if found[0] != status or said not in found[2]:
            yield f"{' '.join(given)} ends with {found}"
    status, printed, said = ran(many, "--html", os.path.join(folder, "large"))
    if status != 1 or "make two scripts" not in said or printed.count("\n") != 60 + 4096:
        yield f"a page of many calls ends with {status}, and {said}"
    with open(script, encoding="utf-8") as it:
        if it.read() != "ZoneMap\n":
            yield "a script is written over"


def main():
    faults = [f"the model lacks {it}" for it in [*LACKING, *sorted(script_page.table() - OPERANDS.keys())]]
    with tempfile.TemporaryDirectory() as folder:
        faults += [*wrong_examples(), *wrong_texts(), *wrong_runs(), *wrong_pages(folder), *wrong_refusals(folder)]
    for it in faults:
        print(f"played: {it}")
    if not faults:
        examples = len(glob.glob("examples/*.script"))
        print(f"played: {examples} examples by Python alone, and {len(HOSTILE)} hostile texts in pages")
    return 1 if faults else 0
