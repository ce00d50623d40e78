"""Checks the page that resfork writes of files, as a browser's parser finds it.

Python's own parser of HTML reads the page. Each resource has one article, in the order of the fork, with its title, its size, and its picture, its
sound, its text or its first bytes; a name or a text that looks like tags adds none. Sounds are decoded by Python's own modules, and compared with the
samples that they were made of. The page asks for nothing: its style and its script are those whose digests its policy names.
"""
import base64
import hashlib
import html.parser
import os
import re
import tempfile

from checks.fork_questions import Difference
from checks.forks import compare, run
from checks.shown import MAC, NOISE, PICTURES, PLAYED, SILENT, SOUNDS, TEXTS, fork_of, must, write
from model.fork import Row, quoted
from model.messages import MISSING, refusal
from model.shown import read_png
from model.sound import read_wav, standard

# the elements of a file on the page
ELEMENTS = set("section h2 p article h3 img audio pre details summary".split())
# names and texts that would be tags, references or the end of something
HOSTILE = [b"</article><script>alert(1)</script>", b"\" onload=\"alert(1)", b"' x='", b"&lt;b&gt;&amp;&#60;", b"<!--", b"]]>", b"</pre><img src=x>", b"&", b"<"]
FRONT = 1024
# a WAV file of more bytes isn't on the page, and its samples come after so many
PLAYED_BYTES, WAV_FRONT = 4_194_304, 44


class Page(html.parser.HTMLParser):
    """What a browser's parser finds: elements, and articles with their titles, pictures, sounds and texts."""

    def __init__(self, text):
        super().__init__(convert_charrefs=True)
        self.articles, self.files, self.elements, self.open, self.raw = [], [], set(), [], {}
        self.feed(text)
        self.close()

    def handle_starttag(self, tag, attrs):
        if "main" in self.open:
            self.elements.add(tag)
        if tag == "section":
            self.files.append({"h2": "", "p": ""})
        if tag == "article":
            self.articles.append({"file": len(self.files) - 1, "h3": "", "p": "", "pre": "", "summary": ""})
        if tag == "audio":
            self.articles[-1]["player"] = attrs
        if tag == "img":
            self.articles[-1]["img"] = dict(attrs)
        elif tag not in ("meta", "input"):
            self.open.append(tag)

    def handle_endtag(self, tag):
        must(self.open and self.open.pop() == tag, f"an element {tag} ends that wasn't begun last")

    def handle_data(self, data):
        if not self.open:
            return
        if "article" in self.open:
            self.articles[-1][self.open[-1]] = self.articles[-1].get(self.open[-1], "") + data
        elif "section" in self.open:
            self.files[-1][self.open[-1]] += data
        else:
            self.raw[self.open[-1]] = self.raw.get(self.open[-1], "") + data


def page_of(program, words):
    """The page that a command line writes to the standard output."""
    status, page, told = run(program, ["page", *words])
    must((status, told) == (0, ""), f"page {words}: status {status}, {told}")
    return page.decode(), Page(page.decode())


def title(row):
    name = "" if row.name is None else " " + quoted('"', row.name)
    return f"{quoted(chr(39), row.kind)} {row.ident}{name}"


def digest(text):
    return base64.b64encode(hashlib.sha256(text.encode()).digest()).decode()


def try_policy(text, page):
    """Nothing but the page's own style, script, pictures and sounds counts."""
    policy = re.search(r'http-equiv="Content-Security-Policy" content="([^"]*)"', text)
    own = f"style-src 'sha256-{digest(page.raw['style'])}'; script-src 'sha256-{digest(page.raw['script'])}'"
    wanted = f"default-src 'none'; img-src data:; media-src data:; {own}"
    must(policy and policy.group(1) == wanted, "the policy isn't that of the page's own style and script")
    must(not re.search(r"https?:|url\(|@import|fetch\(|innerHTML", text), "the page leads elsewhere")


def try_sound(found, row, sound):
    """An article's sound: its player has the article's title, and plays these samples."""
    must("player" in found and not {"img", "audio"} & found.keys() and found["pre"] == "", f"{title(row)} is no sound: {found}")
    source = found["player"][-1][1]
    must(found["player"] == [("controls", ""), ("aria-label", title(row)), ("src", source)], f"{title(row)}: its player has {found['player'][:-1]}")
    kind, _, data = source.partition(",")
    must(kind == "data:audio/wav;base64" and read_wav(base64.b64decode(data, validate=True)) == sound, f"{title(row)}: the sound is another")


def try_article(found, row, body):
    """An article's title and size, and its picture (rows of dots), its sound (a tuple) or its text."""
    must(found["h3"] == title(row), f"the title {found['h3']!r} isn't {title(row)!r}")
    must(found["p"].startswith(f"{len(row.data)} bytes"), f"{title(row)}: {found['p']!r}")
    if isinstance(body, str):
        must(not {"img", "player"} & found.keys() and found["pre"] == body, f"{title(row)} is shown as {found['pre']!r}, not {body!r}")
    elif isinstance(body, tuple):
        try_sound(found, row, body)
    else:
        kind, _, data = found["img"]["src"].partition(",")
        must(kind == "data:image/png;base64" and found["img"]["alt"] == title(row), f"{title(row)}: no picture with its title")
        must(read_png(base64.b64decode(data, validate=True)) == body, f"{title(row)}: the picture is another")


def try_rows(program, path, rows, bodies):
    write(path, fork_of(rows))
    text, page = page_of(program, [path])
    must(len(page.articles) == len(rows), f"{len(page.articles)} articles of {len(rows)} resources")
    for found, row, body in zip(page.articles, rows, bodies):
        try_article(found, row, body)
    must(page.elements <= ELEMENTS, f"elements {page.elements - ELEMENTS} are on the page")
    return text, page


def try_digits(program, path):
    """Of what isn't known better the first bytes are shown, and how many."""
    for length in (0, 5, FRONT, FRONT + 1, 5000):
        row = Row(b"CODE", 1, None, 0, bytes(length))
        write(path, fork_of([row]))
        _, page = page_of(program, [path])
        shown = min(length, FRONT)
        must(page.articles[0]["summary"] == f"the first {shown} bytes", f"{length} bytes: {page.articles[0]['summary']!r}")
        must(page.articles[0]["pre"].count("\n") == -(-shown // 16), f"{length} bytes: other lines")
    data = next(data for kind, data, _ in PICTURES if kind == b"PICT")
    write(path, fork_of([Row(b"PICT", 128, None, 0, data)]))
    _, page = page_of(program, [path])
    must(page.articles[0]["summary"] == f"the first {min(len(data), FRONT)} bytes", "a picture in QuickDraw's language is drawn on a page")


def try_sounds(program, path):
    """Each sound has a player; what has no samples, or too many, has its first bytes."""
    try_rows(program, path, [Row(b"snd ", number, b"Beep", 0, data) for number, (data, _) in enumerate(SOUNDS)], [sound for _, sound in SOUNDS])
    most = NOISE * (PLAYED_BYTES // len(NOISE) + 1)
    most = most[: PLAYED_BYTES - WAV_FRONT]
    try_rows(program, path, [Row(b"snd ", 1, None, 0, PLAYED + standard(MAC, most))], [(22255, 1, 8, list(most))])
    rows = [Row(b"snd ", number, None, 0, data) for number, (data, _) in enumerate(SILENT)]
    rows += [Row(b"snd ", -1, None, 0, PLAYED + standard(MAC, most + b"\0")), Row(b"Snd ", -2, None, 0, SOUNDS[0][0])]
    write(path, fork_of(rows))
    _, page = page_of(program, [path])
    for found, row in zip(page.articles, rows, strict=True):
        must("player" not in found and found["summary"] == f"the first {min(len(row.data), FRONT)} bytes", f"{title(row)}: {found}")
        must(found["h3"] == title(row), f"the title {found['h3']!r} isn't {title(row)!r}")


def try_files(program, path, out):
    """Several files, one that isn't there, and the file that is written."""
    write(path, fork_of([Row(b"STR ", 1, b"a", 0, b"\1x")]))
    other = path + " <b>&"
    write(other, fork_of([]))
    text, page = page_of(program, [path, other])
    must([file["h2"] for file in page.files] == [path, other], f"files {page.files}")
    must([it["file"] for it in page.articles] == [0], "an article is with another file")
    compare("page -o", run(program, ["page", path, other, "-o", out]), 0, b"", "")
    with open(out, encoding="utf-8") as file:
        must(file.read() == text, "-o writes another page")
    status, words = refusal("NO_SUCH_FILE", "unreadable", MISSING)
    got = run(program, ["page", "NO_SUCH_FILE", path])
    must(got[0] == status and words in got[2] and len(Page(got[1].decode()).articles) == 1, f"a file that isn't there: {got[0]}, {got[2]}")
    must(run(program, ["page", path, "-o", os.path.join(out, "no folder")])[0] == 4, "a page that can't be written is passed over")


def main(resfork):
    with tempfile.TemporaryDirectory() as top:
        path, out = os.path.join(top, "fork"), os.path.join(top, "out.html")
        try:
            drawn = [it for it in PICTURES if it[0] != b"PICT"]
            pictures = [Row(kind, number, None, 0, data) for number, (kind, data, _) in enumerate(drawn)]
            order = sorted(range(len(pictures)), key=lambda at: [row.kind for row in pictures].index(pictures[at].kind))
            text, page = try_rows(resfork, path, [pictures[at] for at in order], [drawn[at][2] for at in order])
            try_policy(text, page)
            texts = [each for each in TEXTS if each[0] != b"snd "]
            for kind, data, body in texts:
                try_rows(resfork, path, [Row(kind, -3, b"a", 0, data)], [body])
            for word in HOSTILE:
                sound, samples = SOUNDS[0]
                rows = [Row(b"STR ", 1, word, 0, bytes([len(word)]) + word), Row(b"<'&>", 2, word, 0, word), Row(b"snd ", 3, word, 0, sound)]
                write(path, fork_of(rows))
                _, page = page_of(resfork, [path])
                must([it["h3"] for it in page.articles] == [title(row) for row in rows], f"{word}: titles {page.articles}")
                must(page.articles[0]["pre"] == word.decode() + "\n" and page.elements <= ELEMENTS, f"{word} became something else")
                try_sound(page.articles[2], rows[2], samples)
            try_sounds(resfork, path)
            try_digits(resfork, path)
            try_files(resfork, path, out)
        except (Difference, AssertionError) as difference:
            print(f"a page of files: {difference!r}")
            return 1
    print(f"a page of files: {len(drawn)} pictures, {len(SOUNDS)} sounds, {len(texts)} texts and {len(HOSTILE)} hostile names as they should be")
    return 0
