"""Checks the page of tools/book.py: that each link leads to one place, that each definition that the contracts need is
there, and that premises are what is before an arrow, in texts whose premises were marked by hand.
"""
import html.parser
import sys

from places import TOP

sys.path.append(f"{TOP}/tools")
import book  # noqa: E402
import closure  # noqa: E402

# texts in which [[ and ]] are around the premises
MARKED = [
    "Shows at put = (x : ℕ) → [[IsTrue (has_block at.heap.table x)]] → bytes_shown at x ≡ put x",
    "  pub full : OfNext acts (λ done. FullWhereItMay s from.heap done.act)",
    "LastPut = ℕ → List ℕ",
    "A x = {S : Type 0} (y : ℕ) → [[P x]] → [[x ≡ y ∷ []]]\n    → (z : ℕ) × Q z",
    "B x = (let start = f x in let honest = g x in [[R start]] → T honest)",
    "C = (x : ℕ) → ([[P x]] → Q x) × R x",
    "D x = [[(y : ℕ) × P x y]] → Q x",
    "E = F (λ x. [[P x]] → Q x)",
    "ensures quiet { [[only_reads asked.entry ≡ true]] → ReadsAsked asked.entry acts.old.events }",
]
NEEDED = [
    "script_run.Headline.RunShows",
    "toolbox.Tools.Headline",
    "zone_laws.Headline.Promised",
    "zone_laws.LastPut.LastPut",
]


class Places(html.parser.HTMLParser):
    """The places of a page, and where its links lead."""

    def __init__(self, text):
        super().__init__()
        self.places, self.links, self.tags = [], set(), set()
        self.feed(text)

    def handle_starttag(self, tag, attrs):
        self.tags.add(tag)
        for name, value in attrs:
            if name == "id":
                self.places.append(value)
            elif name == "href":
                self.links.add(value)


def marked(text):
    """A text with its premises marked."""
    for start, end in sorted(book.premises(text), reverse=True):
        text = f"{text[:start]}[[{text[start:end]}]]{text[end:]}"
    return text


def main():
    faults = [
        f"the premises of {marked(it)!r} are {it!r}"
        for it in MARKED
        if marked(it.replace("[[", "").replace("]]", "")) != it
    ]
    made = book.Book()
    page = Places(made.page())
    faults += [f"{it} leads nowhere" for it in sorted(page.links) if it[:1] != "#" or it[1:] not in page.places]
    faults += [f"{it} is there twice" for it in sorted(set(page.places)) if page.places.count(it) > 1]
    faults += [f"{it} isn't there" for it in NEEDED if it not in page.places]
    faults += ["the page has a script"] * ("script" in page.tags)
    seen, _ = closure.closure(made.sources, list(made.clauses.values()))
    lacking = [it for it in seen if made.target(it) not in page.places]
    faults += [f"{it.module}.{it.name} isn't there" for it in lacking]
    for it in faults:
        print(f"book: {it}")
    if not faults:
        count = f"{len(made.pieces)} definitions, {len(made.types)} types of the code"
        print(f"book: {count}, {len(page.links)} places linked")
    return 1 if faults else 0
