#!/usr/bin/env python3
"""Prints the definitions, laws and functions of the crates that nothing reaches:
unused.py [--count] [CRATE..]

A declaration is a name at the start of a line, or of a line of a module's body, with all that
belongs to it: its signature, its clauses, the fields of a record, the constructors of a data type.
It is used by its name as a word outside of it, in its own file or in a file that imports it, where
that word isn't in a comment or an import, and is in what is used itself. Uses begin at the .rt
files, at the answers of goals (what is `pub` in Answers, Proof and Invariants.antt), and at worked
examples. `--count` prints how many there are of each crate.

A function of a .rt file is used by its name as a word in any .rt file, but for its own head.
Programs, tests, what C calls, and what a trait calls need no such word.

It knows words and not scopes, so a bound variable of the same name counts as a use: what it prints
is unused, but more may be.
"""

import re
import sys
from collections import Counter
from pathlib import Path

TOP = Path(__file__).resolve().parent.parent / "crates"
ANSWERS = {"Answers", "Proof", "Invariants"}
# worked examples, which are computed to check the definitions
EXAMPLES = {
    "zone_laws.proofs.FirstStep",
    "zone_laws.proofs.Rows",
    "fork_bytes.proofs.Vectors",
    "script_lang.proofs.Replies",
    "res_update.proofs.Worked",
    "res_table.proofs.SameNames",
    "script_lang.proofs.Rows",
}
# what may stay though nothing reaches it, and why
STAYS = {
    "crates/fork_bytes/specs/Fork.antt: HasParts": "the first of what macheap's limits say, beside the others",
    "crates/held_zone/proofs/SaveStates.antt: restored_same": "a theorem: what is made of a zone's image is that zone again",
    "crates/held_zone/proofs/SaveStates.antt: attached_wakes": "a theorem: a zone that was attached wakes in the same bytes as it is",
    "crates/linked_zone/proofs/OneZone.antt: zone_again": "a theorem: what is made of a sound zone's bytes is that zone again",
    "crates/linked_zone/proofs/Structured.antt: own-structure": "beside own-shown: what the bytes that a zone is in say of it",
    "crates/linked_zone/proofs/Structured.antt: own-flags": "beside own-shown: what the bytes that a zone is in say of it",
    "crates/zone_records/proofs/FaultFronts.antt: front-long": "beside whole-long: how long such bytes are",
    "crates/zone_records/proofs/FreeWalk.antt: walked-none": "beside the other steps of the walk: its start",
    "crates/zone_records/proofs/OwnBytes.antt: part-of": "beside rest-of: the part before that rest",
    "crates/fork_saves/src/laws.rt: save_laws": "a theorem, which nothing calls",
    "crates/fork_page/src/laws.rt: page_law": "a theorem, which nothing calls",
    "crates/html_text/src/laws.rt: text_law": "a theorem, which nothing calls",
    "crates/html_text/src/laws.rt: tag_law": "a theorem, which nothing calls",
    "crates/res_types/specs/Bits.antt: o": "an operand: the operator is defined there",
    "crates/res_types/src/texts.rt: with_text": "for a program: a text is set",
    "crates/script_tests/src/files.rt: run_over_files": "a theorem, which nothing calls",
    "crates/script_tests/src/files.rt: run_over_journalled_files": "a theorem, which nothing calls",
    "crates/script_tests/src/files.rt: files_can_be_honest": "a theorem, which nothing calls",
}

NAMES, AS = r"(?:\.\{(.*?)\})?", r"(?:\s+as\s+(\S+?))?"
IMPORT = re.compile(r"\buse\s+(?:Rattle\.)?([\w.]+?)" + NAMES + AS + r"\s*(?:;|$)", re.M | re.S)
USING = re.compile(r"(\w+)::((?:proofs|specs)(?:::\w+)*)::(\w+)")
DECLARED = re.compile(r"((?:(?:pub|abbrev|unfoldable|data|record|ruleset)\s+)*)(\S+)")
CONSTRUCTOR = re.compile(r"(\S+) :")
COMMENT = re.compile(r"(^|\s)--(\s.*|$)")
NOTE = re.compile(r"//.*")
FUNCTION = re.compile(r"^( *)((?:pub(?:\(\w+\))? |const |unsafe |final )*)fn (\w+)", re.M)
OF_TRAIT = re.compile(r"(?:unsafe )?(?:impl\b.* for |(?:pub(?:\(\w+\))? )?trait )")


def words(text):
    """The words of a text, and the parts of those with dots."""
    for mark in "(){}[],;:":
        text = text.replace(mark, " ")
    return {*text.split(), *text.replace(".", " ").split()}


def functions(code):
    """The functions of a .rt file that somebody has to call by name, without comments."""
    lines, owner = code.split("\n"), ""
    for number, line in enumerate(lines):
        if line and not line[0].isspace() and line[0] not in "})>{":
            owner = line
        elif owner.startswith(("impl", "unsafe impl")) and "{" not in owner:
            owner += " " + line.strip()
        it = FUNCTION.match(line)
        if not it or it[3] == "main" or it[1] and OF_TRAIT.match(owner):
            continue
        above = number
        while above and lines[above - 1].strip().startswith("#["):
            above -= 1
        if not any("test" in mark or "no_mangle" in mark for mark in lines[above:number]):
            yield it[3]


class File:
    """A file: what it imports; of what it declares the text, which of it is `pub`, and the names by
    which it is used; and of a .rt file all words, and the functions."""

    def __init__(self, path):
        self.path, self.module = path, ".".join(path.relative_to(TOP).with_suffix("").parts)
        self.crate, self.answers = self.module.split(".")[0], path.stem in ANSWERS
        self.imported, self.modules, self.passed = {}, {}, {}
        self.declared, self.public, self.called = {}, set(), {}
        self.words, self.functions, self.uses = set(), [], Counter()
        text = path.read_text()
        if path.suffix == ".rt":
            code = NOTE.sub("", text)
            self.imports(code)
            for crate, proofs, name in USING.findall(code):
                module = [self.crate if crate == "crate" else crate, *proofs.split("::")]
                self.imported.setdefault(name, set()).add((".".join(module), name))
            self.words = words(IMPORT.sub("", code))
            self.functions = list(functions(code))
            self.uses = Counter(re.findall(r"\w+", code))
            self.uses.subtract(it[3] for it in FUNCTION.finditer(code))
        else:
            self.read(text.split("\n"))
        self.operators = [name for name in self.imported if "◌" in name]
        self.own_operators = [name for name in self.declared if "◌" in name]

    def imports(self, code):
        for path, names, other in IMPORT.findall(code):
            if not names:
                self.modules[other or path.split(".")[-1]] = path
            for item in re.split(r"\s*,\s*", names.strip()):
                was, _, now = item.partition(" as ")
                self.imported.setdefault(now or was, set()).add((path, was))
                if code.startswith("pub use "):
                    self.passed[was] = path

    def read(self, lines):
        heads = []  # of the modules round a line: how far their bodies are indented, and their text
        name, is_data = None, False  # of the declaration that lines further in belong to
        for line in lines:
            code = (COMMENT.sub("", line) if "--" in line else line).rstrip()
            indent = len(code) - len(code.lstrip())
            code = code.strip()
            if not code:
                continue
            while heads and indent < heads[-1][0]:
                heads.pop()
            # a line that begins with a parenthesis has an argument before its operator
            if indent > (heads[-1][0] if heads else 0) or code[0] in "])}(":
                constructor = CONSTRUCTOR.match(code)
                if is_data and constructor:
                    self.called[constructor[1]] = name
            elif code.startswith(("use ", "pub use ")):
                self.imports(code)
                name = None
            elif code.startswith("module "):
                heads.append((indent + 2, code))
                name = None
            elif code.startswith(("mod ", "pub mod ", "infix", "open ")):
                name = None
            elif not code.startswith("unfolding "):
                marks, name = DECLARED.match(code).groups()
                is_data = "data" in marks.split()
                if "pub" in marks.split():
                    self.public.add(name)
                self.called[name] = name
                self.declared.setdefault(name, []).extend(head[1] for head in heads)
            if name:
                self.declared[name].append(code)


def unreached(files, stays):
    """The files and names of what is declared, isn't used, and isn't used by what stays."""
    live, waiting = set(), []

    def use(module, name):
        while module in files and name in files[module].passed:
            module = files[module].passed[name]
        if module in files:
            file = files[module]
            # what is between its operands is used by other words than its name
            for one in (file.called.get(name), *file.own_operators):
                if one and (module, one) not in live:
                    live.add((module, one))
                    waiting.append((file, words(" ".join(file.declared[one]))))

    def follow(file, said):
        for name in said & file.called.keys():
            use(file.module, name)
        for name in (*(said & file.imported.keys()), *file.operators):
            for module, original in file.imported[name]:
                use(module, original)
        for word in said if file.modules else ():
            first, dot, rest = word.partition(".")
            if dot and first in file.modules:
                use(file.modules[first], rest.split(".")[0])

    for file in files.values():
        follow(file, file.words)
        for name in file.declared:
            if file.module in EXAMPLES or file.answers and name in file.public or Unused(file, name).line in stays:
                use(file.module, name)
    while waiting:
        follow(*waiting.pop())
    all_declared = [(file, name) for file in files.values() for name in file.declared]
    return [(file, name) for file, name in all_declared if (file.module, name) not in live]


def uncalled(files):
    """The files and names of the functions whose names are nowhere else."""
    uses = Counter()
    for file in files:
        uses.update(file.uses)
    return [(file, name) for file in files for name in file.functions if not uses[name]]


class Unused:
    """A name that nothing reaches, and where it is."""

    def __init__(self, file, name):
        self.crate = file.crate
        self.line = f"crates/{file.path.relative_to(TOP)}: {name}"


def unused():
    """What nothing reaches, and may not stay; and what may stay, but is reached or isn't there."""
    paths = [path for part in ("src", "specs", "proofs") for path in TOP.glob(f"*/{part}/**/*")]
    read = [File(path) for path in sorted(paths) if path.suffix in (".rt", ".antt")]
    files = {file.module: file for file in read}
    lines = [Unused(*each) for each in unreached(files, ()) + uncalled(read)]
    beside = [Unused(*each) for each in unreached(files, STAYS) + uncalled(read)]
    return [it for it in beside if it.line not in STAYS], STAYS.keys() - {it.line for it in lines}


def main():
    wanted = [word for word in sys.argv[1:] if word != "--count"]
    found = [it for it in unused()[0] if not wanted or it.crate in wanted]
    if "--count" in sys.argv:
        for crate, count in Counter(it.crate for it in found).items():
            print(f"{count:5} {crate}")
        print(f"{len(found):5} in all")
    else:
        for it in found:
            print(it.line)


if __name__ == "__main__":
    main()
