"""A script, by the rules of docs/SCRIPT.md: its lines from its bytes, or its first fault and what is wrong there; and a
run of it on the model of a zone and its files. It shares nothing with the program.
"""
from __future__ import annotations

import re
from typing import Iterator, NamedTuple

from model.toolbox import ALL_CALLS, Toolbox
from model.zone import FLAG_CALLS, Refused

MOST_BYTES, MOST_LINES, MOST_TOKENS, MOST_CALLS, MOST_NUMBER = 1048576, 65536, 26, 8, 0xFFFFFFFF
# the calls by their operands: n a number, b bytes, i an id, t a type, in brackets what may be left out. A line may
# assign the result of those with a =
CALLS_BY_OPERANDS = {
    "": "NewEmptyHandle= MaxMem= PurgeSpace= MaxBlock= FreeMem= ZoneMap= CountTypes= CurResFile= MoreMasters "
    "MaxApplZone MemError ResError",
    "n": "NewHandle= NewPtr= GetHandleSize= GetPtrSize= HGetState= Deref= RecoverHandle= HandToHand= CompactMem= "
    "GetResAttrs= SizeResource= HomeResFile= OpenResFile= DisposeHandle DisposePtr EmptyHandle HLock HUnlock HPurge "
    "HNoPurge HSetRBit HClrRBit MoveHHi HLockHi PurgeMem ReserveMem Lend Return LoadResource ReleaseResource "
    "DetachResource ChangedResource RemoveResource WriteResource GetResInfo GetIndType SetResLoad UseResFile",
    "nn": "PtrToHand= SetHandleSize SetPtrSize HSetState ReallocateHandle HandAndHand SetResAttrs",
    "nnn": "PtrToXHand PtrAndHand Peek LentPeek",
    "nnnnn": "BlockMove",
    "nnb": "Poke LentPoke",
    "ti": "GetResource= Get1Resource=",
    "tn": "GetIndResource=",
    "t": "UniqueID= CountResources=",
    "nti[b]": "AddResource",
    "[n]": "UpdateResFile CloseResFile",
}
GIVING = {name[:-1] for names in CALLS_BY_OPERANDS.values() for name in names.split() if name.endswith("=")}
OPERANDS = {
    name.rstrip("="): re.findall(r"\[.\]|.", form)
    for form, names in CALLS_BY_OPERANDS.items()
    for name in names.split()
}
LACKING = sorted(OPERANDS.keys() - ALL_CALLS.keys() - FLAG_CALLS.keys() - {"MemError", "ResError"})
RELEASING = ("DisposeHandle", "DisposePtr", "EmptyHandle")
KINDS = {
    "n": "a number up to 4294967295, or a name",
    "[n]": "a number up to 4294967295, a name, or left out",
    "b": 'bytes: "text" or $"4869"',
    "[b]": 'bytes: "text" or $"4869", or left out',
    "i": "a number from -32768 to 32767, or a name",
    "t": "a type of four bytes: 'ICN#' or $\"49434E23\"",
}
TOKEN = re.compile(
    rb"""[ \t]*(?:(?P<mark>[=;])|(?:(?P<hex>\$"[^"]*")|(?P<double>"[^"]*")|(?P<single>'[^']*')"""
    rb"""|(?P<word>[^ \t=;#'"]+))(?=[ \t=;#]|\Z))"""
)
REST = re.compile(rb"[ \t]*(?:#.*)?", re.DOTALL)
NAME = re.compile(rb"[A-Za-z][A-Za-z0-9_]{0,30}")
PRINTABLE = re.compile(rb"[ -~]*")
# a line up to its comment, without quotes that are closed
CLOSED = re.compile(rb"""(?:"[^"]*"|'[^']*'|[^#"'])*""", re.DOTALL)


class Fault(Exception):
    """The first line that is none, and what is wrong with it."""

    def __init__(self, line: int, wrong: str):
        super().__init__(line, wrong)
        self.line, self.wrong = line, wrong


class Wrong(Exception):
    """What is wrong with a line."""


class Token(NamedTuple):
    """A part of a line: `=` or `;`, a word, or what is in quotes."""

    kind: str
    text: bytes


class Name(bytes):
    """An operand that is a variable."""


class Call(NamedTuple):
    """A line that makes a call."""

    number: int
    assigned: bytes | None
    name: str
    operands: list


class Answer(NamedTuple):
    """A line that queues an answer of the grow-zone procedure: its value, and its calls with their operands."""

    number: int
    value: int | Name
    calls: list


def shown_word(word: bytes) -> str:
    """A word as messages have it: its first 31 bytes, and `?` for those that are no ASCII letters, digits or marks."""
    return "".join(chr(it) if 0x21 <= it <= 0x7E else "?" for it in word[:31].split(b"\0")[0])


def tokens_of(line: bytes) -> list[Token]:
    """The tokens of a line."""
    found, at = [], 0
    while len(found) < MOST_TOKENS and (it := TOKEN.match(line, at)):
        text = it[it.lastgroup]
        found.append(
            Token(
                it.lastgroup,
                text[
                    {"hex": 2, "double": 1, "single": 1}.get(it.lastgroup, 0) : len(text)
                    - (it.lastgroup in ("hex", "double", "single"))
                ],
            )
        )
        at = it.end()
    if REST.fullmatch(line, at):
        return found
    if line[CLOSED.match(line).end() :][:1] in (b'"', b"'"):
        raise Wrong("a quote is open; close it in the same line")
    raise Wrong(
        "the line has more words than any call takes"
        if len(found) == MOST_TOKENS
        else "a blank is missing before or after a quote"
    )


# operands: each of these functions gives the value of a token, or None if it is none of its kind


def number_of(token: Token, names: set) -> int | Name | None:
    if token.kind != "word":
        return None
    if token.text in names:
        return Name(token.text)
    digits = re.fullmatch(rb"([0-9]+)|\$([0-9A-Fa-f]{1,8})", token.text)
    value = (
        int(digits[1] or digits[2], 10 if digits[1] else 16)
        if digits and len(token.text.lstrip(b"0")) < 20
        else MOST_NUMBER + 1
    )
    return value if value <= MOST_NUMBER else None


def id_of(token: Token, names: set) -> int | Name | None:
    if token.kind != "word":
        return None
    if token.text in names:
        return Name(token.text)
    digits = re.fullmatch(rb"-?0*[0-9]{1,5}", token.text)
    return int(token.text) if digits and -32768 <= int(token.text) <= 32767 else None


def bytes_of(token: Token, _) -> bytes | None:
    if token.kind == "double":
        return token.text if PRINTABLE.fullmatch(token.text) else None
    if token.kind == "hex" and re.fullmatch(rb"(?:[0-9A-Fa-f]{2})*", token.text):
        return bytes.fromhex(token.text.decode())
    return None


def type_of(token: Token, names: set) -> bytes | None:
    kind = (
        token.text
        if token.kind == "single" and PRINTABLE.fullmatch(token.text)
        else bytes_of(token, names)
        if token.kind == "hex"
        else b""
    )
    return kind if kind is not None and len(kind) == 4 else None


READ = {"n": number_of, "b": bytes_of, "i": id_of, "t": type_of}


def unassigned(token: Token | None, names: set) -> bool:
    """Whether a token is a name that no line before assigns."""
    return (
        token is not None
        and token.kind == "word"
        and NAME.fullmatch(token.text) is not None
        and token.text not in names
    )


def operands_of(call: str, tokens: list[Token], names: set) -> list:
    """The operands of a call; one that is left out isn't there."""
    forms, values = OPERANDS[call], []
    for place, form in enumerate(forms):
        token = tokens[place] if place < len(tokens) else None
        if token is None and form.startswith("["):
            continue
        values.append(None if token is None else READ[form.strip("[]")](token, names))
        if values[-1] is None:
            if form.strip("[]") in "ni" and unassigned(token, names):
                raise Wrong(f"{shown_word(token.text)} is not assigned in a line before")
            raise Wrong(f"operand {place + 1} of {call} has to be {KINDS[form]}")
    if len(tokens) > len(forms):
        raise Wrong(f"{call} takes no more than {len(forms)} operand(s)")
    return values


def answer_of(tokens: list[Token], names: set) -> tuple | None:
    """The value and the calls of an answer, or None if the tokens are no such."""
    value = number_of(tokens[0], names) if tokens else None
    rest = tokens[1:]
    if value is None or (rest and len(rest) % 3 != 2) or len(rest) >= 3 * MOST_CALLS:
        return None
    calls = [(name.text.decode("latin-1"), number_of(operand, names)) for name, operand in zip(rest[::3], rest[1::3])]
    are_calls = all(name in RELEASING and operand is not None for name, operand in calls)
    return (value, calls) if are_calls and all(it == Token("mark", b";") for it in rest[2::3]) else None


def queued(number: int, tokens: list[Token], names: set) -> Answer:
    """The line that queues an answer, from the tokens after `gz`."""
    found = answer_of(tokens, names)
    if found:
        return Answer(number, *found)
    for token in [*tokens[:1], *tokens[2::3]]:
        if unassigned(token, names):
            raise Wrong(f"{shown_word(token.text)} is not assigned in a line before")
    raise Wrong(
        "gz takes a number or a name, and then up to 8 calls of DisposeHandle, DisposePtr or EmptyHandle, parted by `;`"
    )


def statement(number: int, tokens: list[Token], names: set) -> Call | Answer:
    """What a line says, where these names have been assigned."""
    assigned, rest = None, tokens
    if len(tokens) > 1 and tokens[0].kind == "word" and tokens[1] == Token("mark", b"="):
        assigned, rest = tokens[0].text, tokens[2:]
    if not rest or rest[0].kind != "word":
        raise Wrong("a line is a call, as `ZoneMap` or `h = NewHandle 100`, or begins with `gz`")
    if assigned is None and rest[0].text == b"gz":
        return queued(number, rest[1:], names)
    call = rest[0].text.decode("latin-1")
    if call not in OPERANDS:
        raise Wrong(f"unknown call {shown_word(rest[0].text)}")
    if assigned is not None and not NAME.fullmatch(assigned):
        raise Wrong(f"{shown_word(assigned)} is no name: a letter, and then up to 30 letters, digits and underscores")
    if assigned is not None and call not in GIVING:
        raise Wrong(f"{call} gives nothing to assign")
    return Call(number, assigned, call, operands_of(call, rest[1:], names))


def lines_of(text: bytes) -> list[bytes]:
    """The lines of a text, each without its end."""
    *ended, last = text.split(b"\n")
    return [it.removesuffix(b"\r") for it in ended] + ([last] if last else [])


def read_script(text: bytes) -> list[Call | Answer]:
    """The lines of a script that aren't empty, or the Fault that is first."""
    if len(text) > MOST_BYTES:
        raise Fault(0, "a script has at most 1048576 bytes; make two of it")
    found, names = [], set()
    for number, line in enumerate(lines_of(text), 1):
        if number > MOST_LINES:
            raise Fault(number, "a script has at most 65536 lines; make two of it")
        try:
            tokens = tokens_of(line)
            if tokens:
                found.append(statement(number, tokens, names))
        except Wrong as wrong:
            raise Fault(number, str(wrong)) from wrong
        if tokens and isinstance(found[-1], Call) and found[-1].assigned is not None:
            names.add(found[-1].assigned)
    return found


class Done(NamedTuple):
    """A call that was made: its line, its operands with values in place of names, and its reply as it is printed."""

    call: Call
    operands: list
    reply: str


class Run:
    """A run of a script's lines on a zone and its files."""

    def __init__(self, toolbox: Toolbox):
        self.toolbox, self.variables = toolbox, {}

    def value(self, operand):
        return self.variables[operand] if isinstance(operand, Name) else operand

    def start(self) -> str | None:
        """Opens the first file; the reply of line 0 if that is refused."""
        try:
            self.toolbox.open_res_file(1)
        except Refused as refused:
            return f"0 OpenResFile {refused.args[0]}"
        return None

    def made(self, line: Call) -> Done:
        """Makes a call, and gives its result to the name that the line assigns."""
        operands = [self.value(it) for it in line.operands]
        self.toolbox.happened = []
        said = self.toolbox.reply(line.name, operands)
        words = said.split("\n")[0].split(" ")
        if line.assigned is not None:
            first = words[0] if len(words) > 1 else "0"
            self.variables[line.assigned] = int(first[1:], 16) if first.startswith("$") else int(first)
        return Done(line, operands, f"{line.number} {line.name} {said}")

    def calls(self, lines: list[Call | Answer]) -> Iterator[Done]:
        """Runs the lines, and yields each call when it is made."""
        for line in lines:
            if isinstance(line, Answer):
                self.toolbox.answers.append(
                    ([(name, self.value(it)) for name, it in line.calls], self.value(line.value))
                )
            else:
                yield self.made(line)
