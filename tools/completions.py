#!/usr/bin/env python3
"""Writes what bash, zsh and fish need to complete the words of resfork and macheap: tools/completions.py FOLDER.

Commands and options are those of the tables in crates/fork_words/src/command.rt, crates/macheap/src/asked.rt and look.rt, with the first part of their
help.
FOLDER gets bash/NAME, zsh/_NAME and fish/NAME.fish of each program; `tests/run completions` compares them with the programs' own help.
"""
import os
import re
import sys
from typing import NamedTuple

TOP = os.path.dirname(os.path.dirname(os.path.abspath(__file__)))
COMMAND = re.compile(r'CommandText \{\s*name: "(\w+)",\s*about: "([^"]*)"')
WORD = re.compile(r'word!\(((?:"\w+" ?)+), "([\w-]+)", Form::(\w+)(?:\(([^)]*)\))?, Values::(\w+)(?:\("([^"]*)"\))?[^;]*;\s*"((?:[^"\\]|\\.)*)"\)')
OPTION = re.compile(r'\.arg\((\w+)_option\(alloc, "(\w+)", (\w+)\)\)')
LOOK_OPTION = re.compile(r'\.arg\(option\(alloc, "(\w+)", "(\w+)", (\w+)\)\)|\.arg\(flag_option\(alloc, "(\w+)", "([^"]*)"\)\)')
HELP = re.compile(r'let (\w+_help) =\s*"([^"]*)";')
# what an operand or a value is called that names a file, or a folder
FILES, FOLDERS = {"FILE", "FILE|DIR", "LINES", "IN", "OUT", "A", "B", "FROM", "TYPE[:ID]|TO"}, {"DIR"}
# the values of those that have only some
CHOICES = {"as": ["text", "hex", "png", "wav"], "data": ["base64"], "to": ["raw", "appledouble", "applesingle", "macbinary", "binhex"], "mode": ["24", "32"]}


class Word(NamedTuple):
    """An option, with its names and what its value is called; or an operand, without names. Of some there may be several."""

    names: list
    value: str
    several: bool
    about: str

    def choices(self):
        """The values that it may have, if they are few. The option --data of convert names a file."""
        return [] if self.value in FILES else CHOICES.get((self.names or [""])[-1].lstrip("-"), [])

    def kind(self):
        """What completes its value: a file, a folder, one of some words, or nothing."""
        return "files" if self.value in FILES else "folders" if self.value in FOLDERS else "choices" if self.choices() else "nothing"


HELP_OPTION = Word(["-h", "--help"], "", False, "Prints help")
VERSION_OPTION = Word(["-V", "--version"], "", False, "Prints the version")


def read(path):
    with open(os.path.join(TOP, path), encoding="utf-8") as it:
        return it.read()


def brief(text):
    """The first part of a help text."""
    return re.split(r"[:;(]|, ", text.replace("\\\\", "\\"))[0].strip()


def commands_of_resfork():
    """Each command: its name, what it does, and its words."""
    source = read("crates/fork_words/src/command.rt")
    words = []
    for commands, _, form, form_names, values, value, about in WORD.findall(source):
        names = [("-" if len(it) == 1 else "--") + it for it in re.findall(r"[\w-]+", form_names)]
        words.append((re.findall(r"\w+", commands), Word(names if form != "Operand" else [], value, values in ("Each", "Many"), brief(about))))
    if len(words) != source.count(" word!("):
        sys.exit(f"tools/completions.py reads {len(words)} of {source.count(' word!(')} words of the command line")
    return {name: (about, [HELP_OPTION, *(word for commands, word in words if name in commands)]) for name, about in COMMAND.findall(source)}


def words_of_macheap():
    """The options of a run, with the one that asks for a look; and those of a look."""
    source = read("crates/macheap/src/asked.rt")
    helps, values = dict(HELP.findall(source)), {"number": "N", "file": "FILE", "flag": ""}
    run = [Word([f"--{name}"], values[kind], kind == "file", brief(helps[text])) for kind, name, text in OPTION.findall(source)]
    source = read("crates/zone_view/src/asked.rt")
    helps = dict(HELP.findall(source))
    look = [Word([f"--{name or flag}"], value, False, about or brief(helps[text])) for name, value, text, flag, about in LOOK_OPTION.findall(source)]
    return [HELP_OPTION, VERSION_OPTION, *run, look[0]], [HELP_OPTION, *look]


def quoted(text):
    """A text as a word of a shell."""
    return "'" + text.replace("'", "'\\''") + "'"


def in_line(command):
    """The pattern of a line with a command that is an option, or of any other."""
    return f"*{quoted(f' {command} ')}*" if command else "*"


def bash_case(words):
    """What bash does where the words are known: after an option with a value, at an option, and at an operand by its number."""
    options, operands = [it for it in words if it.names], [it for it in words if not it.names]
    lines = ["case $before in"]
    for word in options:
        if word.value:
            lines += [f"    {'|'.join(word.names)}) offer {word.kind()} {' '.join(word.choices())}; return ;;"]
    lines += ["esac", f"valued='{' '.join(name for it in options if it.value for name in it.names)}'"]
    lines += [f"[[ $word == -* ]] && {{ offer choices {' '.join(name for it in options for name in it.names)}; return; }}"]
    if operands:
        kinds = [it.kind() for it in operands]
        last = kinds[-1] if operands[-1].several else "nothing"
        lines += ["case $(operands) in", *(f"    {index}) offer {kind} ;;" for index, kind in enumerate(kinds)), f"    *) offer {last} ;;", "esac"]
    return lines


BASH = """# completes the words of {name} in bash
_{name}() {{
    local word=${{COMP_WORDS[COMP_CWORD]}} before=${{COMP_WORDS[COMP_CWORD - 1]}} valued=
    offer() {{
        case $1 in
            choices) mapfile -t COMPREPLY < <(compgen -W "${{*:2}}" -- "$word") ;;
            files) mapfile -t COMPREPLY < <(compgen -f -- "$word"); compopt -o filenames 2>/dev/null ;;
            folders) mapfile -t COMPREPLY < <(compgen -d -- "$word"); compopt -o filenames 2>/dev/null ;;
        esac
    }}
    # how many operands come before the word
    operands() {{
        local index count=0
        for ((index = {first}; index < COMP_CWORD; index++)); do
            case ${{COMP_WORDS[index]}} in
                -?*) [[ " $valued " == *" ${{COMP_WORDS[index]}} "* ]] && ((index++)) ;;
                *) ((count++)) ;;
            esac
        done
        echo "$count"
    }}
    COMPREPLY=()
{body}
}}
complete -F _{name} {name}
"""


def indented(lines, columns):
    return "\n".join(" " * columns + it for it in lines)


def bash(name, commands):
    """The file for bash. A program without commands has the command None, and those that are options."""
    if None in commands:
        body = ["case \" ${COMP_WORDS[*]:1:COMP_CWORD - 1} \" in"]
        for command, (_, words) in reversed(commands.items()):
            body += [f"    {in_line(command)})", *("        " + it for it in bash_case(words)), "        ;;"]
        return BASH.format(name=name, first=1, body=indented([*body, "esac"], 4))
    body = ["if ((COMP_CWORD == 1)); then", f"    offer choices {' '.join(commands)} --help --version", "    return", "fi", "case ${COMP_WORDS[1]} in"]
    for command, (_, words) in commands.items():
        body += [f"    {command})", *("        " + it for it in bash_case(words)), "        ;;"]
    return BASH.format(name=name, first=2, body=indented([*body, "esac"], 4))


def zsh_action(word):
    """How zsh completes a value."""
    return {"files": "_files", "folders": "_files -/", "choices": f"({' '.join(word.choices())})", "nothing": " "}[word.kind()]


def zsh_words(words):
    """The words as _arguments takes them."""
    escaped = lambda text: re.sub(r"([\[\]:\\])", r"\\\1", text)
    number = 0
    for word in words:
        value = f":{escaped(word.value)}:{zsh_action(word)}" if word.value else ""
        for name in word.names:
            others = "" if word.several else f"({' '.join(word.names)})"
            yield quoted(f"{others}{'*' if word.several else ''}{name}[{escaped(word.about)}]{value}")
        if not word.names:
            number += 1
            yield quoted(("*" if word.several else str(number)) + value)


def zsh(name, commands):
    """The file for zsh."""
    if None in commands:
        lines = [f"#compdef {name}", 'case " ${words[2,CURRENT - 1]} " in']
        for command, (_, words) in reversed(commands.items()):
            lines += [f"    {in_line(command)}) _arguments \\", indented(" \\\n".join(zsh_words(words)).split("\n"), 8), "        ;;"]
        return "\n".join([*lines, "esac"]) + "\n"
    lines = [f"#compdef {name}", "if ((CURRENT == 2)); then", "    local -a commands=("]
    lines += [f"        {quoted(f'{command}:{about}')}" for command, (about, _) in commands.items()]
    lines += ["    )", "    _describe command commands", "    return", "fi", "shift words", "((CURRENT--))", "case $words[1] in"]
    for command, (_, words) in commands.items():
        lines += [f"    {command}) _arguments \\", indented(" \\\n".join(zsh_words(words)).split("\n"), 8), "        ;;"]
    return "\n".join([*lines, "esac"]) + "\n"


def fish_line(name, condition, word):
    """A word as fish takes it; its operands are files, or none."""
    names = " ".join(f"-l {it[2:]}" if it.startswith("--") else f"-s {it[1:]}" for it in word.names)
    action = {"files": " -rF", "folders": " -x -a '(__fish_complete_directories)'", "choices": f" -x -a {quoted(' '.join(word.choices()))}", "nothing": " -x"}
    return f"complete -c {name}{condition} {names}{action[word.kind()] if word.value else ''} -d {quoted(word.about)}"


def fish(name, commands):
    """The file for fish."""
    lines = [f"# completes the words of {name} in fish"]
    seen, other = "__fish_seen_subcommand_from {}", ""
    if None in commands:
        seen, other = "string match -q -- '* {} *' (commandline -cp)", " -n " + quoted("not string match -q -- '* --look *' (commandline -cp)")
    if None not in commands:
        lines += [f"complete -c {name} -n __fish_use_subcommand -f -a {command} -d {quoted(about)}" for command, (about, _) in commands.items()]
        lines += [fish_line(name, " -n __fish_use_subcommand -f", it) for it in (HELP_OPTION, VERSION_OPTION)]
    for command, (_, words) in commands.items():
        condition = f" -n {quoted(seen.format(command))}" if command else other
        lines += [fish_line(name, condition, word) for word in words if word.names]
    return "\n".join(lines) + "\n"


def main(folder):
    run, look = words_of_macheap()
    programs = {"resfork": commands_of_resfork(), "macheap": {None: ("", run), "--look": ("", look)}}
    for name, commands in programs.items():
        for path, text in ((f"bash/{name}", bash(name, commands)), (f"zsh/_{name}", zsh(name, commands)), (f"fish/{name}.fish", fish(name, commands))):
            path = os.path.join(folder, path)
            os.makedirs(os.path.dirname(path), exist_ok=True)
            with open(path, "w", encoding="utf-8") as it:
                it.write(text)


if __name__ == "__main__":
    sys.exit(main(*sys.argv[1:]) if len(sys.argv) == 2 else __doc__)
