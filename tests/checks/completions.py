"""Checks that the shells complete the words of resfork and macheap as the programs' own help has them, and what `make install-programs` installs.

For each command bash, and fish where it is there, have to offer the options that `resfork COMMAND --help` lists, no fewer and no more, and files, folders
or the words that a value may be. zsh, where it is there, has to read its files. The programs are installed below a folder with a blank in its name, and
below one that is named from where make runs; manual pages and completions have to be in their places.
"""
import os
import re
import shutil
import subprocess
import tempfile

from checks.fork_questions import Difference
from places import TOP

SAMPLE = os.path.join(TOP, "crates/resfork/data/sample.rsrc")
OPTION = re.compile(r"^ +(?:(-\w), )?(--[\w-]+)", re.M)
COMMAND = re.compile(r"^  (\w+) {2,}", re.M)
KINDS = ["raw", "appledouble", "applesingle", "macbinary", "binhex"]
INSTALLED = [
    "bin/resfork", "bin/macheap", "share/man/man1/resfork.1", "share/man/man1/macheap.1", "share/bash-completion/completions/resfork",
    "share/bash-completion/completions/macheap", "share/zsh/site-functions/_resfork", "share/zsh/site-functions/_macheap",
    "share/fish/vendor_completions.d/resfork.fish", "share/fish/vendor_completions.d/macheap.fish",
]
# an unfinished line, and what completes its last word in a folder with the files `a file` and `b`, and the folder `c dir`
LINES = [
    (["resfork", "sh"], ["show"]), (["resfork", "con"], ["convert"]), (["resfork", "convert", "--to", ""], KINDS), (["resfork", "convert", "--to", "mac"], ["macbinary"]),
    (["resfork", "show", "b", "--as", ""], ["text", "hex", "png", "wav"]), (["resfork", "ls", ""], ["a file", "b", "c dir"]), (["resfork", "ls", "b", "a"], ["a file"]),
    (["resfork", "ls", "-t", ""], []), (["resfork", "get", "b", ""], []), (["resfork", "get", "b", "TEXT", "128", "-o", "a"], ["a file"]), (["resfork", "unpack", "b", ""], ["c dir"]),
    (["resfork", "put", "-q", "-i", "b", ""], ["a file", "b", "c dir"]), (["resfork", "diff", "b", "a"], ["a file"]), (["resfork", "diff", "b", "a", ""], []),
    (["resfork", "cp", "b", "TEXT", "a"], ["a file"]), (["resfork", "find", "-t", "TEXT", "a"], ["a file"]), (["macheap", "--fork", "a"], ["a file"]), (["macheap", "--mode", ""], ["24", "32"]), (["macheap", "--look", "a"], ["a file"]), (["macheap", "--look", "b", "--j"], ["--json"]),
    (["macheap", "--look", "b", "--mode", ""], ["24", "32"]), (["macheap", "--zone", ""], []), (["macheap", ""], []),
]


def must(what, got, wanted):
    if got != wanted:
        raise Difference(f"{what}:\n  {got!r}\n  where there should be\n  {wanted!r}")


def output(words, **how):
    return subprocess.run(words, stdout=subprocess.PIPE, stdin=subprocess.DEVNULL, check=True, text=True, **how).stdout


def in_bash(file, words, folder):
    """What bash offers for the last of these words."""
    script = f'. "$0"; COMP_WORDS=("$@"); COMP_CWORD=$(($# - 1)); _{words[0]}; ((${{#COMPREPLY[@]}})) && printf "%s\\n" "${{COMPREPLY[@]}}"; true'
    return output(["bash", "--norc", "-c", script, file, *words], cwd=folder).splitlines()


def in_fish(file, words, folder):
    """The options that fish offers for the last of these words."""
    with tempfile.TemporaryDirectory() as home:
        said = output(["fish", "--no-config", "-c", f"source {file}; complete -C '{' '.join(words)}'"], cwd=folder, env={**os.environ, "HOME": home})
    return [line.split("\t")[0] for line in said.splitlines()]


def options_of(program, command):
    """The options that the help of a command lists."""
    found = OPTION.findall(output([program, *command, "--help"]).partition("Options:")[2].partition("Examples:")[0])
    return sorted(name for names in found for name in names if name)


def try_options(programs, made, folder):
    """Compares the options of each command with those of its help."""
    for name, program in programs.items():
        commands = [[it] for it in COMMAND.findall(output([program, "--help"]).partition("Options:")[0]) if it != "help"] or [[], ["--look", "b"]]
        for command in commands:
            what, wanted = " ".join([name, *command]), sorted(options_of(program, command) + ["--look"] * (not command))
            must(f"the options of {what} in bash", sorted(in_bash(f"{made}/bash/{name}", [name, *command, "-"], folder)), wanted)
            if shutil.which("fish"):
                offered = [option for sign in ("-", "--") for option in in_fish(f"{made}/fish/{name}.fish", [name, *command, sign], folder)]
                must(f"the options of {what} in fish", sorted({it for it in offered if it.startswith("-")}), sorted(set(wanted)))
        if [] not in commands:
            offered = in_bash(f"{made}/bash/{name}", [name, ""], folder)
            must(f"the commands of {name}", offered, [*(it for [it] in commands), "--help", "--version"])
        if shutil.which("zsh"):
            subprocess.run(["zsh", "-n", f"{made}/zsh/_{name}"], check=True)


def try_lines(program, made, folder):
    """Completes lines, and gives the program each value that is offered."""
    for name in ("a file", "b"):
        shutil.copy(SAMPLE, os.path.join(folder, name))
    os.mkdir(os.path.join(folder, "c dir"))
    for words, wanted in LINES:
        must(f"what completes {words}", sorted(in_bash(f"{made}/bash/{words[0]}", words, folder)), sorted(wanted))
    for kind in KINDS:
        subprocess.run([program, "convert", "-q", "--lossy", "--to", kind, "b", kind], cwd=folder, check=True)


def try_install(programs, folder):
    """Installs below two folders, and below one where a package is made."""
    built = os.path.join(folder, "built")
    os.mkdir(built)
    for name, program in programs.items():
        shutil.copy(program, os.path.join(built, name))
    for prefix, below in ((os.path.join(folder, "my programs"), ""), (os.path.relpath(os.path.join(folder, "near"), TOP), ""), ("/usr", os.path.join(folder, "made for it"))):
        settings = [f"PREFIX={prefix}", f"DESTDIR={below}", f"PROGRAMS={built}"]
        subprocess.run(["make", "-s", "-C", TOP, "install-programs", *settings], check=True)
        there = os.path.join(TOP, below + prefix)
        found = [os.path.relpath(os.path.join(at, name), there) for at, _, names in os.walk(there) for name in names]
        must(f"what is installed with {settings}", sorted(found), sorted(INSTALLED))
        for name in programs:
            must(f"the version of the installed {name}", output([os.path.join(there, "bin", name), "--version"]), output([programs[name], "--version"]))
        subprocess.run(["make", "-s", "-C", TOP, "uninstall-programs", *settings], check=True)
        must("what is left", [name for _, _, names in os.walk(there) for name in names], [])


def main(resfork, macheap):
    programs = {"resfork": resfork, "macheap": macheap}
    with tempfile.TemporaryDirectory() as room:
        made, folder = os.path.join(room, "made"), os.path.join(room, "folder")
        os.mkdir(folder)
        subprocess.run([os.path.join(TOP, "tools/completions.py"), made], check=True)
        try:
            try_options(programs, made, folder)
            try_lines(resfork, made, folder)
            try_install(programs, room)
        except Difference as difference:
            print(f"completions: {difference}")
            return 1
    skipped = [it for it in ("zsh", "fish") if not shutil.which(it)]
    print("completions: bash" + "".join(f", and no {it} is here" for it in skipped))
    return 0
