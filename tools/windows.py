#!/usr/bin/env python3
"""Makes the library for Windows on x86-64, of the one for Linux: tools/windows.py LIBMACHEAP.A FOLDER [PROGRAM.c ..].

It writes macheap.dll and libmacheap.dll.a, which programs are linked with, and builds each program over them. The machine code is that of
libmacheap.a, whose functions and whose calls of the C library keep Linux's calling convention: a function in C goes between, once for each of
the headers and once for each of the C library's. It needs Debian's gcc-mingw-w64-x86-64; its linker reads Linux's objects, where objcopy gets
their relocations wrong. Not part of `rt ci`.
"""
import glob
import os
import re
import subprocess
import sys
import tempfile

TOP = os.path.dirname(os.path.dirname(os.path.abspath(__file__)))
TOOL = "x86_64-w64-mingw32-"
HEADERS = ["macheap.h", "macheap_fork.h", "resman.h"]
FUNCTION = re.compile(r"^M[hf]Err (m[hfr]_\w+)\(([^;]*)\);", re.M)
# what the objects ask for: its result, its name and its operands
ASKED = [
    "void *malloc(size_t count)", "void *realloc(void *old, size_t count)", "void free(void *old)", "void *memcpy(void *to, const void *from, size_t count)",
    "void *memmove(void *to, const void *from, size_t count)", "void *memset(void *to, int byte, size_t count)",
    "int memcmp(const void *one, const void *other, size_t count)",
]
# what Windows has no use for
SECTIONS = [".comment", ".eh_frame", ".note.GNU-stack", ".llvm_addrsig"]
# a function that takes so many bytes of stack at once has to touch its pages one by one on Windows
PAGE = 0x1000
BEGIN = f"""\
#include <stdlib.h>
#include <string.h>
{"".join(f'#include "{it}"{chr(10)}' for it in HEADERS)}#define LINUX __attribute__((sysv_abi))
LINUX int linux_bcmp(const void *one, const void *other, size_t count) {{ return memcmp(one, other, count); }}
"""


def between(declared, name, linux_calls):
    """A function that one side calls, and that calls the other."""
    before, operands = re.match(rf"(.*?)\b{name}\((.*)\)$", declared, re.S).groups()
    names = ", ".join(re.search(r"(\w+)$", it.strip())[1] for it in operands.split(","))
    back = "" if before.strip() == "void" else "return "
    if linux_calls:
        return f"LINUX {before}linux_{name}({operands}) {{ {back}{name}({names}); }}\n"
    own = f"LINUX {before}linux_{name}({operands});\n"
    return own + f"__declspec(dllexport) {before}{name}({operands}) {{ {back}linux_{name}({names}); }}\n"


def run(*words):
    return subprocess.run(words, check=True, stdout=subprocess.PIPE, text=True).stdout


def main():
    library, folder, *programs = sys.argv[1:]
    code = run("objdump", "-d", library)
    if max(int(it, 16) for it in re.findall(r"sub +\$0x([0-9a-f]+),%rsp", code)) >= PAGE or re.search(r"-0x[0-9a-f]+\(%rsp\)", code):
        sys.exit("a function takes a page of stack at once, or writes below its stack, as Windows doesn't allow")
    text = BEGIN
    for header in HEADERS:
        with open(os.path.join(TOP, "c/include", header), encoding="utf-8") as it:
            found = FUNCTION.findall(re.sub(r"/\*.*?\*/", "", it.read(), flags=re.S))
        text += "".join(between(f"int16_t {name}({operands})", name, False) for name, operands in found)
    names = re.findall(r"dllexport\) int16_t (\w+)", text)
    for declared in ASKED:
        name = re.search(r"(\w+)\(", declared)[1]
        text += between(declared, name, True)
        names.append(name)
    names.append("bcmp")
    with tempfile.TemporaryDirectory() as room:
        run("ar", "x", "--output", room, library)
        objects = sorted(glob.glob(f"{room}/*.o"))
        for it in objects:
            run("objcopy", *(f"--redefine-sym={name}=linux_{name}" for name in names), *(f"--remove-section={it}" for it in SECTIONS), it)
        with open(f"{room}/between.c", "w", encoding="utf-8") as it:
            it.write(text)
        run(f"{TOOL}gcc", "-O2", "-Wall", "-Werror", f"-I{TOP}/include", "-shared", f"{room}/between.c", *objects, "-o", f"{folder}/macheap.dll",
            f"-Wl,--out-implib,{folder}/libmacheap.dll.a")
    for program in programs:
        name = os.path.splitext(os.path.basename(program))[0]
        run(f"{TOOL}gcc", "-std=c11", "-O2", f"-I{TOP}/include", program, f"{folder}/libmacheap.dll.a", "-o", f"{folder}/{name}.exe")
    return 0


if __name__ == "__main__":
    sys.exit(main())
