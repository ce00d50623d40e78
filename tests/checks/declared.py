#!/usr/bin/env python3
"""Compares the version, and the functions, structs and numbers that c/rust declares, with those of c/include/macheap.h and resman.h."""
import os
import re
import sys

TOP = os.path.dirname(os.path.dirname(os.path.dirname(os.path.abspath(__file__))))
# a call of the tables in lib.rs and resources.rs, whose results are written through references
CALL = re.compile(r"^    (m[hr]_\w+) is \w+\((.*)\)(?: -> (.*))?;$", re.M)
FUNCTION = re.compile(r"\bpub fn (m[hr]_\w+)\((.*)\) -> i16;")
STRUCT = re.compile(r"\bstruct (\w+) \{\n(.*?)^\}", re.M | re.S)
OPERAND = re.compile(r"(const )?(\w+) (\*?)(\w+)(?:\[(\d+)\])?$")
TYPES = {"uint32_t": "u32", "int16_t": "i16", "size_t": "usize", "MhErr": "i16", "uint8_t": "u8", "void": "u8"}


def read(path):
    with open(os.path.join(TOP, path), encoding="utf-8") as it:
        return it.read()


def in_rust(declared):
    """An operand or a field of C as the crate has to declare it: `name: type`."""
    const, kind, pointer, name, count = OPERAND.match(declared.strip()).groups()
    kind = TYPES.get(kind, kind)
    if pointer and kind == "u8":
        kind = "*const u8" if const else "*mut u8"
    elif pointer:
        kind = f"&{kind}" if const else f"&mut {kind}"
    return f"{name}: [{kind}; {count}]" if count else f"{name}: {kind}"


def operands_in_rust(operands):
    """The operands of a function of C as the crate has to declare them: values before their count are given by a raw pointer."""
    found = [in_rust(it) for it in operands.split(",")]
    counted = [*(it.endswith(": usize") for it in found[1:]), False]
    return [it.replace(": &mut Mh", ": *mut Mh").replace(": &mut u32", ": *mut u32").replace(": &Mh", ": *const Mh") if is_counted else it for it, is_counted in zip(found, counted)]


def of_c(header):
    header = re.sub(r"/\*.*?\*/", "", header, flags=re.S)
    functions = re.findall(r"^MhErr (m[hr]_\w+)\((.*?)\);", header, re.M | re.S)
    found = {name: operands_in_rust(operands) for name, operands in functions}
    found |= {name: [in_rust(it) for it in fields.split(";")[:-1]] for name, fields in STRUCT.findall(header)}
    return found | {name: number for name, number in re.findall(r"\b(M[HR]_\w+) = (-?\d+)", header)}


def of_rust(calls, sys_rs):
    # a type is a number in C
    calls, sys_rs = (re.sub(r"\bResType\b", "u32", it) for it in (calls, sys_rs))
    found = {name: operands.split(", ") for name, operands in FUNCTION.findall(sys_rs)}
    for name, operands, results in CALL.findall(calls):
        given = operands.split(", ") if operands else []
        written = results.replace(": ", ": &mut ").split(", ") if results else []
        first = ["files: &mut MrFiles"] if name.startswith("mr_") else []
        found[name] = [*first, "zone: &mut MhZone", *given, *written]
    found |= {name: re.findall(r"(\w+: [^\n]*),\n", fields) for name, fields in STRUCT.findall(sys_rs)}
    return found | {name: number for name, number in re.findall(r"const (M[HR]_\w+): \w+ = (-?\d+);", sys_rs)}


def main():
    wanted = of_c(read("c/include/macheap.h") + read("c/include/resman.h"))
    found = of_rust(read("c/rust/src/lib.rs") + read("c/rust/src/resources.rs"), read("c/rust/src/sys.rs"))
    wanted["MACHEAP_VERSION"] = re.search(r'MACHEAP_VERSION "(.*)"', read("c/include/macheap.h"))[1]
    found["MACHEAP_VERSION"] = re.search(r'^version = "(.*)"', read("c/rust/Cargo.toml"), re.M)[1]
    other = [name for name in found if found[name] != wanted.get(name)]
    for name in other:
        print(f"c/rust declares {name} as {found[name]}, and the header as {wanted.get(name)}")
    print(f"c/rust declares {len(found) - len(other)} of the {len(wanted)} names of the headers as they are there, {len(other)} not")
    print("not in c/rust:", *sorted(wanted.keys() - found.keys()))
    return 1 if other or not found else 0


if __name__ == "__main__":
    sys.exit(main())
