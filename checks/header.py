#!/usr/bin/env python3
"""Compares xdpvm.h and xdpvm.rs with the exports of crates/xdpvm_c/src, and with the structs of the crates below it: names,
parameters in their order with their types, results, and structs with their fields; in the header also statuses, limits and
the version. Nothing else does: a compiler sees only the declarations.

usage: python3 checks/header.py

Prints each difference. The exit status is 0, or 1 if there is one. In the gate.
"""
import glob
import os
import re
import sys
from collections.abc import Callable, Iterator, Mapping

from common import TOP, text_of, there

CRATES = ("calls", "xdpvm_c")
NUMBERS = {"u8": "uint8_t", "u32": "uint32_t", "u64": "uint64_t", "usize": "size_t", "": "void"}


Both = tuple[dict[str, str], dict[str, str]]  # functions and structs, by name


def read(*names: str) -> str:
    return "".join(text_of(os.path.join(TOP, name)) + "\n" for name in names)


def c_name(word: str) -> str:
    """How C names a struct: TracedEnd is xdpvm_traced_end."""
    return "struct xdpvm" + re.sub("([A-Z])", r"_\1", word).lower()


def c_parameters(name: str, kind: str) -> list[str]:
    """What C passes for a parameter: none for the allocator, two for a slice."""
    if kind == "Global":
        return []
    slice_of = re.fullmatch(r"&(mut )?\[(\w+)\]", kind)
    if slice_of:
        const = "" if slice_of[1] else "const "
        return [f"{const}{NUMBERS.get(slice_of[2]) or c_name(slice_of[2])} *{name}", f"size_t {name}_len"]
    if kind.startswith("&mut "):
        return [f"{c_name(kind[5:])} *{name}"]
    if kind.startswith("&"):
        return [f"const {c_name(kind[1:])} *{name}"]
    return [f"{NUMBERS[kind]} {name}"]


def rust_parameters(name: str, kind: str) -> list[str]:
    """The same for Rust."""
    slice_of = re.fullmatch(r"&(mut )?\[(\w+)\]", kind)
    if slice_of:
        return [f"{name}: *{'mut' if slice_of[1] else 'const'} {slice_of[2]}", f"{name}_len: usize"]
    return [] if kind == "Global" else [f"{name}: {kind}"]


def listed(words: str, parameters: Callable[[str, str], list[str]]) -> str:
    """The parameters of an export, as another language has them."""
    pairs = [re.split(r":\s*", word.strip(), maxsplit=1) for word in words.split(",") if word.strip()]
    return ", ".join(each for pair in pairs for each in parameters(*pair))


def exports(source: str) -> list[tuple[str, str, str]]:
    """Each export, with its parameters and its result, which may be none."""
    return re.findall(r'#\[unsafe\(no_mangle\)\]\s+pub extern "C" fn (\w+)\(([^)]*)\)(?: -> (\w+))?', source)


def structs(source: str) -> Iterator[tuple[str, list[tuple[str, str]]]]:
    """Each struct that crosses, with its fields; a pointer to memory that only the library reads
    has no type here."""
    for name, body in re.findall(r"#\[repr\(C\)\]\s+(?:#\[.*?\]\s+)*(?:pub )?struct (\w+) \{(.*?)\n\}", source, re.S):
        if name != "Opaque":
            yield name, re.findall(r"^ *(?:pub )?(\w+): (\w+|\*mut \w+),", body.replace("*mut Opaque", "*mut c_void"), re.M)


def c_field(field: str, kind: str) -> str:
    return f"void *{field};" if kind == "*mut c_void" else f"{NUMBERS[kind]} {field};"


def c_wanted(source: str) -> Both:
    functions = {name: f"{NUMBERS[result]} {name}({listed(words, c_parameters)})" for name, words, result in exports(source)}
    kinds = {}
    for name, fields in structs(source):
        kinds[c_name(name)] = f"{c_name(name)} {{ {' '.join(c_field(*field) for field in fields)} }}"
    return functions, kinds


def rust_function(name: str, parameters: str, result: str) -> str:
    return f"fn {name}({parameters})" + (f" -> {result}" if result else "")


def rust_wanted(source: str) -> Both:
    functions = {name: rust_function(name, listed(words, rust_parameters), result) for name, words, result in exports(source)}
    return functions, {name: str(fields) for name, fields in structs(source)}


def rust_declared(text: str) -> Both:
    functions = {}
    for name, words, result in re.findall(r"fn (xdpvm_\w+)\(([^)]*)\)(?:\s+-> (\w+))?;", text):
        functions[name] = rust_function(name, " ".join(words.split()).rstrip(","), result)
    return functions, {name: str(fields) for name, fields in structs(text)}


def declared(header: str) -> tuple[dict[str, str], dict[str, str], dict[str, str]]:
    """The functions and the structs of the header, without comments and needless spaces."""
    header = re.sub(r"/\*.*?\*/", "", header, flags=re.S)
    functions, kinds = {}, {}
    for result, name, words in re.findall(r"^(\w+) (xdpvm_\w+)\((.*?)\);", header, re.M | re.S):
        functions[name] = f"{result} {name}({' '.join(words.split())})"
    for name, body in re.findall(r"^(struct xdpvm_\w+) \{(.*?)\};", header, re.M | re.S):
        kinds[name] = f"{name} {{ {' '.join(body.split())} }}"
    return functions, kinds, dict(re.findall(r"^#define (XDPVM_\w+) (\S+)", header, re.M))


def constant(source: str, name: str) -> str | None:
    found = re.search(rf"pub const {name}: \w+ = ([\d_]+);", source)
    return found[1].replace("_", "") if found else None


def limits(source: str) -> Iterator[tuple[str, str | None]]:
    """The numbers of the header, by the constants of the crates."""
    for name in ("OK", "WRONG", "REFUSED", "MEMORY", "UNDECIDED", "ABSENT"):
        yield f"XDPVM_{name}", constant(source, name)
    below = read("crates/isa_model/src/limits.rt")
    for name in ("MAX_PACKET", "MAX_STEPS", "MAX_EXPLORED"):
        yield f"XDPVM_{name}", constant(below, name)
    maps, slots = constant(below, "MAX_MAPS"), constant(below, "MAX_SLOTS")
    yield "XDPVM_MAX_MAPS", maps
    yield "XDPVM_MAX_IMAGE", str(8 + 12 * int(maps) + 8 * int(slots)) if maps and slots else None
    yield from zip(("XDPVM_HASH", "XDPVM_ARRAY"), re.findall(r"MapType::\w+ => (\d),", source))
    ends = re.findall(r"kind: (\d),", source.split("fn end_of(")[1])
    yield from zip(("XDPVM_EXIT", "XDPVM_TRAP", "XDPVM_LIMIT"), ends)
    yield "XDPVM_VERSION", f'"{there(re.search(r"fill.buffer, b.([0-9.]+)", source))[1]}"'


def differences(wanted: Mapping[str, str | None], found: Mapping[str, str | None]) -> Iterator[str]:
    for name in sorted(wanted.keys() | found.keys()):
        if wanted.get(name) != found.get(name):
            yield f"the sources: {wanted.get(name)}\nthe caller:  {found.get(name)}"


def main() -> bool:
    paths = sorted(path for crate in CRATES for path in glob.glob(os.path.join(TOP, f"crates/{crate}/src/*.rt")))
    source = re.sub(r"^ *//.*$", "", read(*paths), flags=re.M)
    functions, kinds, numbers = declared(read("examples/embed/xdpvm.h"))
    found = list(differences(dict(limits(source)), numbers))
    in_rust = rust_declared(read("examples/embed/xdpvm.rs"))
    for wanted, has in ((c_wanted(source), (functions, kinds)), (rust_wanted(source), in_rust)):
        for ours, theirs in zip(wanted, has):
            found += differences(ours, theirs)
    version = there(re.search(r'pub const VERSION: &str = "(.*?)";', read("crates/words/src/command_line.rt")))[1]
    if numbers.get("XDPVM_VERSION") != f'"{version}"':
        found.append(f"the program is of version {version}, the header of {numbers.get('XDPVM_VERSION')}")
    for line in found:
        print(line)
    print(f"{len(functions)} functions, {len(kinds)} structs, {len(numbers)} numbers, {len(found)} differ")
    return bool(found)


if __name__ == "__main__":
    sys.exit(main())
