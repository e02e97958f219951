#!/usr/bin/env python3
"""The declarations of the static library against the library.

Functions and structs of include/packet_window.h and of bindings/rust/src/raw.rs are those of the library's source: names, the
names, types and order of parameters and fields. The constants, and the numbers of answers and refusals, are the source's, and the
wrapper reads every refusal's number. The functions of the header are the packet_window_ symbols of target/libpacket_window.a, each
there once; an inline function of the header is none of them. One version stands in the library, the header, the wrapper, Cargo.toml
and at the head of CHANGELOG.md.
"""
import re
import subprocess
from pathlib import Path

ROOT = Path(__file__).resolve().parents[2]
HEADER = ROOT / "include/packet_window.h"
RAW = ROOT / "bindings/rust/src/raw.rs"
ANSWERS = ROOT / "bindings/rust/src/answers.rs"
MEMORY = ROOT / "bindings/rust/src/memory.rs"
LIBRARY = ROOT / "target/libpacket_window.a"
CARGO = ROOT / "bindings/rust/Cargo.toml"
CHANGES = ROOT / "CHANGELOG.md"
EXPORTS = sorted(path for crate in ("c_calls", "c_calls_c", "c_audit", "c_host", "c_losses") for path in (ROOT / "crates" / crate / "src").glob("*.rt"))
WINDOW = ROOT / "crates/window/src/lib.rt"
REFUSALS = ROOT / "crates/window/src/refusals.rt"
VERSION = ROOT / "crates/c_calls/src/version.rt"

# What each language calls a type.
SOURCE_TYPES = {
    "u32": "u32",
    "u64": "u64",
    "AdaptiveReceiverPacketWindow": "header",
    "NumberedAnswer": "answer",
    "NumberedStep": "step",
    "NumberedOutcome": "outcome",
    "&mut AdaptiveReceiverPacketWindow": "header *",
}
RAW_TYPES = {
    "u32": "u32",
    "u64": "u64",
    "usize": "size",
    "*mut u8": "u8 *",
    "*mut u32": "u32 *",
    "*mut u64": "u64 *",
    "*const u32": "const u32 *",
    "*const u64": "const u64 *",
    "Header": "header",
    "NumberedAnswer": "answer",
    "NumberedStep": "step",
}
C_TYPES = {"uint8_t": "u8", "uint32_t": "u32", "uint64_t": "u64", "size_t": "size"}


def without_comments(text):
    text = re.sub(r"/\*.*?\*/", " ", text, flags=re.S)
    return re.sub(r"//[^\n]*", " ", text)


def read(path):
    return without_comments(path.read_text())


def parts(text, separator):
    return [" ".join(part.split()) for part in text.split(separator) if part.strip()]


def named(parameter):
    """`name: type`, as Rattle and Rust write it."""
    name, kind = parameter.replace("pub ", "").split(": ")
    return name, kind


# ---- the library's source


def source_parameter(parameter):
    name, kind = named(parameter)
    listed = re.fullmatch(r"&(mut )?\[(u8|u32|u64)\]", kind)
    if not listed:
        return [(name, SOURCE_TYPES[kind])]
    const = "" if listed[1] else "const "
    return [(name, f"{const}{listed[2]} *"), (f"{name}_length", "size")]


def source_functions(text):
    found = re.findall(r'pub extern "C" fn (\w+)\((.*?)\)\s*->\s*(\w+)', text, flags=re.S)
    return {
        name: (SOURCE_TYPES[result], [pair for parameter in parts(given, ",") for pair in source_parameter(parameter)])
        for name, given, result in found
    }


def rust_structs(text, types):
    found = re.findall(r"#\[repr\(C\)\]\s*(?:#\[derive[^\]]*\]\s*)?pub struct (\w+) \{(.*?)\}", text, flags=re.S)
    return {types[name]: [(field, types[kind]) for field, kind in map(named, parts(fields, ","))] for name, fields in found}


def source_codes(text):
    """Ok(Answer::Found(..)) => numbered(4, ..): FOUND is 4, and what numbered has for Err(..) is REFUSED. A later answer with the same
    code, as iter's done with its reads, has no name of its own there."""
    names = {}
    for name, code in re.findall(r"(?:Ok\(Answer::(\w+)(?:\([^)]*\))?|Err\(\w+)\) => numbered\(\s*(\d+)", text):
        names.setdefault(int(code), upper(name or "Refused"))
    return {name: code for code, name in names.items()}


def source_refusals(text):
    return {upper(name): int(number) for name, number in re.findall(r"Refusal::(\w+) => (\d+)", text)}


def rust_constants(text):
    return {name: int(number) for name, number in re.findall(r"pub const (\w+): (?:usize|u32) = (\d+);", text)}


def return_places(text):
    """The test of a return list: `returned < 384`."""
    return int(re.search(r"returned < (\d+)", text)[1])


def upper(name):
    return re.sub(r"(?<=[a-z])(?=[A-Z])", "_", name).upper()


# ---- the C header


def c_named(declared):
    kind, name = re.fullmatch(r"(.*?)(\w+)", declared).groups()
    kind = kind.strip()
    for c, own in C_TYPES.items():
        kind = re.sub(rf"\b{c}\b", own, kind)
    return name, kind.replace("packet_window_", "")


def c_functions(text):
    found = re.findall(r"(?:packet_window_)?(\w+) (packet_window_\w+)\(([^;{]*)\);", text)
    return {
        name: (C_TYPES.get(result, result), [c_named(parameter) for parameter in parts(given, ",") if parameter != "void"])
        for result, name, given in found
    }


def c_inline_functions(text):
    return set(re.findall(r"static inline \w+ (packet_window_\w+)\(", text))


def c_structs(text):
    found = re.findall(r"typedef struct packet_window_(\w+) \{(.*?)\} packet_window_\1;", text, flags=re.S)
    return {name: [c_named(field) for field in parts(fields, ";")] for name, fields in found}


def c_enum(text, name, prefix):
    body = re.search(rf"enum packet_window_{name} \{{(.*?)\}};", text, flags=re.S)[1]
    return {case: int(number) for case, number in re.findall(rf"{prefix}(\w+) = (\d+)", body)}


def c_constants(text):
    return {name: int(number) for name, number in re.findall(r"#define PACKET_WINDOW_(\w+) (\d+)u", text)}


# ---- the Rust wrapper


def raw_functions(text):
    found = re.findall(r"pub fn (\w+)\((.*?)\) -> (\w+);", text, flags=re.S)
    return {
        name: (RAW_TYPES[result], [(parameter, RAW_TYPES[kind]) for parameter, kind in map(named, parts(given, ","))])
        for name, given, result in found
    }


def raw_refusals(text):
    body = re.search(r"pub enum Refusal \{(.*?)\}", text, flags=re.S)[1]
    return {upper(name): int(number) for name, number in re.findall(r"(\w+) = (\d+)", body)}


def raw_read(text):
    """The refusals that the wrapper knows by their number: those of Refusal::ALL. It takes another number for Unsound."""
    body = re.search(r"const ALL: \[Self; \d+\] = \[(.*?)\];", text, flags=re.S)[1]
    return {upper(name): True for name in re.findall(r"Self::(\w+)", body)}


# ---- the version


def written(version):
    return f"{version // 10000}.{version // 100 % 100}.{version % 100}"


def versions():
    """As Cargo.toml and the first entry of CHANGELOG.md write it."""
    return {
        CARGO.name: re.search(r'^version = "(.*)"$', CARGO.read_text(), flags=re.M)[1],
        CHANGES.name: re.search(r"^## (\S+)$", CHANGES.read_text(), flags=re.M)[1],
    }


# ---- the comparison


def symbols():
    listing = subprocess.run(["nm", "--defined-only", str(LIBRARY)], capture_output=True, text=True, check=True).stdout
    return sorted(re.findall(r" T (packet_window_\w+)$", listing, flags=re.M))


def same(what, got, wanted):
    if not wanted:
        raise SystemExit(f"{what}: none found in the library's source")
    for name in sorted(set(got) | set(wanted)):
        if got.get(name) != wanted.get(name):
            raise SystemExit(f"{what}: {name} is {got.get(name)}, the library's {wanted.get(name)}")


def by_value(functions):
    """All but the host forms, which the wrapper does not use."""
    return {name: declared for name, declared in functions.items() if not name.startswith("packet_window_host_")}


def main():
    source = "\n".join(read(path) for path in [*EXPORTS, WINDOW])
    header, raw = read(HEADER), read(RAW)
    functions, structs = source_functions(source), rust_structs(source, SOURCE_TYPES)
    same("header, functions", c_functions(header), functions)
    same("header, structs", c_structs(header), structs)
    same("wrapper, functions", raw_functions(raw), by_value(functions))
    same("wrapper, structs", rust_structs(raw, RAW_TYPES), {name: fields for name, fields in structs.items() if name != "outcome"})
    constants = {**rust_constants(read(WINDOW)), **rust_constants(read(VERSION)), "RETURN_PLACES": return_places(read(REFUSALS))}
    same("header, constants", c_constants(header), constants)
    same("wrapper, constants", rust_constants(read(MEMORY)), constants)
    same("versions", versions(), {path.name: written(constants["VERSION"]) for path in (CARGO, CHANGES)})
    codes, refusals = source_codes(source), source_refusals(read(REFUSALS))
    same("header, codes", c_enum(header, "code", "PACKET_WINDOW_"), codes)
    same("header, refusals", c_enum(header, "refusal", "PACKET_WINDOW_REFUSED_"), refusals)
    same("wrapper, codes", rust_constants(raw), codes)
    same("wrapper, refusals", raw_refusals(read(ANSWERS)), refusals)
    same("wrapper, refusals read", raw_read(read(ANSWERS)), dict.fromkeys(refusals, True))
    if symbols() != sorted(functions):
        raise SystemExit(f"the symbols of the library are {symbols()}, the functions of the header {sorted(functions)}")
    if c_inline_functions(header) & set(symbols()):
        raise SystemExit(f"inline functions of the header are symbols of the library: {sorted(c_inline_functions(header) & set(symbols()))}")
    counts = f"{len(functions)} functions, {len(structs)} structs, {len(constants)} constants, {len(codes)} codes, {len(refusals)} refusals"
    print(f"{counts} as the library has them")


if __name__ == "__main__":
    main()
