"""Writes what Rust and Python declare of the library, as header.py does for C: statuses, structs and calls; and the
refusals of a replica.

In Rust these are two files of bindings/rust/epaxos/src, ffi/header.rs and status.rs, and parts of fault.rs; in Python
parts of bindings/python/epaxos.py.
"""

import re
import textwrap

import header
import refusals

RUST = f"{header.TOP}/bindings/rust/epaxos/src"
PYTHON = f"{header.TOP}/bindings/python/epaxos.py"
BEGIN = "# tools/generate writes what follows, from bindings/c/epaxos.h.\n"
CODES = "# tools/generate writes what follows: the numbers of refusals (docs/FORMATS.md, section 7).\n"
END = "# What tools/generate writes ends here.\n"
# where the variants of Fault stand in fault.rs, and where their numbers do
VARIANTS = "    // `tools/generate` writes what follows: the refusals of a replica.\n"
NUMBERED = "            // `tools/generate` writes what follows: their numbers.\n"
ENDED = "// What `tools/generate` writes ends here.\n"
NUMBERS = {"uint8_t": "u8", "uint16_t": "u16", "uint32_t": "u32", "uint64_t": "u64", "size_t": "usize"}


def declared():
    """What the header declares: its version; each status with its number; each struct and each call, in one line."""
    with open(header.HEADER, encoding="utf-8") as file:
        version = re.search(r"#define EP_VERSION (\d+)", file.read())[1]
    text = " ".join(re.sub(r"/\*.*?\*/", "", header.written(), flags=re.DOTALL).split())
    statuses = re.findall(r"EP_(\w+) = (\d+)", text)
    structs = re.findall(r"struct \w+ \{ [^}]*; \};", text)
    calls = re.findall(r"\b\w+ ep_\w+\([^()]*\);", re.sub(r"static inline .*?\) \{", "", text))
    return version, statuses, structs, calls


def of_c(words):
    """A field's or a parameter's name, and its type in Rust: `const struct ep_setup *setup`."""
    const, struct, name, pointer, its = re.fullmatch(r"(const )?(struct ep_)?(\w+) (\*?)(\w+)", words).groups()
    kind = name.title().replace("_", "") if struct else NUMBERS.get(name, "u8")
    return its, f"*{'const' if const else 'mut'} {kind}" if pointer else kind


def rust_struct(text):
    """A struct in Rust. One that holds what the library has made isn't copied; one of numbers alone has a default."""
    name, body = re.fullmatch(r"struct ep_(\w+) \{ (.*); \};", text).groups()
    fields = [of_c(it) for it in body.split("; ")]
    is_handle, is_plain = ("at", "*mut u8") in fields, all(kind in NUMBERS.values() for _, kind in fields)
    traits = "Debug" if is_handle else "Clone, Copy, Debug" + ", Default" * is_plain
    lines = "".join(f"    pub(crate) {its}: {kind},\n" for its, kind in fields)
    head = f"/// `struct ep_{name}`\n#[repr(C)]\n#[derive({traits})]\n"
    return f"{head}pub(crate) struct {name.title().replace('_', '')} {{\n{lines}}}\n"


def rust_call(text):
    """A call in Rust, which is safe where nothing is handed to it."""
    result, name, words = re.fullmatch(r"(\w+) (ep_\w+)\((.*)\);", text).groups()
    given = [] if words == "void" else [": ".join(of_c(it)) for it in words.split(", ")]
    head = f"    pub(crate) {'' if given else 'safe '}fn {name}("
    back = f"){'' if result == 'void' else f' -> {NUMBERS[result]}'};\n"
    line = head + ", ".join(given) + back
    if len(line) <= header.WIDTH:
        return line
    return head + "\n" + "".join(f"        {it},\n" for it in given) + "    " + back


def rust(version, structs, calls):
    head = "//! What bindings/c/epaxos.h declares. `tools/generate` writes this file.\n"
    head += "#![allow(dead_code)]\n\n"
    about = f"/// What the header is of.\npub(crate) const VERSION: u32 = {version};\n\n"
    block = f'unsafe extern "C" {{\n{"".join(map(rust_call, calls))}}}\n'
    return head + about + "\n".join(map(rust_struct, structs)) + "\n" + block


def rust_statuses(statuses):
    head = "//! The statuses of bindings/c/epaxos.h. Where a fault has a name's number, that is its status.\n"
    head += "//! `tools/generate` writes this file.\n"
    lines = "".join(f"pub(crate) const {name}: u8 = {number};\n" for name, number in statuses)
    return f"{head}#![allow(dead_code)]\n#![forbid(unsafe_code)]\n\n{lines}"


def rust_fault(text, known):
    """fault.rs, which holds this, with the variants of the refusals and their numbers."""
    variants, numbers = "", ""
    for it in known:
        about = textwrap.wrap(it.about, header.WIDTH - len("    /// "))
        variants += "".join(f"    /// {line}\n" for line in about) + f"    {it.name}{'(Instance)' * it.has_instance},\n"
        numbers += f"            {it.number} => Fault::{it.name}{'(instance?)' * it.has_instance},\n"
    text = header.filled(text, VARIANTS, f"    {ENDED}", variants)
    return header.filled(text, NUMBERED, f"            {ENDED}", numbers)


def python(text, known, version, statuses, structs, calls):
    """epaxos.py, which holds this, with the numbers of refusals and what the header declares."""
    codes = "FAULTS = {\n" + "".join(f'    {it.number}: "{it.name}",\n' for it in known) + "}\n"
    numbers = [f"EP_{name} = {number}" for name, number in statuses]
    lines = [f"#define EP_VERSION {version}", *numbers, *structs, *calls]
    text = header.filled(text, CODES, END, codes)
    return header.filled(text, BEGIN, END, '_DECLARED = """\n' + "\n".join(lines) + '\n"""\n')


def files():
    """The path of each file, and what it has to hold."""
    version, statuses, structs, calls = declared()
    known, fault = refusals.table(), f"{RUST}/fault.rs"
    yield f"{RUST}/ffi/header.rs", rust(version, structs, calls).encode()
    yield f"{RUST}/status.rs", rust_statuses(statuses).encode()
    yield fault, rust_fault(header.read(fault), known).encode()
    yield PYTHON, python(header.read(PYTHON), known, version, statuses, structs, calls).encode()
