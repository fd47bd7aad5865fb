"""Static libraries: how `rt try`, which knows programs alone, is had to compile one without its proofs; and what others link, of one that is proved or not."""

import glob
import os
import re
import shutil
import subprocess

# Behind an export's name stand its parameters.
EXPORT = re.compile(r'^#\[unsafe\(no_mangle\)\]\npub extern "C" fn (\w+)\(', re.MULTILINE)
# What distinguishes a library that isn't proved from one that is.
MARK = "ep_unproved"
# The program: it is compiled and never run.
PROGRAM = """
fn ep_any<T>() -> T {{
    loop {{}}
}}

/// Tells whoever has the library that it isn't proved.
#[unsafe(no_mangle)]
pub extern "C" fn {mark}() -> u8 {{
    1
}}

fn main(_rt: HostRuntime) -> std::process::ExitCode {{
{calls}    std::process::ExitCode::SUCCESS
}}
"""


def parameters(text, at):
    """The types of the parameters that stand from here on, up to the bracket that ends them."""
    depth, begin, found = 1, at, []
    while depth:
        depth += (text[at] in "([<") - (text[at] in ")]>")
        if depth == 1 and text[at] == "," or not depth:
            found.append(text[begin:at].partition(":")[2].strip())
            begin = at + 1
        at += 1
    return [it for it in found if it]


def exports_of(folder):
    """The exports of the crate in the folder, each with its path in the crate and the types of its parameters; and its C structs, each with the types of its fields."""
    exports, structs = {}, {}
    for path in sorted(glob.glob(f"{folder}/src/**/*.rt", recursive=True)):
        module = os.path.relpath(path, f"{folder}/src")[:-3].replace("/", "::")
        with open(path, encoding="utf-8") as file:
            text = file.read()
        for it in EXPORT.finditer(text):
            exports[it[1]] = it[1] if module == "lib" else f"{module}::{it[1]}", parameters(text, it.end())
        for name, body in re.findall(r"^#\[repr\(C\)\]\n(?:#\[.*\]\n)*pub struct (\w+) \{(.*?)^\}", text, re.MULTILINE | re.DOTALL):
            structs[name] = re.findall(r"^ *pub \w+: (.*),$", body, re.MULTILINE)
    return exports, structs


def as_program(top, name, to):
    """Makes a folder like the repository's, in which the static library is a program that reaches all of its exports."""
    folder, made = f"{top}/crates/{name}", f"{to}/crates/{name}"
    for it in os.listdir(f"{top}/crates"):
        if os.path.isdir(f"{top}/crates/{it}/src"):
            shutil.copytree(f"{top}/crates/{it}/src", f"{to}/crates/{it}/src")
    os.remove(f"{made}/src/lib.rt")
    with open(f"{top}/crates.txt", encoding="utf-8") as file:
        rows = re.sub(rf"^({name}) +staticlib\b", r"\1", file.read(), flags=re.MULTILINE)
    with open(f"{to}/crates.txt", "w", encoding="utf-8") as file:
        file.write(rows)
    exports, _ = exports_of(folder)
    # (the compiler infers what each is called with)
    calls = [f"    {path}({', '.join(['ep_any()'] * len(types))});\n" for path, types in (*exports.values(), (MARK, ""))]
    with open(f"{folder}/src/lib.rt", encoding="utf-8") as file:
        text = file.read() + PROGRAM.format(mark=MARK, calls="".join(calls))
    with open(f"{made}/src/main.rt", "w", encoding="utf-8") as file:
        file.write(text)


def in_one(types):
    """How many bits a struct of such fields has, and at which bit each of them begins. (C hands on a struct of at most 8 bytes in one number.)"""
    sizes, end, places = {"u8": 1, "u16": 2, "u32": 4, "u64": 8, "usize": 8}, 0, []
    for it in types:
        end += -end % sizes[it]
        places.append(8 * end)
        end += sizes[it]
    end += -end % max(sizes[it] for it in types)
    if end > 8:
        raise ValueError("a struct of more than 8 bytes is no parameter")
    return 8 * end, places


def as_in_c(header, name, inner, types, structs):
    """The export as C calls it, where it takes structs: the module's own function is given their fields one by one."""
    result, words, group = re.fullmatch(r"(?:noundef )?(\w+) [^(]*\((.*)\) (#\d+)", header).groups()
    flat = [it.split()[0] for it in words.split(", ")]
    taken, given, body = [], [], []
    for at, it in enumerate(types):
        if it not in structs:
            for _ in range(0 if it == "Global" else 2 if re.match(r"&(mut )?\[", it) else 1):
                taken.append(f"{flat[len(given)]} %p{len(given)}")
                given.append(taken[-1])
            continue
        bits, places = in_one(structs[it])
        taken.append(f"i{bits} %s{at}")
        for place in places:
            body += [f"  %h{len(given)} = lshr i{bits} %s{at}, {place}", f"  %f{len(given)} = trunc i{bits} %h{len(given)} to {flat[len(given)]}"]
            given.append(f"{flat[len(given)]} %f{len(given)}")
    body += [f"  %r = call {result} {inner}({', '.join(given)})", f"  ret {result} %r"]
    return f"define {result} @{name}({', '.join(taken)}) {group} {{\n" + "\n".join(body) + "\n}\n"


def library_module(text, name, folder):
    """The text of the program's module as that of the static library in the folder: with its exports, and without the program's beginning."""
    text, count = re.subn(r"^define i32 @main\(.*?^}\n", "", text, flags=re.MULTILINE | re.DOTALL)
    if count != 1:
        raise ValueError("the module has no main")
    exports, structs = exports_of(folder)
    headers = "\n".join(re.findall(rf'^define internal .*@"{name}::[\w:]+"\(.*$', text, re.MULTILINE))
    for it, (_, types) in {**exports, MARK: (MARK, [])}.items():
        found = re.findall(rf'^define internal (.*(@"{name}::(?:\w+::)*{it}")\(.*#\d+) \{{$', headers, re.MULTILINE)
        if len(found) != 1:
            raise ValueError(f"the module has {it} {len(found)} times")
        header, inner = found[0]
        if set(types) & set(structs):
            text += as_in_c(header, it, inner, types, structs)
        else:
            text = text.replace(f"define internal {header}", f"define {header}").replace(inner, f"@{it}")
    return text


def make_archive(kit, made, to):
    """Makes an archive of an object, or of another archive, and of what the kit's allocator calls in C. Returns what was said where it isn't made."""
    words = [f"{kit}/toolchain/bin/llvm-ar", "qLcs", to, made, f"{kit}/c/liblibc_c.a"]
    ran = subprocess.run(words, stdin=subprocess.DEVNULL, capture_output=True, text=True, check=False)
    return ran.stdout + ran.stderr if ran.returncode else ""


def make_shared(kit, archive, to):
    """Makes a shared library of the archive: only what begins with ep_ is seen from without. Returns what was said where it isn't made."""
    with open(f"{to}.names", "w", encoding="utf-8") as file:
        file.write("{ global: ep_*; local: *; };\n")
    words = ["-shared", "-z", "now", "-z", "relro", "--gc-sections", "-soname", os.path.basename(to), "--version-script", f"{to}.names"]
    words += ["--whole-archive", archive, "-o", to]
    ran = subprocess.run([f"{kit}/toolchain/bin/ld.lld", *words], stdin=subprocess.DEVNULL, capture_output=True, text=True, check=False)
    os.remove(f"{to}.names")
    return ran.stdout + ran.stderr if ran.returncode else ""
