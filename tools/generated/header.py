"""Writes the statuses, structs and calls of bindings/c/epaxos.h from the sources of crates/ep_library, with their comments.

What stands before and behind the two lines that say so is written by hand.
"""

import os
import re
import textwrap

TOP = os.path.dirname(os.path.dirname(os.path.dirname(os.path.realpath(__file__))))
HEADER = f"{TOP}/bindings/c/epaxos.h"
SOURCES = f"{TOP}/crates/ep_library/src"
HANDLES = tuple(f"{TOP}/crates/ep_handle/src/{it}.rt" for it in ("handle", "patience_handle", "checkpoint_handle"))
BEGIN = "/* tools/generate writes what follows, from crates/ep_library/src. */\n"
END = "/* What tools/generate writes ends here. */\n"
# The files that have calls, in the order in which the header has them.
CALLS = ("life", "proposing", "events", "executing", "syncing", "answering", "succeeding", "bound", "patience")
CALLS += ("framing", "fronts", "openings", "references", "logs", "pairs", "planning", "alone")
# How C names what isn't named alike.
NAMES = {"Handle": "ep_replica", "PatienceHandle": "ep_patience", "CheckpointHandle": "ep_checkpoint", "Lent": "ep_bytes"}
NUMBERS = {"u8": "uint8_t", "u16": "uint16_t", "u32": "uint32_t", "u64": "uint64_t", "usize": "size_t", "*mut u8": "void *", "*const u8": "const uint8_t *"}
WIDTH = 120


class Unknown(Exception):
    """A form that C doesn't have, or that this tool doesn't know."""


def read(path):
    with open(path, encoding="utf-8") as file:
        return file.read()


def filled(text, begin, end, made):
    """A text with this between two of its lines."""
    before, rest = text.split(begin)
    behind = rest.split(end, 1)[1]
    return before + begin + made + end + behind


def struct_name(name):
    """How C names a struct."""
    return NAMES.get(name, "ep_" + re.sub(r"(?<=[a-z])(?=[A-Z])", "_", name).lower())


def doc(lines):
    """The text of a comment `///`."""
    return " ".join(re.sub(r"^\s*/// ?", "", it) for it in lines.splitlines()).strip()


def comment(text, indent=""):
    """A comment of C."""
    one = f"{indent}/* {text} */\n"
    if len(one) <= WIDTH:
        return one
    lines = textwrap.wrap(text, WIDTH - len(indent) - 6)
    return f"{indent}/* " + f"\n{indent}   ".join(lines) + " */\n"


def declared(kind, name):
    """A declaration of a name, of a type as Rattle spells it."""
    kind = re.sub(r"<'_>|<'a>|'a ", "", kind).strip()
    if kind == "&[u8]":
        return f"const uint8_t *{name}, size_t {name}_len"
    if kind == "&mut [u8]":
        return f"uint8_t *{name}, size_t {name}_len"
    if many := re.fullmatch(r"&\[(\w+)\]", kind):
        return f"const struct {struct_name(many[1])} *{name}, size_t {name}_len"
    lent = re.fullmatch(r"&(mut )?(\w+)", kind)
    if lent and lent[2] in NUMBERS:
        return f"{'' if lent[1] else 'const '}{NUMBERS[lent[2]]} *{name}"
    if lent:
        return f"{'' if lent[1] else 'const '}struct {struct_name(lent[2])} *{'replica' if lent[2] == 'Handle' else name}"
    if kind in NUMBERS:
        return f"{NUMBERS[kind]}{'' if NUMBERS[kind].endswith('*') else ' '}{name}"
    if re.fullmatch(r"[A-Z]\w+", kind):
        return f"struct {struct_name(kind)} {name}"
    raise Unknown(f"{name}: {kind}")


def field(kind, name):
    """The same of a struct's field."""
    return f"struct ep_bytes {name}" if kind.replace("'a ", "") == "&[u8]" else declared(kind, name)


def structs(text):
    """The structs that C knows, of a source: each by its name, and how C declares it."""
    for about, name, body in re.findall(r"((?:^///[^\n]*\n)+)#\[repr\(C\)\]\n(?:#\[[^\n]*\n)*pub struct (\w+)(?:<'a>)? \{\n((?:[^}\n][^\n]*\n|\n)*)\}", text, re.M):
        fields = re.findall(r"((?:^ +///.*\n)*)^ +(?:pub )?(\w+): (.*),\n", re.sub(r"^ +pub ghost .*\n", "", body, flags=re.M), re.M)
        made = "".join((comment(doc(said), "    ") if said else "") + f"    {field(kind, its)};\n" for said, its, kind in fields)
        yield name, comment(doc(about)) + f"struct {struct_name(name)} {{\n{made}}};\n"


def found_statuses():
    """The statuses: the comment of each, its name and its number."""
    return re.findall(r"((?:^///.*\n)+)pub\(crate\) const (\w+): u8 = (\d+);", read(f"{SOURCES}/status.rt"), re.M)


def statuses():
    """The statuses, as C declares them."""
    found = found_statuses()
    lines = "".join(comment(doc(said), "    ") + f"    EP_{name} = {value},\n" for said, name, value in found)
    return f"/* Statuses. Those below 16 are the numbers of the faults' names (docs/FORMATS.md, section 7). */\nenum {{\n{lines.rstrip().rstrip(',')}\n}};\n\n{status_names(it[1] for it in found)}"


def status_names(names):
    """A function of C that has the statuses' names."""
    cases = "".join(f'    case EP_{name}:\n        return "EP_{name}";\n' for name in names)
    head = "/* The name of a status, such as \"EP_MEMORY\"; of a number that is none, \"EP_UNKNOWN\". */\nstatic inline const char *ep_status_name(uint8_t status)\n"
    return f'{head}{{\n    switch (status) {{\n{cases}    default:\n        return "EP_UNKNOWN";\n    }}\n}}\n'


def prototypes(text):
    """The calls of a source, as C declares them."""
    form = r'((?:^///.*\n)+)(?:#\[tactic.*\n)?#\[unsafe\(no_mangle\)\]\npub extern "C" fn (\w+)\(([^)]*)\)(?: -> (\w+))?'
    for said, name, words, result in re.findall(form, text, re.M):
        parameters = [it.split(": ", 1) for it in re.split(r",\s*", words.strip().rstrip(",")) if it]
        given = ", ".join(declared(kind, its) for its, kind in parameters if kind != "Global") or "void"
        head = f"{NUMBERS[result] if result else 'void'} {name}("
        line = f"{head}{given});\n"
        if len(line) > WIDTH:
            line = fold(head, given.split(", "))
        yield comment(doc(said)) + line


def fold(head, words):
    """A call over several lines."""
    lines, line = [], head
    for at, word in enumerate(words):
        word += ");" if at == len(words) - 1 else ","
        if len(line) + len(word) + 1 > WIDTH:
            lines.append(line.rstrip())
            line = " " * len(head)
        line += word + " "
    return "\n".join([*lines, line.rstrip()]) + "\n"


def written():
    """What the header has between its two lines."""
    files = {it[: -len(".rt")]: read(f"{SOURCES}/{it}") for it in sorted(os.listdir(SOURCES)) if it.endswith(".rt")}
    known = dict(it for path in HANDLES for it in structs(read(path)))
    for text in files.values():
        known |= dict(structs(text))
    # (a struct that has another comes behind it)
    parts = [known.pop("Handle"), known.pop("PatienceHandle"), known.pop("Lent"), *(known[it] for it in sorted(known)), statuses()]
    for name, text in files.items():
        calls = list(prototypes(text))
        if calls and name not in CALLS:
            raise Unknown(f"{name}.rt has calls, and CALLS of tools/generated/header.py doesn't name it")
    for name in CALLS:
        title = re.match(r"//! (.*)\.\n", files[name])[1]
        parts += [f"/* ---- {title} ---- */\n", *prototypes(files[name])]
    return "\n" + "\n".join(parts) + "\n"


def files():
    """The path of the header, and what it has to hold."""
    yield HEADER, filled(read(HEADER), BEGIN, END, written()).encode()
