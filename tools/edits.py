"""Wrong bodies, the blocks of crates/NAME/wrong.edits: what an edit changes, and what the check of it stands on.

A block begins with a line `-- NAME --`. Behind it stand a line that says whose promise the edit turns, and the lines
`file:`, `old:` and `new:`.
"""

import functools
import glob
import hashlib
import os
import re
from dataclasses import dataclass, field

from kit import KIT


@functools.lru_cache(maxsize=None)
def read(path):
    """The text of a file."""
    with open(path, encoding="utf-8") as it:
        return it.read()


def pairs_of(text):
    """The edit's pairs, in order: a file of the crate, the text that stands there, and the one in its place."""
    file, old, found = "", None, []
    for line in text.split("\n"):
        if line.startswith("file: "):
            file = line[len("file: ") :].strip()
        elif line.startswith("old: "):
            old = line[len("old: ") :]
        elif line.startswith("new:") and old:
            found.append((file, old, line[len("new:") :].removeprefix(" ")))
            old = None
    return found


def module_of(file):
    """The path of a source file's module below its crate."""
    return re.sub(r"(?:^|::)(?:lib|main|mod)$", "", file.removeprefix("src/").removesuffix(".rt").replace("/", "::"))


@dataclass
class Function:
    """A function of a source file: its name, the type (with the trait, if it is a trait's) in whose `impl` it stands, from where to where, and where the
    text between its body's braces begins and ends, if it has a body."""

    name: str
    inside: str
    is_of_trait: bool
    starts: int
    ends: int
    body: tuple


ITEM = re.compile(r'(?m)^( *)(?:pub(?:\([^)]*\))? )?(?:const )?(?:unsafe )?(?:extern "C" )?(?:fn (\w+)|trait (\w+)|impl\b(.*?)(?:\{|$))')


@functools.lru_cache(maxsize=None)
def functions_in(text):
    """The functions of a source file. (rt fmt lays files out, so an item ends at the next `}` that stands as far in.)"""
    found, inside, is_of_trait, until = [], "", False, 0
    for one in ITEM.finditer(text):
        ends = re.compile(rf"(?m)^{one[1]}(?:\}}|\{{\}}$)").search(text, one.end())
        if not ends:
            continue
        if one[2]:
            is_in = one.start() < until
            # (below clauses a body's brace stands alone; a trait's method without a body ends at a `;` before any brace)
            opens = re.compile(rf"(?m)^{one[1]}\{{$").search(text, one.end(), ends.end()) or re.compile(r"(?m)\{$").search(text, one.end(), ends.end())
            bare = re.compile(r"(?m);$").search(text, one.end(), opens.start() if opens else ends.end())
            opens, ends = (None, bare) if bare else (opens, ends)
            body = (opens.end(), ends.start()) if opens and opens.end() <= ends.start() else ()
            found.append(Function(one[2], inside if is_in else "", is_in and is_of_trait, one.start(), ends.end(), body))
        elif one[3]:
            inside, is_of_trait, until = "", True, ends.end()
        else:
            head = re.sub(r"<[^<>]*(?:<[^<>]*>[^<>]*)*>", "", one[4].replace("->", "")).strip()
            of, _, kind = head.partition(" for ")
            inside = (kind.split(" where")[0].strip() + of.strip().split("::")[-1]) if kind else of.split(" where")[0].strip()
            is_of_trait, until = bool(kind), ends.end()
    return found


def parts_of(text):
    """A source file in two lists: what stands before, between and behind the bodies of its functions, and these bodies."""
    cuts = [0]
    for it in functions_in(text):
        if it.body and it.starts >= cuts[-1]:
            cuts += it.body
    cuts.append(len(text))
    texts = [text[a:b] for a, b in zip(cuts, cuts[1:])]
    return texts[::2], texts[1::2]


def name_in(file, function):
    """The function's name as `rattle check --only` takes it: a method's with its type, any other with its module."""
    return "::".join(filter(None, [function.inside or module_of(file), function.name]))


def function_at(file, text, at):
    """The name of the function in which the place of a source file stands, or None."""
    found = [it for it in functions_in(text) if it.starts <= at < it.ends]
    return name_in(file, found[-1]) if found else None


@dataclass
class Edit:
    """A wrong body: the functions that it changes, or none where it changes something else than bodies."""

    crate: object
    name: str
    text: str
    pairs: list = field(default_factory=list)
    functions: list = field(default_factory=list)

    def label(self):
        return f"{self.crate.name}/{self.name}"

    def apply(self, texts):
        """The files' texts with the edit in them, or None where a text stands there not just once; notes the functions that it changes."""
        made, changed, is_whole = dict(texts), [], False
        for file, old, new in self.pairs:
            if file not in made:
                made[file] = read(f"{self.crate.folder}/{file}")
            if made[file].count(old) != 1:
                return None
            at = made[file].find(old)
            function = function_at(file, made[file], at) if file.startswith("src/") else None
            # (a function that the edit adds is one that it changes)
            added = {*re.findall(r"\bfn (\w+)", new)} - {*re.findall(r"\bfn (\w+)", old)}
            changed, is_whole = changed + [it for it in (function, *sorted(added)) if it], is_whole or not (function or added)
            made[file] = made[file].replace(old, new)
        self.functions = [] if is_whole else [*dict.fromkeys(changed)]
        return made


def edit(crate, name, text):
    made = Edit(crate, name, text.rstrip("\n"), pairs_of(text))
    made.apply({})
    return made


def blocks_of(crate):
    """What stands before the blocks of the crate's wrong.edits, which is to be nothing, and these, each a name and a text."""
    path = f"{crate.folder}/wrong.edits"
    before, *parts = re.split(r"(?m)^-- (\S+) --\n", read(path)) if os.path.isfile(path) else [""]
    return before, [*zip(parts[::2], parts[1::2])]


def edits_of(crate):
    """The edits of the crate's wrong.edits."""
    return [edit(crate, *it) for it in blocks_of(crate)[1]]


def edits_below(crate, folder):
    """The crate's edits that are files of this folder, as rt reads them in must-fail/."""
    paths = sorted(glob.glob(f"{crate.folder}/{folder}/*.edit"))
    return [edit(crate, os.path.basename(it).removesuffix(".edit"), read(it)) for it in paths]


def sum_of(what):
    """A sum of what this prints as."""
    return hashlib.sha256(repr(what).encode(errors="surrogateescape")).hexdigest()


def files_below(folder):
    """The paths of all files below the folder."""
    return sorted(f"{at}/{it}" for at, _, names in os.walk(folder) for it in names)


@functools.lru_cache(maxsize=None)
def statements_of(crate):
    """A sum of what the checks of other functions stand on: the crate's definitions, its lemmas, and its sources without the bodies of functions."""
    lemmas = [it for it in files_below(f"{crate.folder}/proofs") if os.path.dirname(it) == f"{crate.folder}/proofs"]
    sources = [(it, parts_of(read(it))[0]) for it in files_below(f"{crate.folder}/src")]
    texts = [*((it, read(it)) for it in (*files_below(f"{crate.folder}/specs"), *lemmas)), *sources]
    return sum_of((crate.name, [it.name for it in crate.deps], [(path.removeprefix(crate.folder), text) for path, text in texts]))


@functools.lru_cache(maxsize=None)
def folders_of_proofs(crate):
    """The folders of the crate's proofs, by the function's name, with what is in each file of them."""
    found = {}
    for path in files_below(f"{crate.folder}/proofs"):
        inside = os.path.relpath(path, f"{crate.folder}/proofs")
        found.setdefault(os.path.basename(os.path.dirname(inside)), []).append((inside, read(path)))
    return found


@functools.lru_cache(maxsize=None)
def whole_of(crate):
    """A sum of all files that a check of the crate reads."""
    return sum_of([(path.removeprefix(crate.folder), read(path)) for part in KIT.rtlib.PARTS for path in files_below(f"{crate.folder}/{part}")])


def statements_below(crate):
    """A sum of what all crates below state."""
    return sum_of([statements_of(it) for it in crate.below()])


def stands_on(it):
    """What the check of the edit stands on, by three sums: of the edit with the functions that it changes and their proofs; of its crate's statements; and of
    those of the crates below. An edit of more than bodies stands on the whole crate."""
    texts = [(file, read(f"{it.crate.folder}/{file}")) for file in dict.fromkeys(file for file, _, _ in it.pairs) if file.startswith("src/")]
    bodies = [(file, one.name, text[one.starts : one.ends]) for file, text in texts for one in functions_in(text) if name_in(file, one) in it.functions]
    proofs = [folders_of_proofs(it.crate).get(name.rpartition("::")[2]) for name in it.functions]
    own = (bodies, proofs) if it.functions else whole_of(it.crate)
    return sum_of((it.label(), it.pairs, own)), statements_of(it.crate), statements_below(it.crate)
