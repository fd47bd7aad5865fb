"""Whether something reads each file.

rt reads definitions, proofs and edits, and of modules those that `mod` names, as cargo does; a module may also be named as a file. Go reads the files of a
package. The rows read what .ci/rows.py says. A page is linked from
another one. Any other file has to be named by another file, by its name or, where it is a module of Python, by that.
"""

import collections
import os
import re

# what is read for where it stands
PLACED = re.compile(
    r"crates/\w+/(?:specs|proofs)/.*\.antt|tests/\w+/proofs/.*|crates/\w+/(?:wrong\.edits|must-fail/[\w.-]+\.edit)"
    r"|\.ci/rows/[\w.-]+\.row|(?:examples|\.ci/scripts)/[\w.-]+\.(?:script|run)"
    r"|(?:.*/)?(?:README\.md|LICENSE|CHANGELOG\.md|CONTRIBUTING\.md|\.gitignore|pyproject\.toml|Cargo\.toml|Cargo\.lock|rustfmt\.toml)"
    r"|clients/go/\w+\.go|wip/[\w.-]+\.(?:patch|py)|(?:.*/)?src/(?:.*/)?(?:main|lib)\.r[st]|(?:.*/)?(?:tests|examples|benches|bin)/\w+\.rs|(?:.*/)?build\.rs|(?:tests|examples)/\w+/lib\.rt\.txt|.*/start\.data"
)
# what stands beside a script
BESIDE = re.compile(r"((?:examples|\.ci/scripts)/[\w.-]+)\.(?:report|trace|mmd|dot)(?:\.gz)?")
# modules, of which another file has to say `mod`
MODULE = re.compile(r"(.*/)?(\w+)\.(?:rt|rs|rt\.txt)")
MOST = 2_000_000


def text(path):
    """The text of a file, or nothing where it has none or is large."""
    if os.path.getsize(path) > MOST:
        return ""
    with open(path, "rb") as file:
        return file.read().decode(errors="ignore")


def names(path):
    """The names by which another file may name this one."""
    name = os.path.basename(path)
    return {name, name.removesuffix(".py")}


def mentioned(files):
    """Which files name each of these names, and which modules are declared in each folder."""
    wanted = {name for it in files for name in names(it)}
    by, modules = collections.defaultdict(set), set()
    for path in files:
        held = text(path)
        for name in wanted & {*re.findall(r"[\w.-]*\w", held)}:
            by[name].add(path)
        if MODULE.fullmatch(path):
            folder = os.path.dirname(path)
            modules |= {(folder, it) for it in re.findall(r"(?m)^\s*(?:pub(?:\([^)]*\))? )?mod (\w+)[;{ ]", held)}
    return by, modules


def is_module_read(path, modules):
    """Whether a file beside it, or above, declares the module."""
    folder, name = os.path.split(path)
    name = name.partition(".")[0]
    if name == "mod":
        folder, name = os.path.split(folder)
    while folder:
        if (folder, name) in modules:
            return True
        folder = os.path.dirname(folder)
    return False


def faults(files):
    """Files that nothing reads."""
    by, modules = mentioned(files)
    for path in sorted(files):
        beside = BESIDE.fullmatch(path)
        if PLACED.fullmatch(path) or beside and {f"{beside[1]}.script", f"{beside[1]}.run"} & files:
            continue
        is_module = MODULE.fullmatch(path) and is_module_read(path, modules)
        if not is_module and not any(by[it] - {path} for it in names(path)):
            yield f"{path}: nothing reads it"
