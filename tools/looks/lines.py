"""Whether lines of code are at most 120 columns wide.

.ci/long-lines.txt has the files that have longer lines, each with their number: there may be fewer, and no more. `tools/tidy --long` writes it anew. Edits of
wrong bodies aren't counted, nor imports of Rattle, which its formatter writes on one line each.
"""

import os
import re

WIDTH = 120
LIST = ".ci/long-lines.txt"
HEAD = f"# Files that have lines of more than {WIDTH} columns, and how many. tools/tidy --long writes this.\n"
IMPORT = re.compile(r"\s*(?:ghost )?(?:pub )?use Rattle\.")
CODE = re.compile(r"\.(?:rt|antt|py|rs|c|h|html|sh|rt\.txt)$")


def is_code(path):
    """Whether a file is code: by its name, or by its first line."""
    if CODE.search(path):
        return True
    if "." in os.path.basename(path):
        return False
    with open(path, "rb") as file:
        return file.read(2) == b"#!"


def longer(files):
    """How many lines of each file are longer, where one is."""
    for path in sorted(filter(is_code, files)):
        with open(path, encoding="utf-8") as file:
            count = sum(len(line.rstrip("\n")) > WIDTH and not IMPORT.match(line) for line in file)
        if count:
            yield path, count


def listed():
    """How many the list has of each file."""
    with open(LIST, encoding="utf-8") as file:
        return {path: int(count) for count, path in (it.split() for it in file if not it.startswith("#"))}


def write(files):
    """Writes the list."""
    lines = [f"{count} {path}\n" for path, count in longer(files)]
    with open(LIST, "w", encoding="utf-8") as file:
        file.write(HEAD + "".join(lines))


def faults(files):
    """Files that have more longer lines than the list says."""
    known = listed()
    for path, count in longer(files):
        if count > known.get(path, 0):
            yield f"{path} has {count} lines of more than {WIDTH} columns, and {known.get(path, 0)} in {LIST}"
