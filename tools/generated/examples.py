"""Writes beside each script in examples/ its trace, NAME.trace, and its diagram for Mermaid, NAME.mmd, and graph for Graphviz, NAME.dot,
where it has one, by the programs as they are built.

The gate compares them too, by both compilers (.ci/rows.py). A diagram stands in pages too (tools/tidy looks). Whoever changes what they say reads the new
ones before they are committed.
"""

import os

from calls import TOP, written

FOLDER = f"{TOP}/examples"


def made(stem):
    """What is made of a script: each file's ending, and its bytes."""
    with open(f"{FOLDER}/{stem}.script", "rb") as it:
        script = it.read()
    files = {"trace": written(["trace"], script)}
    for ending, way in (("mmd", "--mermaid"), ("dot", "--dot")):
        if os.path.isfile(f"{FOLDER}/{stem}.{ending}"):
            files[ending] = written(["draw", way], written(["replay", "--emit", "bundle"], script))
    return files


def files():
    """The path of each, and what it has to hold."""
    for stem in sorted(it.removesuffix(".script") for it in os.listdir(FOLDER) if it.endswith(".script")):
        for ending, text in made(stem).items():
            yield f"{FOLDER}/{stem}.{ending}", text
