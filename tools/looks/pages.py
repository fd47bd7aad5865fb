"""Whether each page names only files that are there, and has no more bytes than it may, nor all of them together.

A page is a file NAME.md, wherever it stands. A name is the target of a link, or a text in `...` that has
a `/` and begins with a folder of the repository, or the word after such a folder's name in an example of a shell. A text with a word for any name,
as `crates/NAME`, with `my_..`, `*` or `..` stands for many, and has to fit at least one file; what a build makes (out/, target/) need not be there.
An anchor of a link has to be the heading of its page, and a diagram for Mermaid a file examples/NAME.mmd.
A page that a release has links to what that has, or to what is known to be of the sources alone.
"""

import fnmatch
import glob
import os
import re
import sys

TOOLS = os.path.dirname(os.path.dirname(os.path.realpath(__file__)))
sys.path.append(TOOLS)
from loaded import loaded

# The most bytes that a page may have, and all together.
MOST, MOST_OF_ALL = {"README.md": 8192}, 270_000
# What a build makes.
MADE = re.compile(r"(^|/)(out|target)(/|$)")
# A part of a name that stands for any.
ANY = re.compile(r"\bmy_\w+|\b(?:NAME|CRATE|F|PROGRAM|DIR|FILE|R|SEED|\.\.)\b|<\w+>|\{\w+\}|\*+")


def pages(files):
    """The pages, by their paths from the top."""
    return sorted(it for it in files if it.endswith(".md"))


def with_folders(files):
    """Each file of the repository and each folder that has one."""
    found = {*files}
    for it in files:
        while it := os.path.dirname(it):
            found.add(it)
    return found


def is_there(name, found):
    """Whether a file or folder has the name, or fits it."""
    name = name.rstrip("/")
    if MADE.search(name) or name in found:
        return True
    wild = ANY.sub("*", name)
    return wild != name and bool(fnmatch.filter(found, wild))


def anchor(heading):
    """The anchor of a heading."""
    return re.sub(r"[^\w\- ]", "", heading.strip().lower().replace("`", "")).replace(" ", "-")


def anchors(page):
    with open(page, encoding="utf-8") as file:
        text = re.sub(r"^```.*?^```", "", file.read(), flags=re.M | re.S)
    return {anchor(it) for it in re.findall(r"^#+ (.*)$", text, re.M)}


def links(text):
    """The targets of a page's links."""
    yield from re.findall(r"\]\(([^)\s]+)\)", text)


def names(text, folders):
    """The names of files that stand in a page's text."""
    spans = [*re.findall(r"`([^`\n]+)`", text), *re.findall(r"^(?:    |\t)(.*)$", text, re.M), *(line for it in re.findall(r"^```(?:sh|shell|bash)?\n(.*?)^```", text, re.M | re.S) for line in it.split("\n"))]
    for span in spans:
        for word in re.findall(r"[\w./*<>{}-]+", span):
            word = re.sub(r"^\./", "", word).rstrip(".,:;")
            if "/" in word and word.split("/")[0] in folders:
                yield word


def wrong(page, found, released, sources):
    """What is wrong with a page. `released`: what a release has; `sources`: what is of the sources alone."""
    with open(page, encoding="utf-8") as file:
        text = file.read()
    size = len(text.encode())
    if size > MOST.get(page, size):
        yield f"{page} has {size} bytes, and may have {MOST[page]}"
    kept = [held(it) for it in glob.glob("examples/*.mmd")]
    for it in diagrams(text):
        if it not in kept:
            yield f"{page} has a diagram that is no examples/NAME.mmd: {it[:60]!r}"
    folders = {it.split("/")[0] for it in found if "/" in it}
    for name in sorted({*names(text, folders)}):
        if not is_there(name, found):
            yield f"{page} names {name}, which isn't there"
    for target in sorted({*links(text)}):
        path, _, place = target.partition("#")
        if "://" in target:
            continue
        path = os.path.normpath(os.path.join(os.path.dirname(page), path)) if path else page
        if not is_there(path, found):
            yield f"{page} links to {target}, which isn't there"
        elif page in released and path not in released and not path.startswith(sources):
            yield f"{page} links to {target}, which a release doesn't have"
        elif place and path.endswith(".md") and place not in anchors(path):
            yield f"{page} links to {target}, and {path} has no such heading"


def diagrams(text):
    """The diagrams for Mermaid that stand in a page."""
    return re.findall(r"^```mermaid\n(.*?)^```$", text, re.M | re.S)


def held(path):
    with open(path, encoding="utf-8") as file:
        return file.read()


def faults(files):
    """What is wrong with the pages."""
    found = with_folders(files)
    release = loaded("make_release", f"{TOOLS}/release")
    released = with_folders(release.copied())
    size = sum(map(os.path.getsize, pages(files)))
    if size > MOST_OF_ALL:
        yield f"all pages together have {size} bytes, and may have {MOST_OF_ALL}"
    for page in pages(files):
        yield from wrong(page, found, released, release.OF_SOURCES)
