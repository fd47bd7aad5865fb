"""Writes beside each diagram for Mermaid in examples/, NAME.mmd, a picture of it, NAME.svg: a line for each replica,
time going down, an arrow for each message, which ends in a cross where nobody handled it.

A script for `epaxos run` has no diagram, as its threads take another order each time: its picture is of one run, by the
programs as they are built, and stays as it is where there is one.
"""

import os
import re
from html import escape

from calls import TOP, written

FOLDER = f"{TOP}/examples"
# in pixels: from one replica's line to the next, to the first one's, from one line of text to the next; a letter
APART, LEFT, DOWN, LETTER = 190, 100, 17, 6.6
STYLE = (
    "text{font:12px sans-serif;text-anchor:middle}.over{paint-order:stroke;stroke:#fff;stroke-width:5px}"
    "line{stroke:#456}.life{stroke:#bbb}rect{fill:#fff}.note{fill:#ffd;stroke:#aa8}"
)
HEAD = (
    '<defs><marker id="a" refX="8" refY="4" markerWidth="9" markerHeight="8" orient="auto">'
    f'<path d="M0 0L8 4L0 8z" fill="#456"/></marker></defs><style>{STYLE}</style>'
)


def read(path):
    with open(path, encoding="utf-8") as file:
        return file.read()


def words(text):
    """The lines of a label: escapes read, and what is long cut short."""
    plain = re.sub(r"#(\d+);", lambda it: chr(int(it[1])), text)
    return [re.sub(r"([0-9a-f]{8})[0-9a-f]{56}", r"\1..", it) for it in plain.split("<br/>")]


def label(x, y, lines, form=""):
    """Lines of text, one below the other."""
    return "".join(f'<text{form} x="{x:g}" y="{y + at * DOWN:g}">{escape(it)}</text>' for at, it in enumerate(lines))


def note(at, y, lines):
    """A note at a replica's line: its elements, how high it is, and where it ends."""
    wide, high = max(len(it) for it in lines) * LETTER + 14, len(lines) * DOWN + 6
    # (what is wide goes to the right of the first replicas)
    left = max(4, LEFT + at * APART - wide / 2)
    box = f'<rect class="note" x="{left:g}" y="{y:g}" width="{wide:g}" height="{high}"/>'
    return box + label(left + wide / 2, y + DOWN - 2, lines), high + 8, left + wide


def arrow(ends, y, lines, is_lost):
    """A message from one replica to another: its elements, and how high it is."""
    begin, end = (LEFT + it * APART for it in ends)
    way = 1 if end > begin else -1
    below = y + DOWN * len(lines) + 2
    line = f'<line x1="{begin}" y1="{below}" x2="{end - way * (12 if is_lost else 1)}" y2="{below}"'
    drawn = line + ("/>" if is_lost else ' marker-end="url(#a)"/>')
    if is_lost:
        x = end - way * 12
        drawn += "".join(f'<line x1="{x - 4}" y1="{below - it}" x2="{x + 4}" y2="{below + it}"/>' for it in (4, -4))
    return label((begin + end) / 2, y + DOWN - 4, lines, ' class="over"') + drawn, DOWN * len(lines) + 10


def drawn(diagram):
    """The picture of a diagram."""
    names, parts, y, wide = re.findall(r"participant r\d as (.*)", diagram), [], 34, 0
    for line in diagram.splitlines():
        if it := re.fullmatch(r"  Note over r(\d): (.*)", line):
            part, high, right = note(int(it[1]), y, words(it[2]))
            wide = max(wide, right)
        elif it := re.fullmatch(r"  r(\d)(->>|--x)r(\d): (.*)", line):
            part, high = arrow((int(it[1]), int(it[3])), y, words(it[4]), it[2] == "--x")
        else:
            continue
        parts.append(part)
        y += high
    wide, y = max(wide + 4, 2 * LEFT + (len(names) - 1) * APART), y + 10
    places = [LEFT + at * APART for at in range(len(names))]
    lives = "".join(f'<line class="life" x1="{it}" y1="26" x2="{it}" y2="{y:g}"/>' for it in places)
    heads = "".join(label(at, 18, [it]) for at, it in zip(places, names))
    size = f'viewBox="0 0 {wide:g} {y:g}" width="{wide:g}" height="{y:g}"'
    ground = f'<rect width="{wide:g}" height="{y:g}"/>'
    whole = f'<svg xmlns="http://www.w3.org/2000/svg" {size}>{HEAD}{ground}{heads}{lives}{"".join(parts)}</svg>\n'
    return whole.replace("><", ">\n<")


def of_run(path):
    """The diagram of one run of a script for `run`."""
    return written(["draw", "--mermaid"], written(["run", "--emit", "bundle"], read(path).encode())).decode()


def files():
    """The path of each, and what it has to hold."""
    for name in sorted(os.listdir(FOLDER)):
        stem, ending = os.path.splitext(name)
        path = f"{FOLDER}/{stem}.svg"
        if ending == ".mmd":
            yield path, drawn(read(f"{FOLDER}/{name}")).encode()
        elif ending == ".run" and not os.path.isfile(path):
            yield path, drawn(of_run(f"{FOLDER}/{name}")).encode()
