"""Writes README's pictures: docs/architecture.svg, what a cluster is made of, and docs/etcd.svg, how fast it is beside
etcd, by the figures in docs/QUESTIONS.md and hosts/store/REGIONS.md; and docs/floods.svg, how fast it is by commands in
flight and how long others wait meanwhile, by those in docs/COSTS.md."""

import re

from calls import TOP
from header import Unknown

STYLE = (
    "text{font:13px sans-serif;text-anchor:middle;fill:#222}.head{font-weight:bold}.small{font-size:11px}"
    ".left{text-anchor:start}rect{fill:#f4f6f8;stroke:#456;rx:6}.core{fill:#dfeee0}.disk{fill:#fff}"
    ".ours{fill:#47a;stroke:none}.etcd{fill:#bbb;stroke:none}"
    "path{stroke:#456;fill:none}"
)
ENDS = (
    '<defs><marker id="a" refX="7" refY="4" markerWidth="8" markerHeight="8" orient="auto-start-reverse">'
    '<path d="M0 0L8 4L0 8z" style="fill:#456"/></marker></defs>'
)
REGIONS = ("California", "Virginia", "Ireland")
BESIDE = ("1 a store, alone", "60 send 50", "4 send 1,000", "32, alone", "8 never read", "64 never read")


def read(name):
    with open(f"{TOP}/{name}", encoding="utf-8") as file:
        return file.read()


def text(x, y, words, form=""):
    return f'<text x="{x}" y="{y}" class="{form}">{words}</text>'


def box(x, y, wide, high, form=""):
    return f'<rect x="{x}" y="{y}" width="{wide}" height="{high}" class="{form}"/>'


def both_ways(path):
    return f'<path d="{path}" marker-start="url(#a)" marker-end="url(#a)"/>'


def picture(wide, high, parts):
    size = f'viewBox="0 0 {wide} {high}" width="{wide}" height="{high}"'
    ground = f'<style>{STYLE}</style>{ENDS}<rect width="{wide}" height="{high}" style="fill:#fff;stroke:none"/>'
    return f'<svg xmlns="http://www.w3.org/2000/svg" {size}>{ground}{"".join(parts)}</svg>\n'.encode()


def store(x, number, client):
    """A store, its client above it."""
    yield box(x + 30, 10, 140, 28) + text(x + 100, 29, client) + both_ways(f"M{x + 100} 40V68")
    yield box(x, 70, 200, 150) + text(x + 100, 90, f"store {number}: TCP, clock, threads", "small")
    yield box(x + 20, 102, 160, 62, "core") + text(x + 100, 122, "core, proved", "head")
    yield text(x + 100, 139, "consensus, the order,", "small") + text(x + 100, 154, "the map", "small")
    yield box(x + 20, 176, 160, 32, "disk") + text(x + 100, 196, "log on its own disk", "small")


def architecture():
    """Three stores, each with a client, and with the core in it."""
    clients = enumerate(("redis-cli", "redis-py", "a Go program"))
    parts = [part for at, client in clients for part in store(20 + 240 * at, at, client)]
    parts += [both_ways("M222 134H258"), both_ways("M462 134H498"), both_ways("M120 222C120 262 600 262 600 222")]
    parts.append(text(360, 272, "every store takes reads and writes; none leads", "small"))
    return picture(720, 284, parts)


def found(pattern, page):
    """What the pattern finds on a page."""
    it = re.search(pattern, read(page), re.MULTILINE)
    if not it:
        raise Unknown(f"{page} no longer has the figures that the plot shows: {pattern}")
    return it.groups()


def rates():
    """For each bar its name, ours and etcd's a second."""
    cell = r" ([\d,]+), ([\d,]+); ([\d,]+) \|"
    row = rf"^\| a second, 32 clients: sets in memory, on a disk; gets in memory \|{cell}{cell}$"
    sets, disk, gets, *others = (int(it.replace(",", "")) for it in found(row, "docs/QUESTIONS.md"))
    return [("sets, disk", disk, others[1]), ("sets, memory", sets, others[0]), ("gets, memory", gets, others[2])]


def waits():
    """For each region its name, and how long a write takes, in ms."""
    row = r"^\| writes, keys of their own; etcd \| (\d+), (\d+), (\d+); (\d+), (\d+), (\d+) \|"
    numbers = [int(it) for it in found(row, "hosts/store/REGIONS.md")]
    return [*zip(REGIONS, numbers[:3], numbers[3:])]


def plot(left, title, rows):
    """Bars, two for each row."""
    yield text(left + 10, 24, title, "head left")
    most = max(it for row in rows for it in row[1:])
    for at, (name, *both) in enumerate(rows):
        yield text(left + 10, 60 + 50 * at, name, "left small")
        for turn, (number, form) in enumerate(zip(both, ("ours", "etcd"))):
            wide, y = round(170 * number / most), 42 + 50 * at + 16 * turn
            yield box(left + 100, y, wide, 14, form)
            yield text(left + 105 + wide, y + 11, f"{number:,}", "left small")


def etcd():
    """Two plots, side by side."""
    parts = [*plot(0, "Commands a second, 32 clients", rates())]
    parts += plot(360, "Waits for a write, ms, three regions", waits())
    for left, name, form in ((250, "epaxos", "ours"), (340, "etcd 3.4", "etcd")):
        parts += [box(left, 198, 12, 12, form), text(left + 18, 208, name, "left small")]
    return picture(720, 220, parts)


def bars(left, title, rows):
    """A bar for each row."""
    yield text(left + 10, 24, title, "head left")
    most = max(number for _, number in rows)
    for at, (name, number) in enumerate(rows):
        wide, y = round(170 * number / most), 42 + 22 * at
        yield text(left + 10, y + 11, name, "left small") + box(left + 110, y, wide, 14, "ours")
        yield text(left + 115 + wide, y + 11, f"{number:,}", "left small")


def cells(name):
    """The numbers in a row of COSTS that has this name."""
    (row,) = found(rf"^\| {name} \|(.*)\|$", "docs/COSTS.md")
    return [float(it.strip().replace(",", "")) for it in row.split("|")]


def floods():
    """Two plots, side by side."""
    head = [f"{round(it):,} in flight" for it in cells("In flight")]
    parts = [*bars(0, "Commands a second", [*zip(head, map(round, cells("done a second")))])]
    parts += bars(360, "99 of 100 wait at most so long, ms", [*zip(BESIDE, cells("p99, ms"))])
    return picture(720, 52 + 22 * len(head), parts)


def files():
    yield f"{TOP}/docs/architecture.svg", architecture()
    yield f"{TOP}/docs/etcd.svg", etcd()
    yield f"{TOP}/docs/floods.svg", floods()
