"""A plot of how long commands take over distance, from what `trial --sites` prints: a panel for each of its tables.

    trial --node ./epaxos --sites CA,VA,EU --shares 0,25,100 > three.txt
    python3 regions.py three.txt .. > regions.svg
"""

import re
import sys

BAR, GAP, HEIGHT, LEFT, TOP, BETWEEN = 22, 26, 150, 50, 40, 60
# of keys of their own, and of the one key of all clients
COLOURS = ("#4477aa", "#cc6677")


def tables(lines):
    """Each table's title, and its rows: a site, what is expected, and for both kinds of keys the three parts, where there are any."""
    found = []
    for line in lines:
        cells = [cell.strip() for cell in line.strip().strip("|").split("|")]
        if line.startswith("|") and cells[0].endswith("on one key"):
            found.append((cells[0], []))
        elif line.startswith("|") and found and len(cells) == 6 and cells[1].isdigit():
            parts = [[int(it) for it in re.findall(r"\d+", cell)[:3]] for cell in cells[2:4]]
            found[-1][1].append((cells[0], int(cells[1]), parts))
    return found


def panel(top, title, rows):
    """Bars of medians with lines to 99 of 100, and a mark where the round trip to the fast quorum is."""
    most = max(max(wait[2:] or [0]) for _, _, parts in rows for wait in parts) or 1
    up = lambda value: top + HEIGHT * (1 - value / most)
    yield f'<text x="{LEFT}" y="{top - 12}" font-weight="bold">{title}</text>'
    yield f'<text x="{LEFT - 6}" y="{top + 4}" text-anchor="end">{most} ms</text><text x="{LEFT - 6}" y="{top + HEIGHT}" text-anchor="end">0</text>'
    across = LEFT
    for site, expected, parts in rows:
        begin = across
        for wait, colour in zip(parts, COLOURS):
            if wait:
                yield f'<rect x="{across}" y="{up(wait[0]):.1f}" width="{BAR}" height="{HEIGHT * wait[0] / most:.1f}" fill="{colour}"/>'
                yield f'<path d="M{across + BAR / 2} {up(wait[0]):.1f}V{up(wait[2]):.1f}" stroke="{colour}"/>'
                yield f'<text x="{across + BAR / 2}" y="{up(wait[0]) - 3:.1f}" text-anchor="middle" font-size="10">{wait[0]}</text>'
                across += BAR
        yield f'<path d="M{begin - 4} {up(expected):.1f}H{across + 4}" stroke="black"/>'
        yield f'<text x="{(begin + across) / 2}" y="{top + HEIGHT + 16}" text-anchor="middle">{site}</text>'
        across += GAP


def main(paths):
    found = [table for path in paths for table in tables(open(path, encoding="utf-8"))]
    height = TOP + len(found) * (HEIGHT + BETWEEN)
    print(f'<svg xmlns="http://www.w3.org/2000/svg" viewBox="0 0 460 {height}" font-family="sans-serif" font-size="12">')
    for number, (title, rows) in enumerate(found):
        print("\n".join(panel(TOP + number * (HEIGHT + BETWEEN), title, rows)))
    print("</svg>")


if __name__ == "__main__":
    main(sys.argv[1:])
