"""A plot of a life, from what the trial has sampled: what a store takes of memory and of the disk, how many commands were told a second, and how
many generations there were.

    python3 plot.py SAMPLES.csv > life.svg
"""

import csv
import sys
from xml.sax.saxutils import escape

WIDTH, HEIGHT, LEFT, RIGHT, TOP, BETWEEN = 900, 230, 60, 60, 40, 70
MEGABYTE = 1e6
MOST = 400


def steps(most):
    """A round number of which at most six reach up to the greatest value."""
    sizes = (digit * 10.0**power for power in range(-3, 12) for digit in (1, 2, 5))
    return next(size for size in sizes if most / size <= 6)


def thin(rows):
    """At most MOST rows, each with the greatest values of some that follow one another."""
    count = -(-len(rows) // MOST)
    runs = [rows[at : at + count] for at in range(0, len(rows), count)]
    return [{name: max(row[name] for row in run) for name in run[0]} for run in runs]


def smooth(values, count):
    """Each value's mean with those around it."""
    means = []
    for at in range(len(values)):
        part = values[max(0, at - count) : at + count + 1]
        means.append(sum(part) / len(part))
    return means


class Panel:
    """A frame with lines over minutes."""

    def __init__(self, top, minutes, title):
        self.top, self.minutes = top, minutes
        self.out = [f'<text x="{LEFT}" y="{top - 12}" font-weight="bold">{escape(title)}</text>']
        self.out.append(f'<rect x="{LEFT}" y="{top}" width="{WIDTH - LEFT - RIGHT}" height="{HEIGHT}" fill="none" stroke="#999"/>')
        step = max(1, round(steps(minutes[-1])))
        for minute in range(0, int(minutes[-1]) + 1, step):
            self.out.append(f'<text x="{self.across(minute):.1f}" y="{top + HEIGHT + 16}" text-anchor="middle">{minute}</text>')
        self.out.append(f'<text x="{WIDTH - RIGHT}" y="{top + HEIGHT + 32}" text-anchor="end">minutes</text>')

    def across(self, minute):
        return LEFT + (WIDTH - LEFT - RIGHT) * minute / self.minutes[-1]

    def lines(self, named, is_right=False):
        """Lines with one axis: names, colours and values."""
        most = max(max(values) for _, _, values in named) or 1
        step = steps(most)
        most = step * (int(most / step) + 1)
        up = lambda value: self.top + HEIGHT * (1 - value / most)
        at, anchor = (WIDTH - RIGHT + 6, "start") if is_right else (LEFT - 6, "end")
        for number in range(int(most / step) + 1):
            self.out.append(f'<text x="{at}" y="{up(number * step) + 4:.1f}" text-anchor="{anchor}">{number * step:g}</text>')
            if not is_right:
                self.out.append(f'<path d="M{LEFT} {up(number * step):.1f}H{WIDTH - RIGHT}" stroke="#eee"/>')
        for place, (name, colour, values) in enumerate(named):
            points = " ".join(f"{self.across(minute):.1f},{up(value):.1f}" for minute, value in zip(self.minutes, values))
            self.out.append(f'<polyline points="{points}" fill="none" stroke="{colour}" stroke-width="1.3"/>')
            x = WIDTH - RIGHT - 8 if is_right else LEFT + 8
            anchor = "end" if is_right else "start"
            self.out.append(f'<text x="{x}" y="{self.top + 16 + 15 * place}" fill="{colour}" text-anchor="{anchor}">{escape(name)}</text>')


def main():
    with open(sys.argv[1], encoding="utf-8") as file:
        rows = thin([{name: float(value) for name, value in row.items()} for row in csv.DictReader(file)])
    column = lambda name: [row[name] for row in rows]
    minutes = [second / 60 for second in column("seconds")]
    above = Panel(TOP, minutes, "The most that a store takes, in MB")
    megabytes = lambda name: [value / MEGABYTE for value in column(name)]
    disk, store = map(megabytes, ("disk_bytes", "store_bytes"))
    above.lines([("its folder, with three generations", "#b33", disk), ("its memory", "#36c", store)])
    told, seconds = column("commands"), column("seconds")
    rates = [(told[at] - told[at - 1]) / (seconds[at] - seconds[at - 1]) for at in range(1, len(rows))]
    below = Panel(TOP + HEIGHT + BETWEEN, minutes, "Commands told a second (left), and the newest generation (right)")
    below.lines([("commands a second", "#36c", smooth([rates[0], *rates], 3))])
    below.lines([("generation", "#b33", column("generation"))], is_right=True)
    height = TOP + 2 * HEIGHT + BETWEEN + 40
    print(f'<svg xmlns="http://www.w3.org/2000/svg" viewBox="0 0 {WIDTH} {height}" font-family="sans-serif" font-size="12">')
    print(f'<rect width="{WIDTH}" height="{height}" fill="#fff"/>')
    print("\n".join([*above.out, *below.out]) + "\n</svg>")


if __name__ == "__main__":
    main()
