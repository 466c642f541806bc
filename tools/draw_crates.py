#!/usr/bin/env python3
"""Draws docs/pictures/crates.svg, the graph of crates, from crates.txt.

A crate stands one row above the highest crate that it stands on. A line is left out where a longer way says the same.
A line that passes a row has a place of its own there, so that it goes behind no crate.
"""

from pathlib import Path

from picture import Picture

TOP = Path(__file__).resolve().parent.parent
COLOURS = ["#e8f1fa", "#e3f4ea", "#fdf3dc", "#fbe7e4", "#efe6f7", "#e2f3f4", "#f4ead9", "#e6e9ee"]
WIDTH, ROW, BOX_WIDTH, BOX_HEIGHT, GAP = 1120, 84, 146, 34, 24


def read_crates():
    """Each crate with the crates of this repository that it stands on, lowest first."""
    below = {}
    for line in (TOP / "crates.txt").read_text().splitlines():
        if line and not line.startswith("#"):
            name, _, rest = line.partition(":")
            below[name] = rest.split()
    return {name: [lower for lower in lowers if lower in below] for name, lowers in below.items()}


def heights_of(below):
    heights = {}
    for name, lowers in below.items():
        heights[name] = 1 + max((heights[lower] for lower in lowers), default=0)
    return heights


def direct(name, below):
    """The crates below this one that are not also below another of them."""
    through = {deeper for lower in below[name] for deeper in below[lower]}
    return [lower for lower in below[name] if lower not in through]


def ways_of(below, heights):
    """For each line its places, from the row of its upper end to that of its lower one."""
    ways = []
    for name in below:
        for lower in direct(name, below):
            between = [(name, lower, height) for height in range(heights[name] - 1, heights[lower], -1)]
            ways.append([name, *between, lower])
    return ways


def spread(row):
    """Where the places of a row stand, from the left."""
    widths = [BOX_WIDTH if isinstance(place, str) else 0 for place in row]
    x = (WIDTH - sum(widths) - GAP * (len(row) - 1)) / 2
    xs = {}
    for place, width in zip(row, widths):
        xs[place] = x + width / 2
        x += width + GAP
    return xs


def arranged(rows, ways):
    """The places of each row in an order in which few lines cross: each stands about where its neighbours do."""
    near = {}
    for way in ways:
        for upper, lower in zip(way, way[1:]):
            near.setdefault(upper, []).append(lower)
            near.setdefault(lower, []).append(upper)
    xs = {place: x for row in rows for place, x in spread(row).items()}
    for _ in range(24):
        for row in rows:
            row.sort(key=lambda place: sum(xs[other] for other in near[place]) / len(near[place]))
            xs.update(spread(row))
    return xs


def main():
    below = read_crates()
    heights = heights_of(below)
    top = max(heights.values())
    ways = ways_of(below, heights)
    rows = [[name for name in below if heights[name] == height] for height in range(1, top + 1)]
    for way in ways:
        for place in way[1:-1]:
            rows[place[2] - 1].append(place)
    xs = arranged(rows, ways)

    picture = Picture(WIDTH, ROW * top + 20, "Which crate stands on which")
    for way in ways:
        points = [(xs[way[0]], ROW * (top - heights[way[0]]) + 20 + BOX_HEIGHT)]
        for place in way[1:-1]:
            y = ROW * (top - place[2]) + 20
            points += [(xs[place], y), (xs[place], y + BOX_HEIGHT)]
        points.append((xs[way[-1]], ROW * (top - heights[way[-1]]) + 20))
        picture.line(points)
    for name in below:
        y = ROW * (top - heights[name]) + 20
        picture.box(xs[name] - BOX_WIDTH / 2, y, BOX_WIDTH, BOX_HEIGHT, COLOURS[(heights[name] - 1) % len(COLOURS)])
        picture.text(xs[name], y + 22, name, 13, "middle", fixed=True)
    picture.save(TOP / "docs/pictures/crates.svg")


if __name__ == "__main__":
    main()
