#!/usr/bin/env python3
"""Draws bench/series.svg, time against size of each series, from the first table of bench/README.md."""

import math
from pathlib import Path

from picture import FAINT, Picture

TOP = Path(__file__).resolve().parent.parent
COLOURS = ["#1b6ca8", "#2f8f5b", "#c0392b", "#8e5aa8", "#c98a11", "#3aa0a0", "#5d6d7e", "#b0568a", "#7a8b2a", "#d0683c", "#4553b0"]
WIDTH, HEIGHT, LEFT, RIGHT, TOP_EDGE, BOTTOM = 920, 560, 70, 320, 50, 60
SIZES, SECONDS = (0.1, 10.0), (0.01, 20.0)


def read_series():
    """The points of each series: megabytes and seconds, in the order of the table."""
    series = {}
    rows = (TOP / "bench/README.md").read_text(encoding="utf-8").split("## Made inputs")[1].split("\n## ")[0]
    maker = None
    for row in rows.splitlines():
        cells = [cell.strip() for cell in row.strip("|").split("|")]
        if len(cells) < 4 or not cells[1].replace(".", "").isdigit():
            continue
        name = cells[0].replace("`", "")
        if "of its file" in name:
            name = f"{name} ({maker})"
        else:
            maker = name.split(", ", 1)[-1]
        series.setdefault(name, []).append((float(cells[1]), float(cells[3])))
    return series


def along(value, ends, start, length):
    low, high = (math.log10(end) for end in ends)
    return start + length * (math.log10(value) - low) / (high - low)


def x_of(size):
    return along(size, SIZES, LEFT, WIDTH - LEFT - RIGHT)


def y_of(seconds):
    return along(seconds, SECONDS, HEIGHT - BOTTOM, -(HEIGHT - BOTTOM - TOP_EDGE))


def main():
    picture = Picture(WIDTH, HEIGHT, "Processor time against size of the input")
    picture.text(LEFT, 28, "Processor time against size of the input", 15, bold=True)
    for size in (0.1, 0.2, 0.5, 1, 2, 5, 10):
        picture.line([(x_of(size), TOP_EDGE), (x_of(size), HEIGHT - BOTTOM)], "#e4e7eb")
        picture.text(x_of(size), HEIGHT - BOTTOM + 18, f"{size:g}", 11, "middle")
    for seconds in (0.01, 0.1, 1, 10):
        picture.line([(LEFT, y_of(seconds)), (WIDTH - RIGHT, y_of(seconds))], "#e4e7eb")
        picture.text(LEFT - 8, y_of(seconds) + 4, f"{seconds:g}", 11, "end")
    picture.text((LEFT + WIDTH - RIGHT) / 2, HEIGHT - 18, "megabytes", 12, "middle")
    picture.text(LEFT - 8, TOP_EDGE - 8, "seconds", 12, "end")
    picture.line([(x_of(0.1), y_of(0.05)), (x_of(10), y_of(5))], FAINT, dashed=True)
    picture.text(x_of(0.13), y_of(0.05), "twice the input, twice the time", 10, fill="#52606d")
    ends = []
    for number, (name, points) in enumerate(read_series().items()):
        colour = COLOURS[number % len(COLOURS)]
        places = [(x_of(size), y_of(seconds)) for size, seconds in points]
        picture.line(places, colour, 1.8)
        for place in places:
            picture.dot(*place, colour)
        ends.append((places[-1][1], places[-1], name, colour))
    # Names stand beside the last points, far enough apart to be read.
    last = 0
    for _, (x, y), name, colour in sorted(ends):
        last = max(last + 15, y + 4)
        picture.line([(x, y), (WIDTH - RIGHT + 8, last - 4)], colour, 0.6)
        picture.text(WIDTH - RIGHT + 12, last, name, 11, fill=colour)
    picture.save(TOP / "bench/series.svg")


if __name__ == "__main__":
    main()
