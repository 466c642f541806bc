#!/usr/bin/env python3
"""Draws docs/pictures/file.svg: a small file with its sections, its tables and the bytes of each node.

The file is what `./binast encode eager` writes of the script below; which bytes are whose is found by going through the
file along its listing by `./binast decode`.
"""

import subprocess
from pathlib import Path

from picture import Picture

TOP = Path(__file__).resolve().parent.parent
SCRIPT = b"var n = 1;"
WIDTH, LINE, LEFT = 900, 19, 30
SECTION, TABLE, TREE, FRAME = "#e6e9ee", "#fdf3dc", "#e3f4ea", "#e8f1fa"


def answer(words, given):
    return subprocess.run([TOP / "binast", *words], input=given, capture_output=True, check=True).stdout


class Reader:
    """Goes through a file; each piece is kept with its place and what it is."""

    def __init__(self, file):
        self.file, self.place, self.pieces = file, 0, []

    def take(self, length, meaning, colour, depth=0):
        taken = self.file[self.place : self.place + length]
        self.pieces.append((self.place, taken, meaning, colour, depth))
        self.place += length
        return taken

    def number(self, meaning, colour, depth=0):
        """A varnum: seven bits a byte, bit 0 says whether another byte follows."""
        length, number, shift = 0, 0, 0
        while True:
            byte = self.file[self.place + length]
            number |= (byte >> 1) << shift
            shift, length = shift + 7, length + 1
            if not byte & 1:
                break
        self.take(length, meaning(number), colour, depth)
        return number

    def section(self, name):
        self.take(len(name) + 2 + len("identity;"), f"section [{name}], not compressed", SECTION)
        self.number(lambda n: f"{n} bytes follow in it", SECTION)

    def table(self, name, entries):
        self.section(name)
        for number in range(self.number(lambda n: f"{n} {entries}", TABLE)):
            length = self.number(lambda n: "1 byte:" if n == 1 else f"{n} bytes:", TABLE, 1)
            self.take(length, f"number {number}", TABLE, 2)

    def value(self, line):
        """What one line of the listing says, as the file spells it."""
        depth = (len(line) - len(line.lstrip())) // 2
        words = line.strip()
        field, equals, value = words.partition(" = ")
        if equals and value in ("true", "false"):
            self.take(1, words, TREE, depth)
        elif equals and value.startswith('"'):
            self.number(lambda n: f"{words}, text {n}", TREE, depth)
        elif equals:
            self.take(8, f"{words}, its binary64 pattern", TREE, depth)
        elif words.endswith("]"):
            self.number(lambda n: f"{words[: words.index(':')]}: a list of {n}", TREE, depth)
        else:
            self.number(lambda n: f"{words}, kind {n}", TREE, depth)


def shown(taken):
    """Bytes as hexadecimal digits, with their text where they are one."""
    if len(taken) > 1 and all(32 <= byte < 127 for byte in taken):
        return taken.decode()
    return " ".join(f"{byte:02X}" for byte in taken)


def main():
    file = answer(["encode", "eager"], SCRIPT)
    reader = Reader(file)
    reader.take(5, "a file of this format", FRAME)
    reader.number(lambda n: f"version {n}", FRAME)
    reader.table("GRAMMAR", "kinds")
    reader.table("STRINGS", "texts")
    reader.section("TREE")
    for line in answer(["decode"], file).decode().splitlines():
        reader.value(line)
    assert reader.place == len(file), "the listing goes through the whole file"

    picture = Picture(WIDTH, 70 + LINE * len(reader.pieces), f"The file of the script {SCRIPT.decode()}")
    picture.text(LEFT, 28, f"The file of  {SCRIPT.decode()}  ({len(file)} bytes)", 15, bold=True)
    for x, words in ((LEFT, "byte"), (LEFT + 60, "content"), (LEFT + 390, "meaning")):
        picture.text(x, 52, words, 11, fill="#52606d")
    for number, (place, taken, meaning, colour, depth) in enumerate(reader.pieces):
        y = 60 + LINE * number
        picture.box(LEFT + 52, y, 310, LINE, colour, stroke="#ffffff", radius=0)
        picture.text(LEFT + 36, y + 14, str(place), 11, "end", fixed=True, fill="#52606d")
        picture.text(LEFT + 60, y + 14, shown(taken), 11, fixed=True)
        picture.text(LEFT + 390 + 14 * depth, y + 14, meaning, 12)
    picture.save(TOP / "docs/pictures/file.svg")


if __name__ == "__main__":
    main()
