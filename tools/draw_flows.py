#!/usr/bin/env python3
"""Draws docs/pictures/flows.svg, the two data flows through the functions that make them.

Ends with an error where a function that is named here does not stand in the crate that is named with it.
"""

import re
import sys
from pathlib import Path

from picture import FAINT, Picture

TOP = Path(__file__).resolve().parent.parent
# What goes in or comes out, and between these the function that makes the one of the other, with its crate.
ENCODE = [
    "bytes of a source",
    ("from_utf8", "simdutf8"),
    "text",
    ("tokens", "js_tokens"),
    "tokens",
    ("derive", "js_machine"),
    "steps of a derivation",
    ("build_tree", "js_tree"),
    "tree",
    ("first_early", "early_errors"),
    "tree without early errors",
    ("annotate", "scope_facts"),
    "tree with exact scopes",
    ("encode", "tree_encoder"),
    "bytes of a file",
]
DECODE = [
    "bytes of a file",
    ("read_layout", "container"),
    "tables of kinds and texts, range of the tree",
    ("read_tree", "tree_decoder"),
    "tree",
    ("first_lazy_of", "tree_decoder"),
    "tree of eager functions",
    ("first_violation", "violations"),
    "tree whose rules hold",
    ("list_tree", "js_printer"),
    "listing",
]
# What a function may answer in place of what comes next.
REFUSALS = {
    "from_utf8": "NotUtf8",
    "tokens": "BadChar .. EscapedName",
    "derive": "Syntax, NotHere, TooDeep",
    "build_tree": "DeepTree",
    "first_early": "E1 .. E16",
    "encode": "file: larger than ..",
    "read_layout": "faults of the container",
    "read_tree": "faults of the tree",
    "first_lazy_of": "NotYet",
    "first_violation": "E1 .. E18, A1 .. A5",
}
WIDTH, STEP, BOX = 940, 46, 210


def check(function, crate):
    source = TOP / "crates" / crate / "src"
    if source.is_dir() and not any(
        re.search(rf"\bfn {function}\b", path.read_text(encoding="utf-8")) for path in source.rglob("*.rt")
    ):
        sys.exit(f"{crate} has no function {function}")


def draw(picture, left, title, flow):
    picture.text(left, 30, title, 15, bold=True)
    y = 52
    for number, stage in enumerate(flow):
        if isinstance(stage, str):
            picture.text(left + BOX / 2, y + 18, stage, 12, "middle")
        else:
            function, crate = stage
            check(function, crate)
            picture.box(left, y, BOX, 30, "#e8f1fa")
            picture.text(left + 10, y + 20, function, 13, fixed=True)
            picture.text(left + BOX - 10, y + 20, crate, 11, "end", fill="#52606d")
            if function in REFUSALS:
                picture.line([(left + BOX, y + 15), (left + BOX + 26, y + 15)], dashed=True, arrow=True)
                picture.text(left + BOX + 32, y + 19, REFUSALS[function], 11, fill="#9b3030")
        if number + 1 < len(flow):
            end = y + (24 if isinstance(stage, str) else 30)
            picture.line([(left + BOX / 2, end), (left + BOX / 2, y + STEP)], FAINT, arrow=True)
        y += STEP


def main():
    picture = Picture(WIDTH, 60 + STEP * len(ENCODE), "The two data flows, with what each call may refuse")
    draw(picture, 30, "encode eager", ENCODE)
    draw(picture, 500, "decode, and check without its last call", DECODE)
    picture.save(TOP / "docs/pictures/flows.svg")


if __name__ == "__main__":
    main()
