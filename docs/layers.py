#!/usr/bin/env python3
"""Writes the picture of the layers into docs/ARCHITECTURE.md: python3 docs/layers.py. Standard library alone.

A box for each layer of crates.txt, the highest first, with its crates and the layers that they stand on.
docs/house.py compares the picture with crates.txt.
"""

import pathlib
import re
import textwrap

ROOT = pathlib.Path(__file__).resolve().parent.parent
PAGE = ROOT / "docs" / "ARCHITECTURE.md"
WIDTH, NAME = 96, 11
# What stands before the picture in the page, and after it.
BEFORE, AFTER = "<!-- written by docs/layers.py -->\n```\n", "```\n<!-- end -->\n"


def layers():
    """The layers of crates.txt, lowest first: the name of each, and its crates with what they stand on."""
    found = []
    for line in (ROOT / "crates.txt").read_text().splitlines():
        heading, crate = re.match(r"# (\w+): ", line), re.match(r"(\w+)(?: staticlib)?:(.*)", line)
        if heading and heading[1] != "NAME":
            found.append((heading[1], {}))
        elif crate:
            found[-1][1][crate[1]] = crate[2].split()
    return found


def box(name, rows):
    """A layer's name beside its rows."""
    side = [name, *[""] * (len(rows) - 1)]
    return [f"| {left:<{NAME}}| {row:<{WIDTH - NAME - 5}}|" for left, row in zip(side, rows)]


def picture():
    found = layers()
    of = {crate: name for name, crates in found for crate in crates}
    edge = "+" + "-" * (NAME + 1) + "+" + "-" * (WIDTH - NAME - 4) + "+"
    lines = [edge]
    for name, crates in reversed(found):
        below = {of[it] for libraries in crates.values() for it in libraries if it in of} - {name}
        rows = textwrap.wrap(" ".join(crates), WIDTH - NAME - 6)
        stands = " ".join(it for it, _ in found if it in below)
        lines += [*box(name, rows + textwrap.wrap(f"on {stands}" if stands else "", WIDTH - NAME - 6)), edge]
    return "".join(line + "\n" for line in lines)


def in_page(text):
    """The page with the picture as crates.txt has it."""
    head, _, rest = text.partition(BEFORE)
    return head + BEFORE + picture() + AFTER + rest.partition(AFTER)[2]


if __name__ == "__main__":
    PAGE.write_text(in_page(PAGE.read_text()))
