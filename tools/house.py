#!/usr/bin/env python3
"""Draws docs/house.svg from crates.txt: a row for each room, a box for each crate, and in it what the crate stands on directly.

    python3 tools/house.py            writes docs/house.svg
    python3 tools/house.py --check    says whether docs/house.svg is what crates.txt gives (exit status 1 if not)

A room is what stands in crates.txt under one heading (a line '# NAME: what it has'). What a crate reaches through another crate of its
line is left out of its box, and so is a library of the kit.
"""

import sys
from html import escape
from pathlib import Path

TOP = Path(__file__).resolve().parent.parent
PICTURE = TOP / "docs" / "house.svg"
WIDTH, LEFT, GAP, LINE, LETTER = 1180, 16, 10, 13, 6.3


def rooms():
    """The rooms in the order of the file: heading, and the crates with what their lines name."""
    found = []
    for line in (TOP / "crates.txt").read_text().splitlines()[1:]:
        if line.startswith("# "):
            found.append((line[2:], {}))
        elif ":" in line and not line.startswith("#"):
            name, _, below = line.partition(":")
            # a static library has that word after its name
            found[-1][1][name.split()[0]] = below.split()
    ours = {name for _, crates in found for name in crates}
    return [(heading, {name: [d for d in below if d in ours] for name, below in crates.items()}) for heading, crates in found]


def reaches(name, below, seen):
    """All crates that a crate stands on, directly or not."""
    if name not in seen:
        seen[name] = set(below[name]).union(*(reaches(d, below, seen) for d in below[name])) if below[name] else set()
    return seen[name]


def direct(name, below, seen):
    """What a crate stands on and doesn't reach through another of these."""
    mine = below[name]
    return [d for d in mine if not any(d in reaches(e, below, seen) for e in mine if e != d)]


def wrapped(words, letters):
    """Words in lines of at most so many letters."""
    lines = []
    for word in words:
        if lines and len(lines[-1]) + len(word) + 1 <= letters:
            lines[-1] += " " + word
        else:
            lines.append(word)
    return lines


def box(x, y, wide, high, name, lines):
    parts = [f'<rect x="{x}" y="{y}" width="{wide}" height="{high}" rx="4" fill="#fff" stroke="#667"/>']
    parts.append(f'<text x="{x + 7}" y="{y + 15}" font-weight="bold">{escape(name)}</text>')
    for i, line in enumerate(lines):
        parts.append(f'<text x="{x + 7}" y="{y + 29 + i * LINE}" fill="#556">{escape(line)}</text>')
    return parts


def room(heading, crates, below, seen, top):
    """The room's drawing, and where the next begins."""
    parts, x, y, row = [], LEFT + GAP, top + 28, 0
    for name in crates:
        lines = wrapped(direct(name, below, seen), 24)
        wide = int(max(len(t) for t in [name + "  "] + lines) * LETTER) + 16
        high = 24 + len(lines) * LINE
        if x + wide > WIDTH - LEFT - GAP:
            x, y, row = LEFT + GAP, y + row + GAP, 0
        parts += box(x, y, wide, high, name, lines)
        x, row = x + wide + GAP, max(row, high)
    bottom = y + row + GAP
    frame = f'<rect x="{LEFT}" y="{top}" width="{WIDTH - 2 * LEFT}" height="{bottom - top}" rx="6" fill="#eef1f6" stroke="#99a"/>'
    return [frame, f'<text x="{LEFT + GAP}" y="{top + 18}" font-size="13">{escape(heading)}</text>'] + parts, bottom + GAP


def picture():
    found = rooms()
    below = {name: deps for _, crates in found for name, deps in crates.items()}
    seen, parts, top = {}, [], LEFT
    for heading, crates in reversed(found):
        drawn, top = room(heading, crates, below, seen, top)
        parts += drawn
    head = f'<svg xmlns="http://www.w3.org/2000/svg" viewBox="0 0 {WIDTH} {top}" font-family="DejaVu Sans Mono, monospace" font-size="10.5">'
    return "\n".join([head, f'<rect width="{WIDTH}" height="{top}" fill="#fff"/>'] + parts + ["</svg>", ""])


def main():
    if sys.argv[1:] == ["--check"]:
        if not PICTURE.exists() or PICTURE.read_text() != picture():
            sys.exit("docs/house.svg is not what crates.txt gives: python3 tools/house.py draws it anew")
        print("docs/house.svg is what crates.txt gives")
        return
    if sys.argv[1:]:
        sys.exit(__doc__)
    PICTURE.write_text(picture())


main()
