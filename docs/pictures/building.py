#!/usr/bin/env python3
"""Draws the building of crates as crates.txt has it, into docs/pictures/building.svg: a floor a section, lowest at the bottom, a box a crate, a
line from each crate to each crate of the repository that its line names. A line that another way between the two crates makes plain is left out.

usage: building.py [FILE]   (without FILE docs/pictures/building.svg; `-` prints it)
"""
import html
import os
import sys

HERE = os.path.dirname(os.path.abspath(__file__))
TOP = os.path.dirname(os.path.dirname(HERE))
WIDTH, MARGIN, BOX, ROW, LETTER = 1180, 16, 22, 10, 6.7


def read_floors():
    """The sections of crates.txt, lowest first: a title, and the crates with the repository's crates that their lines name."""
    floors = []
    with open(os.path.join(TOP, "crates.txt"), encoding="utf-8") as file:
        lines = [line.strip() for line in file]
    for before, line in zip([""] + lines, lines):
        if line.startswith("#") and not before:
            floors.append((line[1:].strip(), {}))
        elif line and not line.startswith("#"):
            name, _, names = line.partition(":")
            floors[-1][1][name.split()[0]] = names.split()
    floors = [floor for floor in floors if floor[1]]
    known = {crate for _, crates in floors for crate in crates}
    return [(title, {crate: [it for it in names if it in known] for crate, names in crates.items()}) for title, crates in floors]


def reaches(crates, start, end):
    return any(it == end or reaches(crates, it, end) for it in crates[start])


def plain_lines(crates):
    """Each pair of crates that a line joins, without those that go by a third crate anyway."""
    return [(one, other) for one, names in crates.items() for other in names if not any(it != other and reaches(crates, it, other) for it in names)]


def placed(crates):
    """Where the crates of a floor are: from left to right in the order of their lines, one on another of its own floor a row higher."""
    depth, share = {}, (WIDTH - 2 * MARGIN) / len(crates)
    for crate, names in crates.items():
        depth[crate] = 1 + max((depth[it] for it in names if it in depth), default=0)
    highest = max(depth.values())
    return {crate: (MARGIN + share * (place + 0.5), highest - depth[crate], LETTER * len(crate) + 16) for place, crate in enumerate(crates)}, highest


def draw(floors):
    y, boxes, bands = MARGIN, {}, []
    for title, crates in reversed(floors):
        (places, rows), top = placed(crates), y
        for crate, (middle, row, width) in places.items():
            boxes[crate] = middle - width / 2, y + 22 + row * (BOX + ROW), width
        y += 22 + rows * (BOX + ROW)
        bands.append((title, top, y - top - 4))
        y += 16
    all_crates = {crate: names for _, crates in floors for crate, names in crates.items()}
    lines = []
    for one, other in plain_lines(all_crates):
        (x, top, width), (to_x, to_top, to_width) = boxes[one], boxes[other]
        a, b, c, d = x + width / 2, top + BOX, to_x + to_width / 2, to_top
        lines.append(f'<path d="M{a:.0f} {b:.0f}C{a:.0f} {(b + d) / 2:.0f} {c:.0f} {(b + d) / 2:.0f} {c:.0f} {d:.0f}"/>')
    told = [f'<svg xmlns="http://www.w3.org/2000/svg" viewBox="0 0 {WIDTH} {y:.0f}" font-family="sans-serif" font-size="11.5">',
            f'<title>The crates by floor; each stands on those below it to which lines lead</title><rect width="{WIDTH}" height="{y:.0f}" fill="#fff"/>']
    told += [f'<rect x="4" y="{top:.0f}" width="{WIDTH - 8}" height="{height:.0f}" rx="6" fill="{"#f3f6fa" if place % 2 else "#eaf0f6"}"/>'
             f'<text x="14" y="{top + 15:.0f}" fill="#456" font-style="italic">{html.escape(title)}</text>' for place, (title, top, height) in enumerate(bands)]
    told += ['<g fill="none" stroke="#8aa0b8" stroke-opacity=".55">', *lines, "</g>"]
    told += [f'<rect x="{x:.0f}" y="{top:.0f}" width="{width:.0f}" height="{BOX}" rx="4" fill="#fff" stroke="#345"/>'
             f'<text x="{x + width / 2:.0f}" y="{top + 16:.0f}" text-anchor="middle">{crate}</text>' for crate, (x, top, width) in boxes.items()]
    return "\n".join(told + ["</svg>", ""])


def main(path=os.path.join(HERE, "building.svg")):
    picture = draw(read_floors())
    if path == "-":
        sys.stdout.write(picture)
    else:
        with open(path, "w", encoding="utf-8") as file:
            file.write(picture)


if __name__ == "__main__":
    main(*sys.argv[1:])
