#!/usr/bin/env python3
"""Checks rooms whose corners are nodes: how many nodes and links their venues have, and where the limits on nodes and on what is looked through fall.

usage: corner_limits.py [PROGRAM]   (without PROGRAM the launcher ./venue, which builds the program if need be)
What is wanted was worked out by hand: a staircase of n steps has 2n + 2 edges and n - 1 corners, a bowl 53 and 49. It prints one line, and ends
with status 1 at a difference.
"""
import os
import shutil
import subprocess
import sys

from rooms import Venue, box, ell, in_metres, judge_rows, set_up

FILE = "finding {} unit.geojson 0 0"


def staircase(steps, west=()):
    """A room above stairs, with these positions more in its west side."""
    treads = [place for i in range(steps) for place in ((1000 * i + 1000, 1000 * i), (1000 * i + 1000, 1000 * i + 1000))]
    return [(0, 0), *treads, (0, 1000 * steps), *west]


def bowl(k):
    x, y = 11_000 + 11_000 * (k % 90), 4000 + 4000 * (k // 90)
    return [(x, y), (x + 10_000, y), *((x + 200 * i, y + 2000 + (i - 25) ** 2) for i in range(50, -1, -1))]


def square():
    """Forty metres on each side, with a hole in the middle."""
    return Venue().room([in_metres(box(0, 0, 40, 40)), in_metres([(15, 15), (15, 25), (25, 25), (25, 15)])]).anchor(*in_metres([(5, 20), (35, 20)]))


def stairs(steps, anchors, west=(), category="walkway"):
    return Venue().room([staircase(steps, west)], category=category).anchor(*[(0, 0)] * anchors, first=40_001)


def bowls():
    venue = Venue()
    for k in range(8000):
        venue.room([bowl(k)], number=20_000 + k)
    return venue


WEST = [(0, 998_999)]
# A name, the venue, whether one walks round walls, and the lines of `check` with how many nodes and links the table of who walks has, where that was
# worked out.
ROWS = [
    ("ell, straight", ell, False, ["accepted 5", "notes 0"], (3, 6)),
    ("ell", ell, True, ["accepted 5", "notes 0"], (4, 6)),
    ("a restricted ell", lambda: ell(restriction="restricted"), True, ["accepted 5", "notes 0"], (4, 0)),
    ("ell where people are carried", lambda: ell("movingwalkway"), True, ["accepted 5", "notes 0"], (3, 0)),
    ("ell that nobody walks through", lambda: ell("column", anchored=False), True, ["accepted 3", "notes 0"], (0, 0)),
    ("a square with a hole", square, True, ["accepted 5", "notes 0"], (7, 18)),
    ("999 steps", lambda: stairs(999, 1), True, ["accepted 4", "notes 0"], (1000, None)),
    ("999 steps, an edge more", lambda: stairs(999, 1, WEST), True, ["rejected 1", FILE.format("S8")], None),
    ("999 steps, an edge more, a member less", lambda: stairs(999, 0, WEST), True, ["accepted 3", "notes 0"], (999, None)),
    ("999 steps where people are carried", lambda: stairs(999, 999, WEST, "movingwalkway"), True, ["accepted 1002", "notes 0"], (1000, 0)),
    ("999 steps, 999 anchors", lambda: stairs(999, 999, WEST), True, ["rejected 1", FILE.format("S8")], None),
    ("4,094 steps", lambda: stairs(4094, 2), True, ["rejected 1", FILE.format("S8")], None),
    ("4,094 steps, straight", lambda: stairs(4094, 2), False, ["accepted 5", "notes 0"], (3, 6)),
    ("4,095 steps", lambda: stairs(4095, 2), True, ["rejected 1", FILE.format("S5")], None),
    ("4,095 steps, straight", lambda: stairs(4095, 2), False, ["accepted 5", "notes 0"], (3, 6)),
    ("8,000 bowls", bowls, True, ["accepted 8002", "notes 0"], None),
    ("8,000 bowls and an opening", lambda: bowls().door((1000, 1000), (2000, 1000)), True, ["rejected 1", FILE.format("S7")], None),
    ("8,000 bowls and an opening, straight", lambda: bowls().door((1000, 1000), (2000, 1000)), False, ["accepted 8003", "notes 1", "note N4 opening.geojson 0 0"], None),
    ("8,000 bowls and an anchor", lambda: bowls().anchor((12_000, 4500), unit=20_000), True, ["rejected 1", FILE.format("S6")], None),
]


def run(program, *words):
    return subprocess.run([*program, *words], capture_output=True, text=True).stdout.splitlines()


def differences(program, base, row):
    """What the program tells of a row's venue otherwise than it should."""
    name, venue, clear, wanted, table = row
    set_up(base, clear)
    venue().write(os.path.join(base, "folder"))
    found = run(program, "check", base, "folder")
    if found != wanted:
        yield f"{name}: check prints {found[:3]}, wanted {wanted}"
    if table:
        lines = run(program, "links", base, "folder", "walk")
        counted = [sum(line.startswith(word) for line in lines) for word in ("node ", "link ")]
        if any(wanted not in (None, count) for count, wanted in zip(counted, table)):
            yield f"{name}: {counted[0]} nodes and {counted[1]} links, wanted {table[0]} and {table[1]}"
    shutil.rmtree(os.path.join(base, "folder"))


sys.exit(judge_rows("corner_limits", ROWS, "venues", differences))
