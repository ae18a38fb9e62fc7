"""Writes venues of few features whose rings are as long as they may be, and which break no rule.

usage: limits.py BASE   (BASE gets a folder a venue)
Every run writes the same bytes. Positions are in nanodegrees past 10 degrees east, 50 degrees north.
"""
import math
import os
import random
import sys

from folder import Folder, named

DEGREE = 10**9
TEETH = 4_999  # of a comb


def staircase():
    ring = []
    for i in range(9_999):
        ring += [(1000 * i, 1000 * i), (1000 * i + 1000, 1000 * i)]
    return ring + [(0, 9_999_000), (0, 0)]


def comb():
    ring = []
    for i in range(TEETH):
        x = 1000 * i
        ring += [(x, 1000 + i), (x, 9_000_000 + i), (x + 500, 9_000_000 + i), (x + 500, 1001 + i)]
    return ring + [(4_998_500, 0), (0, 0), (0, 1000)]


def rough(chance):
    """A round outline of 20,000 positions that goes in and out."""
    ring = []
    for i in range(19_999):
        angle, radius = 2 * math.pi * i / 19_999, chance.randint(9_900_000, 10_000_000)
        ring.append((round(radius * math.cos(angle)), round(radius * math.sin(angle))))
    return ring + ring[:1]


def strip(tooth, corners):
    """A unit in a tooth of the comb, with so many corners along both sides."""
    west, half = 1000 * tooth, corners // 2
    up = [(west + 100 + 50 * (j % 2), 50_000 + j * 8_800_000 // half) for j in range(half)]
    down = [(west + 350 + 50 * (j % 2), 50_000 + j * 8_800_000 // half) for j in reversed(range(half))]
    return (down + up + down[:1])[:: -1 if tooth % 2 else 1]


def stairs(room):
    """A room with 300 corners, above stairs of 301 steps."""
    west, south = -9_900_000 + 310_000 * (room % 32), -9_900_000 + 310_000 * (room // 32)
    ring = [(west, south)]
    for i in range(301):
        ring += [(west + 1000 * i + 1000, south + 1000 * i), (west + 1000 * i + 1000, south + 1000 * i + 1000)]
    return ring + [(west, south + 301_000), (west, south)]


def turned(ring, angle):
    c, s = math.cos(angle), math.sin(angle)
    return [(round(c * x - s * y), round(s * x + c * y)) for x, y in ring]


def polygon(rings):
    positions = [[[(10 * DEGREE + x) / DEGREE, (50 * DEGREE + y) / DEGREE] for x, y in ring] for ring in rings]
    return {"type": "Polygon", "coordinates": positions}


def box(west, south, east, north):
    return [(west, south), (east, south), (east, north), (west, north), (west, south)]


def write(base, name, levels, units=()):
    """A venue of these levels, by their rings, and of these units of the first level."""
    folder = Folder()
    address = folder.add("address", None, {"address": "1 Station Road", "locality": "Ems", "country": "DE"})
    building = folder.add("building", None, {"category": "unspecified", "name": None, "address_id": address})
    properties = {"category": "transitstation", "restriction": None, "name": named("Station", 1), "address_id": None}
    folder.add("venue", polygon([box(-20_000_000, -20_000_000, 20_000_000, 20_000_000)]), properties)
    ids = []
    for ordinal, ring in enumerate(levels):
        properties = {"category": "unspecified", "outdoor": False, "ordinal": ordinal, "name": named("Level", ordinal)}
        properties |= {"address_id": address, "building_ids": [building]}
        ids.append(folder.add("level", polygon([ring]), properties))
    for number, ring in enumerate(units):
        properties = {"category": "room", "restriction": None, "accessibility": None, "name": named("Unit", number)}
        properties |= {"alt_name": None, "display_point": None, "level_id": ids[0]}
        folder.add("unit", polygon([ring]), properties)
    for _ in range(2):
        folder.add("section", polygon([box(0, 0, 1000, 1000)]), {"category": "section", "name": None, "level_id": ids[0]})
    folder.write(os.path.join(base, name))


def main():
    base, chance = sys.argv[1], random.Random(1)
    write(base, "five_rings", [rough(chance) for _ in range(5)])
    write(base, "staircases", [staircase()] * 40)
    write(base, "comb", [comb()], [strip(tooth, 200) for tooth in range(4_875)])
    write(base, "all_rings", [rough(chance) for _ in range(49)])
    write(base, "stairs", [box(-10_000_000, -10_000_000, 10_000_000, 10_000_000)], [stairs(room) for room in range(1000)])
    write(base, "comb_turned", [turned(comb(), math.pi / 8)], [turned(strip(tooth, 200), math.pi / 8) for tooth in range(100)])


if __name__ == "__main__":
    main()
