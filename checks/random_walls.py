#!/usr/bin/env python3
"""Makes small venues with walls in their rooms, by arithmetic, and compares the table of links that `links` prints with one that is made here from
docs/FORMATS.md alone: nodes, corners, who sees whom, hosts, lengths.

usage: random_walls.py [PROGRAM [VENUES [FIRST]]]   (without PROGRAM the launcher ./venue, which builds the program if need be)
Venues have one to three rooms: boxes with columns, fins, spikes and notches, L's, combs, and rooms of two polygons; anchors anywhere in them, on walls
and at corners too, amenities in two rooms, doors on borders, display points inside and outside, moving walkways, settings of several tolerances, and
ways that go straight or round walls. It prints one line, and ends with status 1 at a difference.
"""
import concurrent.futures
import os
import random
import subprocess
import sys
import tempfile

from rooms import NAME, TOP, Venue, at, set_up

sys.path.insert(0, os.path.join(TOP, "examples"))
from sight import corners_of, edges_of, is_inside, is_near, joined, length

METRE = 10_000
SHAPES = ("box", "ell", "comb", "columns", "fin", "spike", "notch", "two", "court")


# ---- the table


def table(rooms, anchors, amenities, doors, clear, border, contain, scale):
    """The lines of the table of who walks. Rooms are names, categories, polygons and display points."""
    names, spots, of = [], [], {name: [] for name, *_ in rooms}

    def node(name, spot, units):
        for unit in units:
            of[unit].append(len(names))
        names.append(name)
        spots.append(spot)

    for name, (x, y), units in amenities:
        node(name, (2 * x, 2 * y), units)
    for name, (x, y), unit in anchors:
        node(name, (2 * x, 2 * y), [unit])
    for name, (p, q) in doors:
        touched = [unit for unit, _, polygons, _ in rooms if all(any(is_near(v, edge, border) for edge in edges_of(polygons)) for v in (p, q))]
        node(name, (p[0] + q[0], p[1] + q[1]), touched)
    for name, _, polygons, shown in rooms:
        xs, ys = zip(*(p for polygon in polygons for ring in polygon for p in ring))
        node(name, (2 * shown[0], 2 * shown[1]) if shown else (min(xs) + max(xs), min(ys) + max(ys)), [name])
    for name, category, polygons, _ in rooms if clear else []:
        for x, y in corners_of(polygons) if category != "movingwalkway" else []:
            node(name, (2 * x, 2 * y), [name])
    lines = [f"node {name}" for name in names]
    for name, category, polygons, _ in rooms:
        if category == "movingwalkway":
            continue
        members = sorted(of[name])
        others = joined(members, spots, polygons, max(border, contain), scale) if clear else {a: set(members) - {a} for a in members}
        lines += [f"link {a} {b} {length(spots[a], spots[b], scale)} {name}" for a in members for b in sorted(others[a])]
    return ["imdf-links 1", *lines, "end"]


# ---- venues


def shape(draw, kind, x, y):
    """The polygons of a room of twenty metres, from its south-west corner, in decimetres."""
    outer = [(0, 0), (200, 0), (200, 200), (0, 200)]
    if kind == "ell":
        a, b = draw.randint(2, 15) * 10, draw.randint(2, 15) * 10
        polygons = [[[(0, 0), (200, 0), (200, b), (a, b), (a, 200), (0, 200)]]]
    elif kind == "comb":
        teeth = [(x, y) for i in range(1, 4) for x, y in ((50 * i - 10, 200), (50 * i - 10, 60), (50 * i, 60), (50 * i, 200))]
        polygons = [[[(0, 0), (200, 0), (200, 200), *reversed(teeth), (0, 200)]]]
    elif kind == "columns":
        spaces = draw.sample([(i, j) for i in range(1, 6) for j in range(1, 6)], draw.randint(1, 5))
        holes = [[(30 * i, 30 * j), (30 * i, 30 * j + 10), (30 * i + 10, 30 * j + 10), (30 * i + 10, 30 * j)] for i, j in spaces]
        polygons = [[outer, *(hole[:: draw.choice((1, -1))] for hole in holes)]]
    elif kind == "fin":
        at, wide = draw.randint(5, 15) * 10, draw.choice((1, 2, 10))
        polygons = [[[(0, 0), (at, 0), (at, 150), (at + wide, 150), (at + wide, 0), (200, 0), (200, 200), (0, 200)]]]
    elif kind == "spike":
        at = draw.randint(5, 15) * 10
        polygons = [[[(0, 0), (at, 0), (at, 150), (at, 0), (200, 0), (200, 200), (0, 200)]]]
    elif kind == "notch":
        polygons = [[[(0, 0), (80, 0), (80, 0), (80, 70), (120, 70), (120, 0), (200, 0), (200, 200), (60, 200), (60, 140), (40, 140), (40, 200), (0, 200)]]]
    elif kind == "two":
        gap = draw.choice((0, 10, 60))
        polygons = [[[(0, 0), (80, 0), (80, 200), (0, 200)]], [[(80 + gap, 0), (200, 0), (200, 200), (80 + gap, 200)]]]
    elif kind == "court":
        polygons = [[outer, [(60, 60), (60, 140), (140, 140), (140, 60)]]]
    else:
        polygons = [[outer]]
    places = [[[(x + 1000 * p, y + 1000 * q) for p, q in ring] for ring in polygon] for polygon in polygons]
    turn = draw.choice((1, -1))
    return [[ring[::turn] for ring in polygon] for polygon in places]


def somewhere(draw, polygons, contain):
    """A place of a room: on a grid, at a position of its rings, or beside one, inside or near enough."""
    edges = edges_of(polygons)
    xs, ys = zip(*(p for edge in edges for p in edge))
    while True:
        if draw.random() < 0.3:
            x, y = draw.choice(draw.choice(edges))
            p = (x + draw.choice((0, 0, 500, -500, 4000, -9000)), y + draw.choice((0, 0, 500, -500, 4000, -9000)))
        else:
            p = (draw.randint(min(xs) // 5000, max(xs) // 5000) * 5000, draw.randint(min(ys) // 5000, max(ys) // 5000) * 5000)
        if is_inside(p, edges) or any(is_near(p, edge, contain) for edge in edges):
            return p


def judged(program, seed):
    """How a venue's table differs, none where it doesn't."""
    draw = random.Random(seed)
    border, contain = draw.choice((0, 1000, 10_000)), draw.choice((0, 1000, 5000, 20_000))
    kx, ky, clear = draw.choice((10_000_000, 7_442_294)), draw.choice((10_000_000, 11_119_305)), draw.random() < 0.85
    venue, rooms, anchors, amenities, doors = Venue(10**8, 10**8), [], [], [], []
    origins = [(10**6, 10**6), (10**6 + 200_000, 10**6), (10**6, 10**6 + 200_000)][: draw.randint(1, 3)]
    for k, (x, y) in enumerate(origins):
        polygons, category = shape(draw, draw.choice(SHAPES), x, y), "movingwalkway" if draw.random() < 0.1 else "walkway"
        shown = (x + draw.randint(-2, 22) * METRE, y + draw.randint(-2, 22) * METRE) if draw.random() < 0.5 else None
        venue.room(*polygons, number=300 + k, category=category, display=shown)
        rooms.append((NAME.format(300 + k), category, polygons, shown))
        for _ in range(draw.randint(1, 6)):
            place, number = somewhere(draw, polygons, contain), 41 + len(anchors)
            venue.anchor(place, first=number, unit=300 + k)
            anchors.append((NAME.format(number), place, NAME.format(300 + k)))
    if draw.random() < 0.5:
        place, named = somewhere(draw, rooms[0][2], contain), [name for name, *_ in rooms]
        venue.add("amenity", 31, {"type": "Point", "coordinates": at(place)}, {"category": "restroom", "unit_ids": named})
        amenities.append((NAME.format(31), place, named))
    for _ in range(draw.randint(0, 6)):
        (a, b), number = draw.choice(edges_of(draw.choice(rooms)[2])), 101 + len(doors)
        steps = max(abs(b[0] - a[0]), abs(b[1] - a[1])) // METRE
        if steps >= 2:
            i = draw.randint(0, steps - 2)
            ends = [(a[0] + (b[0] - a[0]) * j // steps, a[1] + (b[1] - a[1]) * j // steps) for j in (i, i + 1)]
            venue.door(*ends, number=number)
            doors.append((NAME.format(number), ends))
    with tempfile.TemporaryDirectory() as base:
        set_up(base, clear, f"border_tol = {border}\ncontain_tol = {contain}\n", kx, ky)
        venue.write(os.path.join(base, "folder"))
        told = subprocess.run([*program, "check", base, "folder"], capture_output=True, text=True).stdout
        found = subprocess.run([*program, "links", base, "folder", "walk"], capture_output=True, text=True).stdout.splitlines()
    if not told.startswith("accepted"):
        return f"venue {seed}: check prints {told[:200]!r}"
    wanted = table(rooms, anchors, amenities, doors, clear, border, contain, (kx, ky))
    return None if found == wanted else f"venue {seed}: " + next((f"{a!r}, wanted {b!r}" for a, b in zip(found, wanted) if a != b), f"{len(found)} lines, wanted {len(wanted)}")


def main():
    program = [sys.argv[1]] if len(sys.argv) > 1 else [os.path.join(TOP, "venue")]
    venues = int(sys.argv[2]) if len(sys.argv) > 2 else 200
    first = int(sys.argv[3]) if len(sys.argv) > 3 else 1
    with concurrent.futures.ProcessPoolExecutor() as pool:
        found = [line for line in pool.map(judged, [program] * venues, range(first, first + venues)) if line]
    for line in found[:20]:
        print(line, file=sys.stderr)
    print(f"random_walls: {venues} venues, {len(found)} differences")
    return 1 if found else 0


if __name__ == "__main__":
    sys.exit(main())
