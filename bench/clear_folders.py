"""Writes three venues for the search where ways go round walls: a hall with columns, levels whose corridors are L's, and a serpentine.

usage: clear_folders.py BASE   (BASE gets venue.toml and the folders `hall`, `levels` and `serpentine`)
Every run writes the same bytes, and prints for each folder its name and the numbers of two nodes that lie far apart. `hall` has one unit of
4,000 doors, a thousand on each side, with a small room behind each, and twenty columns. `levels` has 200 levels: a corridor round a corner with a hundred rooms, a lift at
one end and stairs at the other, joined as in `levels.py`. `serpentine` has a hall of 314 thin walls, each open at the other end than the one
before it: 1,256 corners. A step on the ground is a microdegree, 10 centimetres.
"""
import os
import sys

from search_folders import SETTINGS, box, line, position, write


def room(around, holes=()):
    rings = ["[" + ",".join(map(position, [*ring, ring[0]])) + "]" for ring in [around, *holes]]
    return '{"type":"Polygon","coordinates":[' + ",".join(rings) + "]}"


def corners_of(x1, y1, x2, y2):
    return [(x1, y1), (x2, y1), (x2, y2), (x1, y2)]


def hall():
    """Doors on all four sides, a thousand each."""
    near, far = 100, 40100
    along = range(near, far, 40)
    columns = [corners_of(x, y, x + 100, y + 100) for x in range(4050, far, 8000) for y in range(5050, far, 10000)]
    doors, rooms = [], []
    for at in along:
        doors += [line((at + 10, y), (at + 30, y)) for y in (near, far)] + [line((x, at + 10), (x, at + 30)) for x in (near, far)]
        rooms += [box(at, y, at + 40, y + 100) for y in (0, far)] + [box(x, at, x + 100, at + 40) for x in (0, far)]
    shapes = [("room", room(corners_of(near, near, far, far), columns))] + [("room", it) for it in rooms]
    return box(0, 0, far + 100, far + 100), shapes, doors


def level():
    corridor = [(100, 100), (2140, 100), (2140, 140), (140, 140), (140, 2140), (100, 2140)]
    along = range(100, 2100, 40)
    shapes = [("walkway", room(corridor))]
    shapes += [("room", box(at, 0, at + 40, 100)) for at in along] + [("room", box(0, at, 100, at + 40)) for at in along]
    shapes += [("elevator", box(2140, 100, 2180, 140)), ("stairs", box(100, 2140, 140, 2180))]
    doors = [line((at + 10, 100), (at + 30, 100)) for at in along] + [line((100, at + 10), (100, at + 30)) for at in along]
    return shapes, doors + [line((2140, 110), (2140, 130)), line((110, 2140), (130, 2140))]


def serpentine():
    walls = [corners_of(1 if k % 2 else 30, 138 + 40 * k, 3970 if k % 2 else 3999, 140 + 40 * k) for k in range(314)]
    north = 100 + 40 * 315
    shapes = [("room", room(corners_of(0, 100, 4000, north), walls)), ("room", box(1980, 0, 2020, 100)), ("room", box(1980, north, 2020, north + 100))]
    return box(0, 0, 4000, north + 100), shapes, [line((1990, 100), (2010, 100)), line((1990, north), (2010, north))]


def main():
    base = sys.argv[1]
    os.makedirs(base, exist_ok=True)
    with open(os.path.join(base, "venue.toml"), "w", encoding="utf-8") as file:
        file.write('inside = "clear"\n' + SETTINGS)

    around, shapes, lines = hall()
    doors, units = write(base, "hall", around, [(shapes, lines)], [])
    print("hall", doors + 1, doors + units - 1)

    one = level()
    passages = [(category, k, u) for k in range(199) for category, u in (("elevator", 101), ("stairs", 102))]
    doors, units = write(base, "levels", box(0, 0, 2180, 2180), [one] * 200, passages, -20)
    print("levels", doors + 1, doors + units - 3)

    around, shapes, lines = serpentine()
    doors, units = write(base, "serpentine", around, [(shapes, lines)], [])
    print("serpentine", doors + 1, doors + units - 1)


if __name__ == "__main__":
    main()
