"""Writes two folders with one level each, whose doors lie on the borders of units: a grid of rooms, and one rough hall.

usage: doors.py BASE   (BASE gets the folders `grid` and `hall`)
Every run writes the same bytes. `grid` has 225 times 200 square rooms, each with a door in its east side. `hall` has one unit whose
ring has 20,000 positions at a changing distance from its middle, and 50,000 doors along its edges.
"""
import math
import os
import random
import sys

COLUMNS, ROWS, ROOM = 225, 200, 90_000
POSITIONS, DOORS = 20_000, 50_000
LEVEL = 1


def identifier(i):
    return f"00000000-0000-4000-8000-{i:012d}"


def position(point):
    x, y = point
    return f"[{10 + x / 10**9:.9f},{50 + y / 10**9:.9f}]"


def line(points):
    return '{"type":"LineString","coordinates":[' + ",".join(map(position, points)) + "]}"


def polygon(points):
    return '{"type":"Polygon","coordinates":[[' + ",".join(map(position, points)) + "]]}"


def box(x, y, size):
    return [(x, y), (x + size, y), (x + size, y + size), (x, y + size), (x, y)]


def grid():
    """The rings of the rooms, row by row, and the lines of their doors."""
    corners = [(ROOM * i, ROOM * j) for j in range(ROWS) for i in range(COLUMNS)]
    return [box(x, y, ROOM) for x, y in corners], [[(x + ROOM, y + 30_000), (x + ROOM, y + 42_000)] for x, y in corners]


def hall():
    """A ring, and the lines of the doors, two or three on each edge, both ends rounded to a nanodegree."""
    draw, count = random.Random(20260101), POSITIONS - 1
    ring = []
    for i in range(count):
        radius, angle = draw.randint(9_900_000, 10_000_000), 2 * math.pi * i / count
        ring.append((round(radius * math.cos(angle)), round(radius * math.sin(angle))))
    ring.append(ring[0])

    def on(edge, part):
        (a, b), (c, d) = ring[edge], ring[edge + 1]
        return round(a + part * (c - a)), round(b + part * (d - b))

    doors = []
    for i in range(DOORS):
        edge, part = divmod(i * count / DOORS, 1)
        doors.append([on(int(edge), part * 0.7), on(int(edge), part * 0.7 + 0.2)])
    draw.shuffle(doors)
    return [ring], doors


def write(folder, units, doors):
    os.makedirs(folder)
    with open(os.path.join(folder, "manifest.json"), "w", encoding="utf-8") as file:
        file.write('{"version":"1.0.0","created":"","language":"en"}')
    around = polygon(box(-20_000_000, -20_000_000, 60_000_000))
    level_id = f'"level_id":"{identifier(LEVEL)}"'
    i = LEVEL
    for name, rows in [
        ("level", [(around, '{"ordinal":0}')]),
        ("opening", [(line(door), "{" + level_id + "}") for door in doors]),
        ("unit", [(polygon(ring), "{" + level_id + ',"category":"room"}') for ring in units]),
        ("venue", [(around, "{}")]),
    ]:
        items = []
        for shape, properties in rows:
            items.append(
                f'{{"type":"Feature","id":"{identifier(i)}","feature_type":"{name}","geometry":{shape},"properties":{properties}}}'
            )
            i += 1
        with open(os.path.join(folder, name + ".geojson"), "w", encoding="utf-8") as file:
            file.write('{"type":"FeatureCollection","features":[' + ",\n".join(items) + "]}")


def main():
    base = sys.argv[1]
    write(os.path.join(base, "grid"), *grid())
    write(os.path.join(base, "hall"), *hall())


main()
