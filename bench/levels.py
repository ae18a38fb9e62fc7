"""Writes a venue of so many equal levels: a corridor, a hundred rooms along it, a lift at one end, stairs at the other.

usage: levels.py LEVELS BASE   (BASE gets venue.toml and the folder `levels`)
Every run writes the same bytes. Level k lies above level k - 1, and lifts and stairs join neighbours. 200 levels have 41,599
features, 41,000 nodes and 2,142,796 links.
"""
import os
import sys

ROOMS = 100
SETTINGS = """kx = 10000000
ky = 10000000
elevator_extra = 3000
escalator_extra = 800
ramp_extra = 2000
stairs_extra = 1500
"""


def position(x, y):
    return f"[10.00{x:03d},50.00{y:03d}]"


def box(x1, y1, x2, y2):
    corners = [(x1, y1), (x2, y1), (x2, y2), (x1, y2), (x1, y1)]
    return '{"type":"Polygon","coordinates":[[' + ",".join(position(*corner) for corner in corners) + "]]}"


def line(x1, y1, x2, y2):
    return '{"type":"LineString","coordinates":[' + position(x1, y1) + "," + position(x2, y2) + "]}"


# The units of a level with their categories and boxes, and its openings: the lift's and the stairs' stand last in both.
UNITS = (
    [("walkway", box(0, 10, 400, 14))]
    + [("room", box(4 * j, 0, 4 * j + 4, 10)) for j in range(ROOMS)]
    + [("elevator", box(0, 14, 4, 18)), ("stairs", box(396, 14, 400, 18))]
)
OPENINGS = [line(4 * j + 1, 10, 4 * j + 3, 10) for j in range(ROOMS)] + [line(1, 14, 3, 14), line(397, 14, 399, 14)]


def identifier(i):
    return f"00000000-0000-4000-8000-{i:012d}"


def reference(i, name):
    return f'{{"id":"{identifier(i)}","feature_type":"{name}"}}'


def features(levels):
    """For each type its features' geometries and properties, in the order of the files; they are numbered from 1 in this order."""
    first_opening = levels + 1
    first_unit = first_opening + levels * len(OPENINGS) + 2 * (levels - 1)

    def lift(k):
        return reference(first_unit + k * len(UNITS) + len(UNITS) - 2, "unit")

    def stairs(k):
        return reference(first_opening + k * len(OPENINGS) + len(OPENINGS) - 1, "opening")

    def passage(category, origin, destination):
        return "null", f'{{"category":"{category}","direction":"undirected","origin":{origin},"destination":{destination}}}'

    def level_id(k):
        return f'"level_id":"{identifier(k + 1)}"'

    yield "level", [(box(0, 0, 400, 18), f'{{"ordinal":{k - 100}}}') for k in range(levels)]
    yield "opening", [(shape, "{" + level_id(k) + "}") for k in range(levels) for shape in OPENINGS]
    passages = []
    for k in range(levels - 1):
        passages.append(passage("elevator", lift(k), lift(k + 1)))
        passages.append(passage("stairs", stairs(k), stairs(k + 1)))
    yield "relationship", passages
    yield "unit", [(shape, f'{{{level_id(k)},"category":"{word}"}}') for k in range(levels) for word, shape in UNITS]
    yield "venue", [(box(0, 0, 400, 18), "{}")]


def write(path, text):
    with open(path, "w", encoding="utf-8", newline="") as file:
        file.write(text)


def main():
    levels, base = int(sys.argv[1]), sys.argv[2]
    folder = os.path.join(base, "levels")
    os.makedirs(folder)
    write(os.path.join(base, "venue.toml"), SETTINGS)
    write(os.path.join(folder, "manifest.json"), '{"version":"1.0.0","created":"","language":"en"}')
    i = 0
    for name, rows in features(levels):
        items = []
        for geometry, properties in rows:
            i += 1
            items.append(
                f'{{"type":"Feature","id":"{identifier(i)}","feature_type":"{name}","geometry":{geometry},"properties":{properties}}}'
            )
        if items:
            write(os.path.join(folder, name + ".geojson"), '{"type":"FeatureCollection","features":[' + ",".join(items) + "]}")


main()
