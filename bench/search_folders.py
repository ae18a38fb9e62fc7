"""Writes three venues for the search: rooms with doors to two corridors, a hall of four thousand doors, and a strip of halls.

usage: search_folders.py BASE   (BASE gets venue.toml and the folders `corridors`, `hall` and `strip`)
Every run writes the same bytes, and prints for each folder its name and the numbers of two nodes that lie far apart. `corridors` has 90
levels: a hundred rooms between two corridors with a door to each, a lift at one end, stairs at the other, joined as in `levels.py`. `hall`
has one unit of 4,095 doors with a small room behind each. `strip` has 190 halls in a row with 160 doors between neighbours. A step on
the ground is a microdegree, 10 centimetres.
"""
import os
import sys

SETTINGS = """kx = 10000000
ky = 10000000
elevator_extra = 3000
escalator_extra = 800
ramp_extra = 2000
stairs_extra = 1500
"""


def position(point):
    x, y = point
    return f"[10.{x:06d},50.{y:06d}]"


def line(a, b):
    return '{"type":"LineString","coordinates":[' + position(a) + "," + position(b) + "]}"


def box(x1, y1, x2, y2):
    corners = [(x1, y1), (x2, y1), (x2, y2), (x1, y2), (x1, y1)]
    return '{"type":"Polygon","coordinates":[[' + ",".join(map(position, corners)) + "]]}"


def identifier(i):
    return f"00000000-0000-4000-8000-{i:012d}"


def write(base, name, around, levels, passages, lowest=0):
    """Each level has units as (category, shape) and doors; a passage is (category, level, unit) to the same unit one level above."""
    folder = os.path.join(base, name)
    os.makedirs(folder)
    doors = sum(len(d) for _, d in levels)
    first_unit = len(levels) + doors + len(passages) + 1
    starts = [sum(len(units) for units, _ in levels[:k]) for k in range(len(levels))]
    rows = [("level", [(around, f'{{"ordinal":{lowest + k}}}') for k in range(len(levels))])]
    rows.append(("opening", [(door, f'{{"level_id":"{identifier(k + 1)}"}}') for k, (_, found) in enumerate(levels) for door in found]))

    def end(k, u):
        return f'{{"id":"{identifier(first_unit + starts[k] + u)}","feature_type":"unit"}}'

    rows.append(
        (
            "relationship",
            [
                (
                    "null",
                    f'{{"category":"{category}","direction":"undirected","origin":{end(k, u)},"destination":{end(k + 1, u)}}}',
                )
                for category, k, u in passages
            ],
        )
    )
    units = [
        (shape, f'{{"level_id":"{identifier(k + 1)}","category":"{word}"}}') for k, (found, _) in enumerate(levels) for word, shape in found
    ]
    rows.append(("unit", units))
    rows.append(("venue", [(around, "{}")]))
    i = 0
    for kind, items in rows:
        texts = []
        for geometry, properties in items:
            i += 1
            texts.append(
                f'{{"type":"Feature","id":"{identifier(i)}","feature_type":"{kind}","geometry":{geometry},"properties":{properties}}}'
            )
        if texts:
            with open(os.path.join(folder, kind + ".geojson"), "w", encoding="utf-8") as file:
                file.write('{"type":"FeatureCollection","features":[' + ",".join(texts) + "]}")
    with open(os.path.join(folder, "manifest.json"), "w", encoding="utf-8") as file:
        file.write('{"version":"1.0.0","created":"","language":"en"}')
    return doors, len(units)


def corridors():
    rooms = range(100)
    units = [("walkway", box(0, 100, 4000, 140)), ("walkway", box(0, 240, 4000, 280))]
    units += [("room", box(40 * j, 140, 40 * j + 40, 240)) for j in rooms]
    units += [("elevator", box(0, 60, 40, 100)), ("stairs", box(3960, 60, 4000, 100))]
    doors = [line((40 * j + 10, 140), (40 * j + 30, 140)) for j in rooms] + [line((40 * j + 10, 240), (40 * j + 30, 240)) for j in rooms]
    doors += [line((10, 100), (30, 100)), line((3970, 100), (3990, 100))]
    return units, doors


def main():
    base = sys.argv[1]
    os.makedirs(base, exist_ok=True)
    with open(os.path.join(base, "venue.toml"), "w", encoding="utf-8") as file:
        file.write(SETTINGS)

    level = corridors()
    passages = [(category, k, u) for k in range(89) for category, u in (("elevator", 102), ("stairs", 103))]
    doors, units = write(base, "corridors", box(0, 60, 4000, 280), [level] * 90, passages)
    print("corridors", doors + 2, doors + units - 3)

    south = [(40 * j, 0, 40 * j + 40, 100) for j in range(2048)]
    north = [(40 * j, 600, 40 * j + 40, 700) for j in range(2047)]
    shapes = [("room", box(0, 100, 81920, 600))] + [("room", box(*room)) for room in south + north]
    lines = [line((x1 + 10, 100), (x1 + 30, 100)) for x1, *_ in south] + [line((x1 + 10, 600), (x1 + 30, 600)) for x1, *_ in north]
    doors, units = write(base, "hall", box(0, 0, 81920, 700), [(shapes, lines)], [])
    print("hall", doors + 1, doors + units - 1)

    halls = [("room", box(1000 * i, 0, 1000 * i + 1000, 6400)) for i in range(190)]
    lines = [line((1000 * i + 1000, 40 * j + 10), (1000 * i + 1000, 40 * j + 30)) for i in range(189) for j in range(160)]
    doors, units = write(base, "strip", box(0, 0, 190000, 6400), [(halls, lines)], [])
    print("strip", doors, doors + units - 1)


if __name__ == "__main__":
    main()
