"""Writes a small folder that was made to be judged slowly, and that is within every limit.

usage: hostile_folders.py BASE NAME   (BASE gets venue.toml and the folder `folder`; without both words the names, a line each with what it is)
Every run writes the same bytes. Features have no property that they needn't have. Figures are in nanodegrees past 10 degrees east, 50
degrees north.
"""
import math
import os
import sys

from limits import box, comb, strip, turned

TYPES = (
    "address amenity anchor building detail fixture footprint geofence kiosk level occupant opening relationship section"
    " unit venue"
).split()
FILE_LIMIT = 33_554_432
ROOM = 1_000_000  # the side of the box that all rooms have
ANGLE = math.pi / 8
SETTINGS = "kx = 7155000\nky = 11126000\n"


def positions(points):
    return "[" + ",".join(f"[{10 + x / 10**9:.9f},{50 + y / 10**9:.9f}]" for x, y in points) + "]"


def polygon(*rings):
    return '{"type":"Polygon","coordinates":[' + ",".join(map(positions, rings)) + "]}"


def line(*points):
    return '{"type":"LineString","coordinates":' + positions(points) + "}"


def point(place):
    return '{"type":"Point","coordinates":' + positions([place])[1:-1] + "}"


def identifier(number):
    return f"00000000-0000-4000-8000-{number:012d}"


class Folder:
    """The features of each type as text. They are numbered from 1 in the order in which they come."""

    def __init__(self):
        self.texts = {}
        self.features = 0
        self.add("venue", polygon(box(-20_000_000, -20_000_000, 20_000_000, 20_000_000)), "{}")

    def add(self, name, geometry, properties):
        self.features += 1
        head = f'{{"type":"Feature","id":"{identifier(self.features)}","feature_type":"{name}"'
        self.texts.setdefault(name, []).append(f'{head},"geometry":{geometry},"properties":{properties}}}')
        return self.features

    def level(self, shape, ordinal=0):
        return self.add("level", shape, f'{{"ordinal":{ordinal}}}')

    def unit(self, level, shape, category="room", more=""):
        return self.add("unit", shape, f'{{"level_id":"{identifier(level)}","category":"{category}"{more}}}')

    def opening(self, level, *points):
        self.add("opening", line(*points), f'{{"level_id":"{identifier(level)}"}}')

    def write(self, base):
        for name, texts in self.texts.items():
            write_file(base, name, '{"type":"FeatureCollection","features":[' + ",".join(texts) + "]}")


def write_file(base, name, text):
    if len(text) > FILE_LIMIT:
        sys.exit(f"{len(text)} bytes of {name}.geojson are more than a file may have")
    with open(os.path.join(base, "folder", name + ".geojson"), "w", encoding="utf-8") as file:
        file.write(text)


def wide_level(folder):
    return folder.level(polygon(box(-19_000_000, -19_000_000, 19_000_000, 19_000_000)))


def grid(count, start, end):
    """So many places in rows between two figures of both axes."""
    side = math.isqrt(count - 1) + 1
    step = (end - start) // side
    return [(start + step * (k % side), start + step * (k // side)) for k in range(count)]


def rooms(count, ring, openings):
    """So many rooms of one ring over each other, and openings that begin at these places."""
    folder = Folder()
    level, shape = wide_level(folder), polygon(ring)
    for _ in range(count):
        folder.unit(level, shape)
    for x, y in openings:
        folder.opening(level, (x, y), (x + 50, y))
    return folder


def boxes():
    return rooms(49_000, box(0, 0, ROOM, ROOM), grid(49_000, 100_000, 900_000))


def triangles():
    return rooms(49_000, [(0, 0), (ROOM, 0), (0, ROOM), (0, 0)], grid(49_000, 100_000, 400_000))


def doors(count):
    return rooms(count + 1, box(0, 0, ROOM, ROOM), [(100 + k * 900_000 // count, 0) for k in range(count)])


def fan():
    """A way to and fro between a short column in the west and a long one in the east, and back round the short one; in all 19,999 positions."""
    count = 9_997
    ring = [it for k in range(count) for it in ((0, k), (10_000_000, 1000 * k))]
    return ring + [(10_000_000, 1000 * count), (-1000, 1000 * count), (-1000, 0), (-500, 0), (0, 0)]


def fans():
    folder = Folder()
    shape = polygon(fan())
    for ordinal in range(50):
        folder.level(shape, ordinal)
    return folder


def turned_comb(west=0):
    return turned([(x + west, y) for x, y in comb()], ANGLE)


def strips(count):
    return [turned(strip(tooth, 200), ANGLE) for tooth in range(count)]


def combs_own():
    folder = Folder()
    shape = polygon(turned_comb())
    level = folder.level(shape)
    for _ in range(48):
        folder.unit(level, shape)
    return folder


def comb_units():
    folder = Folder()
    level = folder.level(polygon(turned_comb()))
    for ring in strips(4_875):
        folder.unit(level, polygon(ring))
    return folder


def comb_holes():
    folder = Folder()
    folder.unit(wide_level(folder), polygon(turned_comb(), *strips(4_875)))
    return folder


def comb_amenities():
    """Amenities in a tooth of the last of forty combs each, and between the teeth of the others."""
    folder = Folder()
    level = wide_level(folder)
    shapes = [polygon(turned_comb())] * 39 + [polygon(turned_comb(500))]
    units = ",".join(f'"{identifier(folder.unit(level, shape, "structure"))}"' for shape in shapes)
    for k in range(18_500):
        place = turned([(1000 * (k % 4_900) + 750, 100_000 + 2_000_000 * (k // 4_900))], ANGLE)[0]
        folder.add("amenity", point(place), f'{{"category":"atm","unit_ids":[{units}]}}')
    return folder


def names(tag):
    """A unit, an amenity and an occupant, each with a name of 2,500,000 tags."""
    folder = Folder()
    name = '"name":{' + ",".join(f'"{tag(k):07}":""' for k in range(2_500_000)) + "}"
    unit = folder.unit(wide_level(folder), polygon(box(0, 0, ROOM, ROOM)), more="," + name)
    folder.add("amenity", point((ROOM // 2, ROOM // 2)), f'{{"category":"atm","unit_ids":["{identifier(unit)}"],{name}}}')
    anchor = folder.add("anchor", point((ROOM // 2, ROOM // 2)), f'{{"unit_id":"{identifier(unit)}"}}')
    folder.add("occupant", "null", f'{{"anchor_id":"{identifier(anchor)}","category":"shopping",{name}}}')
    return folder


class Ones:
    """Sixteen files of features that are all the number 1, one file by sixteen names."""

    def write(self, base):
        begin, end = '{"type":"FeatureCollection","features":[1', "]}"
        write_file(base, TYPES[0], begin + ",1" * ((FILE_LIMIT - len(begin) - len(end)) // 2) + end)
        paths = [os.path.join(base, "folder", name + ".geojson") for name in TYPES]
        for path in paths[1:]:
            os.link(paths[0], path)


# by name: how it is made, and what it is
FOLDERS = {
    "boxes": (boxes, "49,000 rooms of one box, 49,000 openings in its middle"),
    "triangles": (triangles, "49,000 rooms of one triangle, 49,000 openings in its middle"),
    "doors_10000": (lambda: doors(10_000), "10,000 doors on the border of 10,001 rooms of one box"),
    "doors_8000": (lambda: doors(8_000), "8,000 doors on the border of 8,001 rooms of one box"),
    "fans": (fans, "a fan of 19,999 positions on fifty levels"),
    "combs_own": (combs_own, "a turned comb as a level and 48 units of it"),
    "comb_units": (comb_units, "975,000 vertices of units in a turned comb"),
    "comb_holes": (comb_holes, "975,000 vertices of holes in a turned comb"),
    "comb_amenities": (comb_amenities, "18,500 amenities, each in the last of forty turned combs"),
    "tags_apart": (lambda: names(lambda k: k * 1_618_033 % 2_500_000), "three names of 2,500,000 tags, in no order"),
    "tags_equal": (lambda: names(lambda k: 0), "three names of one tag, 2,500,000 times"),
    "tags_twice": (lambda: names(lambda k: k * 1_618_033 % 1_250_000), "three names of 1,250,000 tags, each twice, in no order"),
    "ones": (Ones, "sixteen files of features that are all the number 1"),
}


def main(*words):
    if not words:
        for name, (_, title) in FOLDERS.items():
            print(name, title)
        return
    base, name = words
    os.makedirs(os.path.join(base, "folder"))
    with open(os.path.join(base, "venue.toml"), "w", encoding="utf-8") as file:
        file.write(SETTINGS + ("contain_tol = 100\n" if name == "comb_amenities" else ""))
    with open(os.path.join(base, "folder", "manifest.json"), "w", encoding="utf-8") as file:
        file.write('{"version":"1.0.0","created":"","language":"en"}')
    FOLDERS[name][0]().write(base)


if __name__ == "__main__":
    main(*sys.argv[1:])
