"""Small venues of one level, written for a check: rooms with walls, their anchors and doors."""
import json
import os
import shutil
import sys
import tempfile

TOP = os.path.join(os.path.dirname(os.path.abspath(__file__)), "..")
NAME = "00000000-0000-4000-8000-{:0>12}"
METRE = 10_000


def at(place):
    """A position, from nanodegrees past 10 degrees east and 50 degrees north."""
    return [(10 * 10**9 + place[0]) / 10**9, (50 * 10**9 + place[1]) / 10**9]


def ring(places):
    return [at(place) for place in [*places, places[0]]]


def box(west, south, east, north):
    return [(west, south), (east, south), (east, north), (west, north)]


def in_metres(places):
    return [(round(METRE * x), round(METRE * y)) for x, y in places]


class Venue:
    """A venue with one level of this size in nanodegrees. Its rooms are lists of polygons, which are lists of rings."""

    def __init__(self, east=10**8, north=10**8):
        self.files = {}
        whole = {"type": "Polygon", "coordinates": [ring(box(0, 0, east, north))]}
        self.add("venue", 2, whole, {})
        self.add("level", 10, whole, {"ordinal": 0})

    def add(self, kind, number, geometry, properties):
        self.files.setdefault(kind, []).append({"type": "Feature", "id": NAME.format(number), "feature_type": kind, "geometry": geometry, "properties": properties})
        return self

    def room(self, *polygons, number=300, category="walkway", display=None, **more):
        shape = {"type": "MultiPolygon", "coordinates": [[ring(it) for it in polygon] for polygon in polygons]}
        if len(polygons) == 1:
            shape = {"type": "Polygon", "coordinates": shape["coordinates"][0]}
        point = {"display_point": {"type": "Point", "coordinates": at(display)}} if display else {}
        return self.add("unit", number, shape, {"category": category, "level_id": NAME.format(10), **point, **more})

    def anchor(self, *places, first=41, unit=300):
        for k, place in enumerate(places):
            self.add("anchor", first + k, {"type": "Point", "coordinates": at(place)}, {"unit_id": NAME.format(unit)})
        return self

    def door(self, *places, number=101):
        return self.add("opening", number, {"type": "LineString", "coordinates": [at(place) for place in places]}, {"level_id": NAME.format(10)})

    def write(self, folder):
        os.mkdir(folder)
        shutil.copy(os.path.join(TOP, "examples", "station", "manifest.json"), folder)
        for kind, features in self.files.items():
            with open(os.path.join(folder, f"{kind}.geojson"), "w", encoding="utf-8") as file:
                json.dump({"type": "FeatureCollection", "features": features}, file)


def set_up(base, clear, more="", kx=10_000_000, ky=10_000_000):
    """The settings of the station, under which ways go round walls or straight, at another scale where one is given."""
    with open(os.path.join(TOP, "checks", "rows", "venue.toml"), encoding="utf-8") as file:
        settings = file.read().replace("kx = 10000000", f"kx = {kx}").replace("ky = 10000000", f"ky = {ky}")
    with open(os.path.join(base, "venue.toml"), "w", encoding="utf-8") as file:
        file.write(('inside = "clear"\n' if clear else "") + more + settings)


class Kept:
    """A folder of examples."""

    def __init__(self, *path):
        self.path = os.path.join(TOP, "examples", *path)

    def write(self, folder):
        shutil.copytree(self.path, folder)


ELL = in_metres([(0, 0), (40, 0), (40, 10), (10, 10), (10, 40), (0, 40)])


def ell(category="walkway", anchored=True, **more):
    venue = Venue(100 * METRE, 60 * METRE).room([ELL], category=category, **more)
    return venue.anchor(*in_metres([(35, 5), (5, 35)])) if anchored else venue


def judge_rows(title, rows, counted, differences):
    """The status of a script that judges rows, each over a base of its own: 1 where there is a difference. The program is named on the command line,
    or it is the launcher."""
    program = [sys.argv[1]] if len(sys.argv) > 1 else [os.path.join(TOP, "venue")]
    found = []
    for row in rows:
        with tempfile.TemporaryDirectory() as base:
            found += differences(program, base, row)
    for line in found:
        print(line, file=sys.stderr)
    print(f"{title}: {len(rows)} {counted}, {len(found)} differences")
    return 1 if found else 0
