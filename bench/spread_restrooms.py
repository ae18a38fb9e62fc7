"""Spreads a thousand restrooms over the rooms of a folder of `levels.py` or `search_folders.py`, and puts an `atm` where no way leads.

usage: spread_restrooms.py BASE NAME START   (changes the folder NAME of BASE)
It prints the number that the node START has from then on. Amenities are the first nodes: the restrooms are 0 to 999, and the `atm` is 1000, in a
column, through which nobody walks. A unit has at most one restroom more than another, and where it has several they stand in a row. Of the doors
between two halls of `strip` the last goes: with all of them and the restrooms the squares of the numbers of members would sum to more than a venue
may have.
"""
import json
import os
import sys

RESTROOMS = 1000
# Of so many doors in a row the last goes.
DOORS = {"strip": 160}


def path_of(folder, kind):
    return os.path.join(folder, kind + ".geojson")


def read(folder, kind):
    with open(path_of(folder, kind), encoding="utf-8") as file:
        return json.load(file)["features"]


def write(folder, kind, features):
    with open(path_of(folder, kind), "w", encoding="utf-8") as file:
        file.write(json.dumps({"type": "FeatureCollection", "features": features}, separators=(",", ":")))


def identifier(number):
    return f"00000000-0000-4000-9000-{number:012d}"


def feature(number, kind, geometry, coordinates, properties):
    shape = {"type": geometry, "coordinates": coordinates}
    return {"type": "Feature", "id": identifier(number), "feature_type": kind, "geometry": shape, "properties": properties}


def corners(unit):
    """The west, south, east and north of a unit that is a box, in microdegrees."""
    xs, ys = zip(*unit["geometry"]["coordinates"][0])
    return tuple(round(degrees * 1e6) for degrees in (min(xs), min(ys), max(xs), max(ys)))


def position(x, y):
    return [x / 1e6, y / 1e6]


def amenity(number, category, unit, place):
    return feature(number, "amenity", "Point", position(*place), {"category": category, "unit_ids": [unit["id"]]})


def spread(rooms):
    """The restrooms, room by room."""
    hosts = [(2 * k + 1) * len(rooms) // (2 * RESTROOMS) for k in range(RESTROOMS)]
    for k, host in enumerate(hosts):
        count, turn = hosts.count(host), k - hosts.index(host)
        west, south, east, north = corners(rooms[host])
        yield amenity(k, "restroom", rooms[host], ((west + east) // 2, south + (north - south) * (turn + 1) // (count + 1)))


def column_in(room):
    """A column of a metre in the middle of a room."""
    west, south, east, north = corners(room)
    x, y = (west + east) // 2, (south + north) // 2
    ring = [position(x + a, y + b) for a, b in ((-5, -5), (5, -5), (5, 5), (-5, 5), (-5, -5))]
    properties = {"level_id": room["properties"]["level_id"], "category": "column"}
    return feature(RESTROOMS + 1, "unit", "Polygon", [ring], properties), (x, y)


def main():
    folder, name, start = os.path.join(sys.argv[1], sys.argv[2]), sys.argv[2], int(sys.argv[3])
    units, openings = read(folder, "unit"), read(folder, "opening")
    rooms = [unit for unit in units if unit["properties"]["category"] == "room"]
    row = DOORS.get(name, len(openings) + 1)
    kept = [opening for k, opening in enumerate(openings) if k % row != row - 1]
    column, place = column_in(rooms[-1])
    amenities = [*spread(rooms), amenity(RESTROOMS, "atm", column, place)]
    write(folder, "amenity", amenities)
    write(folder, "opening", kept)
    write(folder, "unit", [*units, column])
    # The start is a unit, and openings come before units.
    print(start + len(amenities) - (len(openings) - len(kept)))


main()
