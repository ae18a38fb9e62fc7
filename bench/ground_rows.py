"""Prints the openings and units of a folder as rows of whole nanodegrees, for `touches.cpp`.

usage: ground_rows.py FOLDER
First how many openings and units there are. A line an opening: its level, a number of positions, x and y of each. A line a unit: its
level, a number of rings, and for each a number of positions, x and y of each. Levels are numbered as they come.
"""
import json
import os
import sys
from decimal import Decimal


def features(folder, name):
    with open(os.path.join(folder, name + ".geojson"), encoding="utf-8") as file:
        return json.load(file, parse_float=Decimal)["features"]


def positions(points):
    return " ".join([str(len(points))] + [f"{int(x * 10**9)} {int(y * 10**9)}" for x, y in points])


def rings(geometry):
    parts = geometry["coordinates"] if geometry["type"] == "MultiPolygon" else [geometry["coordinates"]]
    return [ring for part in parts for ring in part]


def main():
    openings, units = features(sys.argv[1], "opening"), features(sys.argv[1], "unit")
    print(len(openings), len(units))
    levels = {}

    def level(feature):
        return levels.setdefault(feature["properties"]["level_id"].lower(), len(levels))

    for opening in openings:
        print(level(opening), positions(opening["geometry"]["coordinates"]))
    for unit in units:
        borders = rings(unit["geometry"])
        print(level(unit), len(borders), " ".join(positions(ring) for ring in borders))


main()
