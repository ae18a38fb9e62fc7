#!/usr/bin/env python3
"""Writes small venues made by arithmetic in the fixed form, each file by `canon`, and compares each with what docs/FORMATS.md says of it; checks the folder so
written, compares the tables that `links` prints of both, and writes it again. Of the station it does the same by the loop that docs/OPERATIONS.md has.

usage: canon_folders.py [PROGRAM [VENUES [FIRST]]]   (without PROGRAM what is built in crates/venue_cli/out, else the launcher ./venue, which builds it)
The venues are those of random_ways.py, judged side by side, as many as there are processors. It prints one line, and ends with status 1 at a difference.
"""
import concurrent.futures
import json
import os
import random
import re
import shutil
import subprocess
import sys
import tempfile
from decimal import ROUND_HALF_UP, Decimal

from random_ways import BUILT, HERE, PROFILES, settings, venue_of

TOP = os.path.realpath(os.path.join(HERE, ".."))
# The properties of each type, in the order of their names.
PROPERTIES = {
    "address": "",
    "amenity": "address_id category name unit_ids",
    "anchor": "address_id unit_id",
    "building": "address_id",
    "detail": "level_id",
    "fixture": "anchor_id level_id",
    "footprint": "building_ids",
    "geofence": "",
    "kiosk": "anchor_id level_id",
    "level": "address_id building_ids ordinal",
    "occupant": "anchor_id name",
    "opening": "access_control accessibility door level_id",
    "relationship": "category destination direction intermediary origin",
    "section": "",
    "unit": "category display_point level_id name restriction",
    "venue": "address_id",
}
NULL_GEOMETRY = "address building occupant".split()
UNJUDGED = "detail geofence kiosk relationship section".split()
PASSAGES = "elevator escalator movingwalkway ramp stairs traversal".split()
MANIFEST = '{"created":"","extensions":null,"generated_by":null,"language":null,"version":"1.0.0"}'
NAMES = ["manifest.json", *(kind + ".geojson" for kind in PROPERTIES)]


def text(item):
    """A text: `"`, `\\` and bytes below 0x20 are escaped, and nothing else is."""
    return '"' + re.sub(r'["\\]|[\x00-\x1f]', lambda it: "\\" + it[0] if it[0] in '"\\' else f"\\u{ord(it[0]):04x}", item) + '"'


def object_of(members):
    """An object of values that are written already, in the order of the bytes of their names."""
    return "{" + ",".join(text(name) + ":" + members[name] for name in sorted(members, key=str.encode)) + "}"


def list_of(items):
    return "[" + ",".join(items) + "]"


def coordinate(number):
    billionths = int((number * 10**9).to_integral_value(ROUND_HALF_UP))
    whole, part = divmod(abs(billionths), 10**9)
    return f"{'-' if billionths < 0 else ''}{whole}.{part:09}"


def coordinates(item):
    """A position with its first two numbers, or a list of these."""
    return list_of(map(coordinate, item[:2]) if isinstance(item[0], Decimal) else map(coordinates, item))


def point(item):
    return "null" if item is None else object_of({"coordinates": coordinates(item["coordinates"]), "type": text("Point")})


def geometry(kind, item):
    if kind in NULL_GEOMETRY or kind in UNJUDGED:
        return "null"
    name, parts = item["type"], item["coordinates"]
    if name == "MultiPolygon" and len(parts) == 1:
        name, parts = "Polygon", parts[0]
    return object_of({"coordinates": coordinates(parts), "type": text(name)})


def identifier(item):
    return "null" if item is None else text(item)


def reference(item):
    return "null" if item is None else object_of({"feature_type": text(item["feature_type"]), "id": text(item["id"])})


def door_of(item):
    word = ((item or {}).get("type") or "").split(".")[0]
    return object_of({"type": text(word)}) if word in ("revolving", "turnstile") else "null"


def word_of(items, word):
    return list_of([text(word)]) if word in (items or []) else "null"


def passage(category):
    word = category.split(".")[0]
    return text(word if word in PASSAGES else "none")


def member(kind, name, item):
    """A property as it is written."""
    if name == "category":
        return passage(item) if kind == "relationship" else text(item)
    if name == "display_point":
        return point(item)
    if name == "name":
        return object_of({tag: text(it) for tag, it in item.items()}) if item else "null"
    if name == "restriction":
        return "null" if item is None else text("restricted")
    if name == "accessibility":
        return word_of(item, "wheelchair")
    if name == "access_control":
        return word_of(item, "outofservice")
    if name == "door":
        return door_of(item)
    if name == "ordinal":
        return str(int(item))
    if name == "direction":
        return text(item)
    if name in ("origin", "destination"):
        return reference(item)
    if name == "intermediary":
        return list_of(map(reference, item or []))
    return list_of(map(identifier, item or [])) if name.endswith("_ids") else identifier(item)


def feature(kind, item):
    given = item["properties"]
    return object_of(
        {
            "feature_type": text(kind),
            "geometry": geometry(kind, item.get("geometry")),
            "id": text(item["id"]),
            "properties": object_of({name: member(kind, name, given.get(name)) for name in PROPERTIES[kind].split()}),
            "type": text("Feature"),
        }
    )


def fixed_form(folder):
    """The files of a folder in the fixed form, by name, from what docs/FORMATS.md says of it; empty where there is no such file."""
    files = {"manifest.json": MANIFEST}
    for kind in PROPERTIES:
        path, items = os.path.join(folder, kind + ".geojson"), []
        if os.path.exists(path):
            with open(path, encoding="utf-8") as file:
                items = json.load(file, parse_float=Decimal, parse_int=Decimal)["features"]
        whole = object_of({"features": list_of(feature(kind, item) for item in items), "type": text("FeatureCollection")})
        files[kind + ".geojson"] = whole if items else ""
    return files


class Check:
    def __init__(self, program, base):
        self.program, self.base = program, base
        self.files = 0
        self.differ = 0

    def run(self, *words):
        done = subprocess.run(self.program + list(words), stdin=subprocess.DEVNULL, capture_output=True)
        return done.returncode, done.stdout

    def wrong(self, *words):
        self.differ += 1
        print(*words, file=sys.stderr)

    def write(self, folder, into):
        """Writes a folder in the fixed form, and returns its files by name."""
        os.mkdir(os.path.join(self.base, into))
        files = {}
        for name in NAMES:
            status, out = self.run("canon", self.base, folder, name)
            self.files += 1
            if status != 0:
                self.wrong("canon", folder, name, status, out[:300])
            files[name] = out
            if out:
                with open(os.path.join(self.base, into, name), "wb") as file:
                    file.write(out)
        return files

    def compare(self, what, found, wanted):
        for name in NAMES:
            if found[name] != wanted[name]:
                self.wrong(what, name, found[name][:300], wanted[name][:300])

    def judge(self, folder, checked):
        """The folder written, judged and written again; `checked` is what `check` prints of it."""
        wanted = {name: it.encode() for name, it in fixed_form(os.path.join(self.base, folder)).items()}
        first = self.write(folder, "first")
        self.compare("the form of", first, wanted)
        if self.run("check", self.base, "first") != checked:
            self.wrong("check", checked, self.run("check", self.base, "first"))
        for profile in PROFILES[:2]:
            if self.run("links", self.base, folder, profile) != self.run("links", self.base, "first", profile):
                self.wrong("links", profile)
        self.compare("written again", self.write("first", "second"), first)


def judged(program, seed):
    """How many files of a venue were written, and how many things differ."""
    with tempfile.TemporaryDirectory() as base:
        check, draw = Check(program, base), random.Random(seed)
        venue_of(draw).write(os.path.join(base, "venue"))
        with open(os.path.join(base, "venue.toml"), "w", encoding="utf-8") as file:
            file.write(settings(draw))
        status, out = check.run("check", base, "venue")
        if status != 0:
            check.wrong("check", status, out)
        else:
            check.judge("venue", (status, out))
    if check.differ:
        print(f"venue {seed}", file=sys.stderr)
    return check.files, check.differ


def loop_of_the_page():
    """The loop over the names of files that docs/OPERATIONS.md has."""
    with open(os.path.join(TOP, "docs", "OPERATIONS.md"), encoding="utf-8") as file:
        found = re.search(r"(?ms)^mkdir BASE/NEW$.*?^done$", file.read())
    return found[0] if found else "false"


def judged_station(program):
    """The same of the station, which is written by that loop too."""
    with tempfile.TemporaryDirectory() as base:
        check = Check(program, base)
        shutil.copytree(os.path.join(TOP, "examples", "station"), os.path.join(base, "station"))
        shutil.copy(os.path.join(TOP, "examples", "venue.toml"), base)
        check.judge("station", (0, b"accepted 44\nnotes 0\n"))
        loop = re.sub(r"\./venue\b", program[0], loop_of_the_page()).replace("BASE", base).replace("FOLDER", "station").replace("NEW", "third")
        done = subprocess.run(["sh", "-c", loop], stdin=subprocess.DEVNULL)
        made = {}
        for name in NAMES:
            path = os.path.join(base, "third", name)
            made[name] = b""
            if os.path.exists(path):
                with open(path, "rb") as file:
                    made[name] = file.read() or b"an empty file"
        if done.returncode != 0:
            check.wrong("the loop of docs/OPERATIONS.md ends with", done.returncode)
        check.compare("the loop of docs/OPERATIONS.md", made, {name: it.encode() for name, it in fixed_form(os.path.join(base, "station")).items()})
    return check.files, check.differ


def main():
    program = [os.path.abspath(sys.argv[1]) if len(sys.argv) > 1 else BUILT if os.path.isfile(BUILT) else os.path.join(HERE, "..", "venue")]
    venues = int(sys.argv[2]) if len(sys.argv) > 2 else 100
    first = int(sys.argv[3]) if len(sys.argv) > 3 else 1
    with concurrent.futures.ProcessPoolExecutor() as pool:
        told = [pool.submit(judged_station, program)] + [pool.submit(judged, program, seed) for seed in range(first, first + venues)]
        files, differ = (sum(column) for column in zip(*(it.result() for it in told)))
    print(f"canon_folders: {venues} venues and the station, {files} files, {differ} differences")
    return 1 if differ else 0


if __name__ == "__main__":
    sys.exit(main())
