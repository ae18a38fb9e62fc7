#!/usr/bin/env python3
"""Writes what nginx serves for the page: the venue cut into levels, the tables of links of all profiles cut the same way, where ways go round walls
the exact outlines of the rooms with corners, and nginx.conf.

usage: site.py BASE FOLDER SITE [PORT [SERVER [STAFF]]]
Without these the page is at port 8080, the server at 127.0.0.1:7070, and nobody gets the page of staff or changes anything; STAFF is the
network from which that may be, as 10.0.0.0/8, or several with a comma between. The program is that of the variable VENUE, else the launcher
./venue. Run it again with each publication, with the folder that is published. Of BASE/venue.toml it takes what the page draws and says
by, and never the keys of staff. It prints what it wrote. What can't be served it says in words, of a folder that is rejected also what
`venue links` prints, and then nothing is written.
"""
import hashlib
import ipaddress
import json
import os
import re
import shutil
import subprocess
import sys
import tomllib
from collections import Counter
from decimal import ROUND_HALF_UP, Decimal

from cut import BETWEEN, Cut, nodes_text
from files import Refused, compact, read, write

HERE = os.path.dirname(os.path.abspath(__file__))
PROGRAM = os.environ.get("VENUE") or os.path.join(HERE, "..", "..", "venue")
PASSAGES = ["elevator", "escalator", "movingwalkway", "ramp", "stairs", "traversal"]
SOLID = {"opentobelow", "column", "brick", "concrete", "drywall", "glass", "wood", "structure", "vegetation"}
MOST_PART = 67_108_864
KEPT = 2  # sites of earlier publications that pages may still have open


def settings(base):
    try:
        told = tomllib.loads(read(os.path.join(base, "venue.toml")).decode("utf-8-sig"))
        profiles = ["walk", "wheelchair"] + [profile["name"] for profile in told.get("profile", [])]
        extras = {name: told.get(f"{name}_extra", 0) for name in PASSAGES}
        return {"kx": told["kx"], "ky": told["ky"], "profiles": profiles, "extras": extras}
    except (OSError, ValueError, KeyError, TypeError) as error:
        raise Refused(f"the settings {base}/venue.toml can't be read: {error}") from error


def identifier(text):
    digits = re.sub(r"^(urn:uuid:|\{)|\}$|-", "", str(text).lower())
    if not re.fullmatch("[0-9a-f]{32}", digits):
        raise ValueError("no identifier")
    return "-".join(digits[a:b] for a, b in ((0, 8), (8, 12), (12, 16), (16, 20), (20, 32)))


def names(value):
    """The texts of a name by language, or None."""
    found = {tag: text for tag, text in (value or {}).items() if isinstance(text, str) and text.strip()} if isinstance(value, dict) else {}
    return found or None


class Venue:
    """What is drawn and said of a folder: its levels with their features, each with its place among them, in centimetres from one corner."""

    def __init__(self, folder, told):
        self.folder, self.told, self.origin, self.left = folder, told, None, 0
        self.levels, self.passages, self.features, self.node_of = [], [], {}, {}
        for kind in ("venue", "level", "unit", "opening", "anchor", "amenity", "occupant", "relationship"):
            for feature in self.file(kind + ".geojson").get("features", []):
                try:
                    getattr(self, kind)(identifier(feature["id"]), feature.get("geometry"), feature["properties"])
                except (KeyError, ValueError, TypeError, IndexError, AttributeError):
                    self.left += 1
        self.language = str(self.file("manifest.json").get("language") or "en")
        if not self.levels:
            raise Refused(f"the folder {folder} has no level, so there is nothing to draw")

    def file(self, name, **how):
        path = os.path.join(self.folder, name)
        return json.loads(read(path).decode("utf-8-sig"), **how) if os.path.exists(path) else {}

    def at(self, position):
        longitude, latitude = position[:2]
        self.origin = self.origin or (longitude, latitude)
        return round((longitude - self.origin[0]) * self.told["kx"]), round((self.origin[1] - latitude) * self.told["ky"])

    def rings(self, geometry):
        parts = [geometry["coordinates"]] if geometry["type"] == "Polygon" else geometry["coordinates"]
        return [[value for position in ring for value in self.at(position)] for rings in parts for ring in rings]

    def add(self, it, level, point, its, **more):
        """Keeps a feature at its level, and where it stands there."""
        it |= {"category": str(its.get("category") or it["type"]).split(".")[0], "point": point} | more
        it |= {key: value for key, value in (("name", names(its.get("name"))), ("alt", names(its.get("alt_name")))) if value}
        self.features[it["id"]] = level, len(self.levels[level]["features"])
        self.levels[level]["features"].append(it)

    def venue(self, _, geometry, its):
        self.name = names(its.get("name"))

    def level(self, id, geometry, its):
        self.features[id] = len(self.levels), None
        rings = self.rings(geometry)
        self.levels.append({"id": id, "ordinal": round(its["ordinal"]), "name": names(its.get("name")), "bounds": box(rings), "rings": rings, "features": []})

    def unit(self, id, geometry, its):
        level, rings = self.features[identifier(its["level_id"])][0], self.rings(geometry)
        a, b, c, d = box(rings)
        display = its.get("display_point")
        self.add({"id": id, "type": "unit"}, level, self.at(display["coordinates"]) if display else [(a + c) // 2, (b + d) // 2], its, rings=rings)
        if self.get(id)["category"] not in SOLID:
            self.node_of[id] = id

    def get(self, id):
        level, place = self.features[id]
        return self.levels[level]["features"][place]

    def opening(self, id, geometry, its):
        line = [value for position in geometry["coordinates"] for value in self.at(position)]
        point = [(line[0] + line[-2]) // 2, (line[1] + line[-1]) // 2]
        self.add({"id": id, "type": "opening"}, self.features[identifier(its["level_id"])][0], point, its, line=line)
        self.node_of[id] = id

    def anchor(self, id, geometry, its):
        level, unit = self.features[identifier(its["unit_id"])]
        self.add({"id": id, "type": "anchor"}, level, self.at(geometry["coordinates"]), its, unit=unit)
        self.node_of[id] = id

    def amenity(self, id, geometry, its):
        level, unit = self.features[identifier(its["unit_ids"][0])]
        self.add({"id": id, "type": "amenity"}, level, self.at(geometry["coordinates"]), its, unit=unit)
        self.node_of[id] = id

    def occupant(self, id, _, its):
        anchor = identifier(its["anchor_id"])
        self.add({"id": id, "type": "occupant"}, self.features[anchor][0], self.get(anchor)["point"], its,
                 unit=self.get(anchor)["unit"], anchor=self.features[anchor][1])
        self.node_of[id] = anchor

    def relationship(self, id, _, its):
        ends = [identifier(end["id"]) for end in [its.get("origin"), *(its.get("intermediary") or []), its.get("destination")] if end]
        levels = [self.features[end][0] for end in ends if end in self.features]
        category = str(its.get("category")).split(".")[0]
        self.passages.append({"id": id, "category": category, "ends": ends, "levels": levels} | ({"name": named} if (named := names(its.get("name"))) else {}))

    def walls(self, units):
        """By level the polygons of these units that can have corners, each ring in whole nanodegrees east and north of where all is counted from."""
        found, counted = [{} for _ in self.levels], [round(degrees * 10**9) for degrees in self.origin]
        for feature in self.file("unit.geojson", parse_float=Decimal)["features"]:
            id = identifier(feature["id"])
            if id in units and self.get(id)["category"] not in SOLID | {"movingwalkway"}:
                shape = feature["geometry"]
                polygons = [shape["coordinates"]] if shape["type"] == "Polygon" else shape["coordinates"]
                found[self.features[id][0]][id] = [[[nano(value) - start for position in ring for value, start in zip(position[:2], counted)] for ring in rings] for rings in polygons]
        return found

    def part_of(self):
        """The level of each node."""
        return {node: self.features[node][0] for place, node in self.node_of.items() if place == node}

    def note_rooms(self, via, nodes):
        """That these doors lead into a unit."""
        if via not in self.features:
            return
        level, unit = self.features[via]
        for node in nodes:
            it = self.get(node)
            if it["type"] == "opening" and self.features[node][0] == level and unit not in it.setdefault("rooms", []):
                it["rooms"].append(unit)

    def places(self):
        """A row a place that can be searched for: identifier, type, category, level, point, name, other names, which feature of the level the unit is
        that it is or is in, and of an occupant its node."""
        rows = []
        for level, its in enumerate(self.levels):
            for place, it in enumerate(its["features"]):
                if it["id"] in self.node_of and (it["type"] != "opening" or "name" in it):
                    unit = place if it["type"] == "unit" else it.get("unit")
                    rows.append([it["id"], it["type"], it["category"], level, *it["point"], it.get("name"), it.get("alt"), unit, self.node_of[it["id"]]])
                    while rows[-1][-1] in (None, it["id"]):
                        rows[-1].pop()
        return rows


def nano(degrees):
    """Degrees as the file has them, in whole nanodegrees; of two that are as near the one further from 0, as the program reads them."""
    return int(Decimal(degrees).quantize(Decimal("1e-9"), ROUND_HALF_UP).scaleb(9))


def box(rings):
    xs, ys = [x for ring in rings for x in ring[::2]], [y for ring in rings for y in ring[1::2]]
    return [min(xs), min(ys), max(xs), max(ys)]


def run(*words):
    try:
        return subprocess.Popen([PROGRAM, *words], stdout=subprocess.PIPE)
    except OSError as error:
        raise Refused(f"the program {PROGRAM} can't be run: {error}") from error


def staff_rules(networks):
    """The lines of nginx that let these networks in and nobody else."""
    try:
        return " ".join([*(f"allow {ipaddress.ip_network(it)};" for it in networks.split(",") if it), "deny all;"])
    except ValueError as error:
        raise Refused(f"the network of staff {networks} is none: {error}") from error


def need_accepted(base, folder):
    said = run("check", base, folder).communicate()[0]
    if not said.startswith(b"accepted "):
        sys.stderr.buffer.write(said)
        raise Refused(f"the folder {os.path.join(base, folder)} is rejected, as `venue check {base} {folder}` tells")


def cut_of(base, folder, profile, part_of):
    """The parts of a profile's table, read line by line, since a whole one may have hundreds of megabytes."""
    ran = run("links", base, folder, profile)
    try:
        return Cut(ran.stdout, part_of)
    except (KeyError, ValueError, IndexError) as error:
        raise Refused(f"the table of links of {profile} isn't that of the folder: {error}") from error
    finally:
        ran.stdout.read()
        ran.stdout.close()
        ran.wait()


def files_of(base, folder, told):
    """The files of one publication by name, and how many links and how large a part there are."""
    need_accepted(base, folder)
    venue = Venue(os.path.join(base, folder), told)
    part_of, links, largest = venue.part_of(), 0, 0
    cuts = {profile: cut_of(base, folder, profile, part_of) for profile in told["profiles"]}
    number_of = cuts[told["profiles"][0]].number_of
    if any(cut.number_of != number_of for cut in cuts.values()):
        raise Refused("the tables of links of the profiles haven't the same nodes")
    digest = hashlib.sha256()
    ids = [node for node, _ in number_of]
    for cut in cuts.values():
        links += cut.links
        for via, nodes in cut.members.items():
            venue.note_rooms(via, {ids[number] for number in nodes})
        for part in range(BETWEEN, len(venue.levels)):
            digest.update(cut.text(part, ""))
    levels = [{key: level[key] for key in ("id", "ordinal", "name", "bounds")} for level in venue.levels]
    maps = {f"level/{k}.json": compact({"rings": level["rings"], "features": level["features"]}) for k, level in enumerate(venue.levels)}
    maps |= {"passages.json": compact(venue.passages), "places.json": compact(venue.places())}
    bent = {node for node, lines in Counter(ids).items() if lines > 1}
    maps |= {f"walls/{k}.json": compact(its) for k, its in enumerate(venue.walls(bent) if bent else []) if its}
    about = told | {"folder": folder, "name": getattr(venue, "name", None), "language": venue.language, "places": len(venue.node_of) , "left": venue.left, "levels": levels}
    for data in [compact(about), *maps.values()]:
        digest.update(data)
    mark = digest.hexdigest()[:16]
    found = {f"data/{mark}/{name}": data for name, data in maps.items()}
    found[f"data/{mark}/links/parts.txt"] = nodes_text(number_of, part_of, len(venue.levels), mark)
    for profile, cut in cuts.items():
        for part in range(BETWEEN, len(venue.levels)):
            name, data = "between" if part == BETWEEN else part, cut.text(part, mark)
            if len(data) > MOST_PART:
                raise Refused(f"the links of {profile} at level {name} have {len(data)} bytes, more than the {MOST_PART} that the page reads of a level")
            found[f"data/{mark}/links/{profile}/{name}.txt"] = data
            largest = max(largest, len(data))
    found["site.json"] = json.dumps(about | {"mark": mark}, ensure_ascii=False, indent=1).encode() + b"\n"
    return found, links, largest


def main(base, folder, site, port="8080", server="127.0.0.1:7070", staff=""):
    site, told, rules = os.path.abspath(site), settings(base), staff_rules(staff)
    written, links, largest = files_of(base, folder, told)
    conf = read(os.path.join(HERE, "nginx.conf.in")).decode()
    words = {"SITE": site, "WEB": HERE, "PORT": port, "SERVER": server, "STAFF": rules, "USER": "user root;" if os.geteuid() == 0 else ""}
    for word, text in words.items():
        conf = conf.replace(f"@{word}@", text)
    # site.json comes last: until then a page that is open, or opened, has the files of before, whole.
    for name, data in ({"nginx.conf": conf.encode()} | written).items():
        write(os.path.join(site, name), data)
    data = os.path.join(site, "data")
    for old in sorted((entry for entry in os.scandir(data)), key=lambda entry: entry.stat().st_mtime)[:-1 - KEPT]:
        shutil.rmtree(old.path)
    about = json.loads(written["site.json"])
    print(f"site: {len(about['levels'])} levels, {about['places']} places, {len(told['profiles'])} profiles with {links} links; {len(written) + 1} files of "
          f"{sum(map(len, written.values()))} bytes, the largest part of a table {largest}; for http://127.0.0.1:{port}/")
    if about["left"]:
        print(f"site: {about['left']} features can't be drawn, since an identifier, a position or a reference isn't of its form")


if __name__ == "__main__":
    if not 4 <= len(sys.argv) <= 7:
        sys.exit(__doc__)
    try:
        main(*sys.argv[1:])
    except Refused as refused:
        sys.exit(f"site: {refused}; nothing is written")
