#!/usr/bin/env python3
"""Makes the examples of docs/RULES.md from the station, has examples/map.py draw each, and compares: the program finds what the page says, the
picture is well-formed, has as many red rings as there are findings with a place, and no label covers another. The kept pictures in
docs/pictures are those drawn now. Of examples/walls the way through the concourse turns where it should, and sight in the L is what it should be.

usage: map_pictures.py [PROGRAM] [--write]   (without PROGRAM the launcher ./venue, which builds the program if need be)
With --write the pictures are kept anew. It prints one line, and ends with status 1 at a difference.
"""
import itertools
import json
import os
import re
import shutil
import subprocess
import sys
import tempfile
import xml.dom.minidom

import rooms

TOP = os.path.join(os.path.dirname(os.path.abspath(__file__)), "..")
PICTURES = os.path.join(TOP, "docs", "pictures")
NAME = "00000000-0000-4000-8000-{:0>12}"
# Those whose example needs a million positions, or a file of 32 MiB, are left out: their rules are about numbers, not about places.
LEFT_OUT = ["F2", "S1", "S2"]


def at(x, y):
    """The position so many metres east and north of the station's corner."""
    return [round(10 + x / 100_000, 9), round(50 + y / 100_000, 9)]


def ring(*corners):
    return [at(*corner) for corner in corners]


def box(left, low, right, high):
    return ring((left, low), (right, low), (right, high), (left, high), (left, low))


class Station:
    """The files of the station, as they are changed for one example."""

    def __init__(self):
        self.files = {}
        for name in sorted(os.listdir(os.path.join(TOP, "examples", "station"))):
            with open(os.path.join(TOP, "examples", "station", name), encoding="utf-8") as file:
                self.files[name] = json.load(file)

    def list(self, kind):
        return self.files.setdefault(f"{kind}.geojson", {"type": "FeatureCollection", "features": []})["features"]

    def __getitem__(self, key):
        """A feature by its type and the last digits of its identifier, as ("unit", "307")."""
        return next(it for it in self.list(key[0]) if it["id"] == NAME.format(key[1]))

    def its(self, kind, digits):
        return self[kind, digits]["properties"]

    def shape(self, kind, digits, coordinates):
        self[kind, digits]["geometry"]["coordinates"] = coordinates

    def more(self, kind, count, geometry, **properties):
        start = 9_000_000_000
        self.list(kind).extend({"type": "Feature", "id": NAME.format(start + k), "feature_type": kind, "geometry": geometry, "properties": properties} for k in range(count))

    def room(self, outline):
        """A walkway more on the lowest level."""
        self.more("unit", 1, {"type": "Polygon", "coordinates": [outline]}, category="walkway", level_id=NAME.format(10))
        self.list("unit")[-1]["id"] = NAME.format(7_000_000_000 + len(self.list("unit")))

    def write(self, folder):
        for name, content in self.files.items():
            with open(os.path.join(folder, name), "w", encoding="utf-8") as file:
                file.write(content if isinstance(content, str) else json.dumps(content))


def bowl(k):
    """The outline of a bowl as wide as a metre, with 48 corners along its hollow."""
    left, low = k % 90 * 1.1, k // 90 * 0.4
    return ring((left, low), (left + 1, low), *((left + i / 50, low + 0.2 + (i - 25) ** 2 / 10_000) for i in range(49, -1, -1)), (left, low))


def steps(count):
    """The outline of a room above stairs, each step a centimetre wide and high."""
    treads = [place for i in range(count) for place in (((i + 1) / 100, i / 100), ((i + 1) / 100, (i + 1) / 100))]
    return ring((0, 0), *treads, (0, count / 100), (0, 0))


def put(mapping, **members):
    mapping.update(members)


CORNER = {"type": "Point", "coordinates": at(20, 5)}
ROOMS = [NAME.format(305), NAME.format(306)]
# Of each rule, whether its finding has a place on the map, and the change.
EXAMPLES = {
    "F1": (False, lambda s: s.files.pop("manifest.json")),
    "F3": (False, lambda s: put(s.files, **{"address.geojson": '{"a":'})),
    "F4": (False, lambda s: put(s.files, **{"address.geojson": "[" * 65 + "]" * 65})),
    "M1": (False, lambda s: put(s.files["manifest.json"], version="1.0")),
    "M2": (False, lambda s: put(s.files["manifest.json"], created=None)),
    "M3": (False, lambda s: put(s.files["manifest.json"], language=["en"])),
    "C1": (False, lambda s: put(s.files, **{"address.geojson": "{}"})),
    "C2": (True, lambda s: put(s["unit", 307], type="feature")),
    "C3": (True, lambda s: put(s["unit", 307], id="307")),
    "C4": (True, lambda s: put(s["unit", 307], feature_type="units")),
    "C5": (True, lambda s: put(s["unit", 307], geometry={"type": "Point", "coordinates": at(61, 21)})),
    "C6": (True, lambda s: s.its("unit", 307).pop("category")),
    "V1": (True, lambda s: s.more("venue", 1, s["venue", 2]["geometry"])),
    "L1": (True, lambda s: put(s.its("level", 11), ordinal=1.5)),
    "Q1": (False, lambda s: put(s.its("relationship", 21), direction="both")),
    "S3": (True, lambda s: s.shape("unit", 306, [[at(40 + k / 10_000, 0) for k in range(20_000)] + [at(40, 0)]])),
    "S4": (False, lambda s: put(s.its("relationship", 24), intermediary=[{"id": NAME.format(104), "feature_type": "opening"}] * 64)),
    "G1": (False, lambda s: s.shape("amenity", 31, ["10", 50])),
    "G2": (True, lambda s: s.shape("opening", 101, [at(21, 40)])),
    "C7": (True, lambda s: put(s["opening", 112], id=NAME.format(307))),
    "X1": (True, lambda s: put(s.its("anchor", 41), unit_id=NAME.format(999))),
    "X2": (True, lambda s: put(s.its("opening", 112), level_id=NAME.format(300))),
    "G6": (True, lambda s: s.shape("anchor", 42, [10.3, 50.0002])),
    "G3": (True, lambda s: s.shape("unit", 307, [ring((60, 20), (62, 22), (62, 20), (60, 21), (60, 20))])),
    "G4": (True, lambda s: s["unit", 300]["geometry"]["coordinates"].append(box(85, 30, 95, 35))),
    "G5": (True, lambda s: s.shape("unit", 307, [ring((60, 20), (62, 20), (61, 20), (60, 20))])),
    "K1": (True, lambda s: s.shape("unit", 307, [box(60, 20, 62, 61)])),
    "K2": (True, lambda s: s.shape("anchor", 41, at(22, 11))),
    "K3": (True, lambda s: s.shape("amenity", 31, at(30, 45))),
    "K4": (True, lambda s: s.shape("opening", 112, ring((10, 14), (10, 61)))),
    "S5": (True, lambda s: s.more("opening", 4_091, {"type": "LineString", "coordinates": ring((80, 10), (81, 10))}, level_id=NAME.format(11))),
    "S6": (True, lambda s: s.more("amenity", 3_160, CORNER, category="atm", unit_ids=ROOMS)),
    "S7": (True, lambda s: [s.room(bowl(k)) for k in range(8163)]),
    "S8": (True, lambda s: s.room(steps(4_094))),
    "N1": (True, lambda s: put(s.its("unit", 306), category="shop")),
    "N2": (False, lambda s: put(s.its("relationship", 22), category="walk")),
    "N3": (False, lambda s: put(s.its("relationship", 21), intermediary=[{"id": NAME.format(10), "feature_type": "level"}])),
    "N4": (True, lambda s: s.shape("opening", 106, ring((49, 12), (51, 12)))),
    "N5": (True, lambda s: put(s.its("unit", 307), restriction="staff")),
}
# Those that are judged only where ways go round walls.
ROUND_WALLS = ["S7", "S8"]
# Where a picture tells more than words, it is kept, with the level that it shows.
KEPT = dict.fromkeys(["G6", "G3", "G4", "G5", "K1", "K2", "K3", "K4", "N4"], "0")


def told():
    """What docs/RULES.md says that is printed of each rule's example, the last row of a rule being a note's where it is one."""
    with open(os.path.join(TOP, "docs", "RULES.md"), encoding="utf-8") as file:
        return dict(re.findall(r"(?m)^\| ([A-Z]\d) \|.*\| `([A-Z]\d [a-z.]+json \d+ \d+)` \|", file.read()))


def draw(program, base, level=None, folder="example", more=()):
    words = [sys.executable, os.path.join(TOP, "examples", "map.py"), base, folder] + (["--level", level] if level else []) + [*more]
    return subprocess.run(words, capture_output=True, env=os.environ | {"VENUE": program}, timeout=50).stdout.decode()


def set_up(base, round_walls):
    """The settings of the station, under which ways go round walls or straight."""
    with open(os.path.join(TOP, "examples", "venue.toml"), encoding="utf-8") as file:
        settings = file.read()
    with open(os.path.join(base, "venue.toml"), "w", encoding="utf-8") as file:
        file.write(('inside = "clear"\n' if round_walls else "") + settings)


def differs(program, base, rule, wanted, write):
    """What is wrong with one example, None where nothing is."""
    has_place, change = EXAMPLES[rule]
    folder, station = os.path.join(base, "example"), Station()
    set_up(base, rule in ROUND_WALLS)
    shutil.rmtree(folder, ignore_errors=True)
    os.mkdir(folder)
    change(station)
    station.write(folder)
    picture, is_note = draw(program, base), rule[0] == "N"
    try:
        document = xml.dom.minidom.parseString(picture)
    except xml.parsers.expat.ExpatError as error:
        return f"the picture isn't well-formed: {error}"
    heading, *texts = [it.firstChild.data for it in document.getElementsByTagName("text") if it.firstChild]
    rows = [(a, b.split(" (")[0]) for a, b in zip(texts, texts[1:]) if re.fullmatch(r"[A-Z]\d", a)]
    if not re.search("notes 1( · advice [0-9]+)?$" if is_note else "rejected 1$", heading) or rows != [tuple(wanted.split(" ", 1))]:
        return f"{heading}: {rows} and not {wanted}"
    if covered(document):
        return f"labels cover each other: {covered(document)}"
    rings = [it.getAttribute("class") for it in document.getElementsByTagName("circle")]
    if (rings.count("ring"), rings.count("note")) != ((0, has_place) if is_note else (has_place, 0)):
        return f"{rings.count('ring')} rings, {rings.count('note')} dashed ones"
    return is_other(rule, draw(program, base, KEPT[rule]), write) if rule in KEPT else None


def covered(document):
    """Labels of a level that cover each other, where a letter is taken to be as wide as those of common fonts are on average."""
    found = []
    for level in document.getElementsByTagName("g"):
        texts = [it for it in level.getElementsByTagName("text") if it.firstChild] if level.hasAttribute("transform") else []
        boxes = [box_of(it) for it in texts]
        found += [f"{a[4]} and {b[4]}" for a, b in itertools.combinations(boxes, 2) if a[0] < b[2] and b[0] < a[2] and a[1] < b[3] and b[1] < a[3]]
    return found


def box_of(it):
    is_small, text = it.getAttribute("class") == "name", it.firstChild.data
    x, y, wide = float(it.getAttribute("x")), float(it.getAttribute("y")), (5.5 if is_small else 7) * len(text)
    left = x - (wide / 2 if is_small else wide if it.hasAttribute("text-anchor") else 0)
    return left, y - (9 if is_small else 11), left + wide, y + 2, text


def crowd_differs(program, base):
    """What is wrong where thirty anchors stand close together beyond their room, and with the advice on examples/arcade, None where nothing is."""
    station = Station()
    for k in range(30):
        station.more("anchor", 1, {"type": "Point", "coordinates": at(24 + k % 6 / 2, 14 + k // 6 / 2)}, unit_id=NAME.format(305))
        station.list("anchor")[-1]["id"] = NAME.format(8_000_000_000 + k)
    folder = os.path.join(base, "crowd")
    os.mkdir(folder)
    station.write(folder)
    pictures = [draw(program, base, None, "crowd"), draw(program, os.path.join(TOP, "examples", "arcade"), None, "hall")]
    documents = [xml.dom.minidom.parseString(it) for it in pictures]
    counts = [[it.getAttribute("class") for it in document.getElementsByTagName("circle")] for document in documents]
    # Of the twelve lines of advice on examples/arcade all have a place.
    wrong = [] if counts[0].count("ring") == 30 and counts[1].count("hint") == 12 and "ring" not in counts[1] else [f"{counts}"]
    wrong += [it for document in documents for it in covered(document)]
    return "; ".join(wrong[:5]) if wrong else None


def way_of(*ends):
    return ["--way", "walk", *(NAME.format(it) for it in ends)]


def side(*jambs):
    """A room with two doors in its south side, and these positions there."""
    metres = rooms.in_metres
    venue = rooms.Venue(40 * rooms.METRE, 20 * rooms.METRE).room([metres([(0, 0), *((x, 0) for x in jambs), (40, 0), (40, 20), (0, 20)])])
    return venue.door(*metres([(9, 0), (11, 0)])).door(*metres([(13, 0), (15, 0)]), number=102)


def fin():
    """A room with a thin wall in its middle, where its own place lies since it has no display point."""
    metres = rooms.in_metres
    outline = [(0, 0), (19.9, 0), (19.9, 15), (20.1, 15), (20.1, 0), (40, 0), (40, 20), (0, 20)]
    return rooms.Venue(40 * rooms.METRE, 20 * rooms.METRE).room([metres(outline)]).anchor(*metres([(10, 5), (30, 5)]))


def ell():
    return rooms.Venue(60 * rooms.METRE, 40 * rooms.METRE).room([rooms.ELL]).anchor(*rooms.in_metres([(35, 5), (5, 35)]))


def beside(left, right):
    """Two pictures as one."""
    wide, high = (max(int(float(re.search(rf'{it}="([0-9.]+)"', one)[1])) for one in (left, right)) for it in ("width", "height"))
    size = f'width="{2 * wide}" height="{high}" viewBox="0 0 {2 * wide} {high}"'
    return f'<svg xmlns="http://www.w3.org/2000/svg" {size}>\n{left}{right.replace("<svg ", f"""<svg x="{wide}" """, 1)}</svg>\n'


def room_pictures(program, base):
    """The pictures of rooms with walls, by name."""
    def drawn(name, venue, clear, *more):
        rooms.set_up(base, clear)
        venue.write(os.path.join(base, name))
        return draw(program, base, None, name, more)

    yield "ell", beside(drawn("straight", ell(), False, *way_of(41, 42)), drawn("clear", ell(), True, *way_of(41, 42)))
    yield "jambs", drawn("jambs", side(9, 11, 13, 15), True, *way_of(101, 102), "--sight")
    yield "thin", drawn("thin", fin(), True, *way_of(41, 42), "--sight")


def walls_differ(program):
    """What is wrong with the way through the concourse and with sight in the L."""
    base = os.path.join(TOP, "examples", "walls")
    read = lambda *words: xml.dom.minidom.parseString(draw(program, base, None, *words))
    marked = lambda document, name, tag: [it for it in document.getElementsByTagName(tag) if it.getAttribute("class") == name]
    numbers = lambda it: [float(n) for n in re.findall(r"[0-9.]+", it.getAttribute("d"))]
    concourse, found = read("concourse", way_of("0053", "0055")), []
    (left, low, right, *_), steps = numbers(marked(concourse, "level", "path")[0]), [numbers(it) for it in marked(concourse, "way", "path")]
    with open(os.path.join(base, "concourse", "level.geojson"), encoding="utf-8") as file:
        outline = json.load(file)["features"][0]["geometry"]["coordinates"][0]
    scale = (right - left) / (outline[1][0] - outline[0][0]) / 100_000
    ends = [(x, y) for *_, x, y in steps]
    wanted = [(left + x * scale, low - y * scale) for x, y in ((50, 10), (40.5, 16.5), (29.5, 23.5), (20, 30))]
    if len(ends) != 5 or any(abs(a - b) > 0.2 for end, it in zip(ends, wanted) for a, b in zip(end, it)):
        found.append(f"the way through the concourse has steps to {ends}, wanted {wanted}")
    ell_sight = read("ell", ["--sight"])
    counts = [len(marked(ell_sight, *it)) for it in (("corner", "circle"), ("blind", "circle"), ("hides", "path"))]
    lines = [it.getElementsByTagName("title")[0].firstChild.data for it in marked(ell_sight, "host", "path")]
    if counts != [1, 1, 0] or lines != ["#0300 to corner 1 of #0300"]:
        found.append(f"sight in the L has {counts} dots, rings and crosses, and lines {lines}")
    return found


def is_other(name, picture, write):
    """What is said where another picture of that name is kept."""
    path = os.path.join(PICTURES, f"{name}.svg")
    if write:
        with open(path, "w", encoding="utf-8") as file:
            file.write(picture)
    with open(path, encoding="utf-8") as file:
        return None if file.read() == picture else "another picture is kept in docs/pictures"


def main(words):
    write = "--write" in words
    program = next((os.path.abspath(word) for word in words if word != "--write"), os.path.join(TOP, "venue"))
    rules, differences = told(), []
    missing = sorted(set(rules) - set(EXAMPLES) - set(LEFT_OUT))
    differences += [f"{rule}: no example is made" for rule in missing]
    with tempfile.TemporaryDirectory() as base:
        for rule in EXAMPLES:
            wrong = differs(program, base, rule, rules.get(rule), write)
            differences += [f"{rule}: {wrong}"] if wrong else []
        crowd = crowd_differs(program, base)
        differences += [f"a crowd: {crowd}"] if crowd else []
    tall = is_other("tall", draw(program, os.path.join(TOP, "examples"), "0", "tall"), write)
    differences += [f"tall: {tall}"] if tall else []
    arcade = is_other("arcade", draw(program, os.path.join(TOP, "examples", "arcade"), "0", "hall"), write)
    differences += [f"arcade: {arcade}"] if arcade else []
    differences += walls_differ(program)
    with tempfile.TemporaryDirectory() as base:
        shown = list(room_pictures(program, base))
    wrong = [(name, is_other(name, picture, write)) for name, picture in shown]
    differences += [f"{name}: {it}" for name, it in wrong if it]
    for line in differences:
        print(line, file=sys.stderr)
    print(f"map_pictures: {len(EXAMPLES)} examples, {len(KEPT) + 2 + len(shown)} kept pictures, {len(differences)} differences ({', '.join(LEFT_OUT)} left out)")
    return 1 if differences else 0


sys.exit(main(sys.argv[1:]))
