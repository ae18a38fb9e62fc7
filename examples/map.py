#!/usr/bin/env python3
"""Draws a venue's folder as it stands, broken or not, as one SVG, level under level. Where `venue check` finds something, each finding that
has a place is ringed in red, each note in a dashed ring, and what advise.py tells of an accepted folder for a wheelchair in violet; a table
beneath tells them all, with what stands there enlarged. Labels that would cover others are left out, so the table alone has all.

usage: map.py BASE FOLDER [--level N] [--way PROFILE FROM TO] [--sight] > map.svg
N is an ordinal; without it all levels are drawn. Over an accepted folder --way draws the way that `venue route` prints, bent at its corners, with
what each step costs. --sight shows who draws folders what ways meet where `inside` is `clear`, in rooms of up to 500 places: corners with their
numbers, a ring round each place that sees nobody in its room with a dashed line to its host, and a cross at each position that lies in line
between its neighbours, as it hides along the wall. With either no advice is drawn. The program is that of the variable VENUE, else the launcher ./venue. What has no place,
as a feature without a geometry or a file that can't be read, is in the table alone.
"""
import html
import itertools
import json
import math
import os
import re
import statistics
import subprocess
import sys
import textwrap

sys.dont_write_bytecode = True  # so that a clone stays as it is

import advise
import map_rooms

HERE = os.path.dirname(os.path.abspath(__file__))
PROGRAM = os.environ.get("VENUE") or os.path.join(HERE, "..", "venue")
DRAWN = ["level", "unit", "opening", "anchor", "amenity"]
OTHERS = "address building detail fixture footprint geofence kiosk occupant relationship section venue".split()
SOLID = "opentobelow column brick concrete drywall glass wood structure vegetation".split()
LOOKS = {"walkway": "walk", "platform": "walk", "lobby": "walk", **dict.fromkeys(SOLID, "solid")}
LOOKS |= dict.fromkeys(["elevator", "escalator", "stairs", "steps", "ramp", "movingwalkway"], "up")
WIDTH, EDGE, WINDOW, LENS, MOST_LENSES = 1000, 24, 6.0, 84, 40
STYLE = """text{font:13px "Segoe UI",Roboto,Arial,sans-serif;fill:#17202b}.soft{fill:#526070}.bold{font-weight:700}.lens{fill:#dfe5ec}
path,circle{vector-effect:non-scaling-stroke;fill:none}.level{fill:#f7f8fa;stroke:#9aa5b3}.frame{fill:none;stroke:#9aa5b3}.loose{stroke-dasharray:4 3}
.unit{fill:#f6ead6;stroke:#a8987b;fill-rule:evenodd}.walk{fill:#fff;stroke:#97a2b0}.up{fill:#e2e4f2;stroke:#8d95b5}.solid{fill:#a7b0bc;stroke:#7c8795}
.opening{stroke:#0b4fb3;stroke-width:3}.anchor,.amenity{fill:#526070;stroke:#fff}.name{text-anchor:middle;font-size:11px;fill:#526070}
.ring{stroke:#c5221f;stroke-width:3}.note{stroke:#b06000;stroke-width:3;stroke-dasharray:5 4}.hint{stroke:#7b3fb5;stroke-width:3}
.tag{font-weight:700;paint-order:stroke;stroke:#fff;stroke-width:4px}"""
# Added where a way or sight is drawn.
MORE_STYLE = """
.way{stroke:#0a7d3b;stroke-width:4}.corner{fill:#7b3fb5}.number{font-size:10px;fill:#7b3fb5}.blind,.host{stroke:#c5221f;stroke-width:2}.host{stroke-dasharray:5 4}.hides{stroke:#b06000;stroke-width:2}"""


def escape(text):
    """The text as an SVG may have it: without the characters that XML hasn't."""
    return html.escape(re.sub("[^\t -\ud7ff\ue000-\ufffd\U00010000-\U0010ffff]", "\ufffd", text))


def is_number(it, most):
    return isinstance(it, (int, float)) and not isinstance(it, bool) and abs(it) <= most


def polygons(geometry):
    """The parts of a geometry, each a list of rings or lines; what is no position is left out."""
    found = geometry.get("coordinates") if isinstance(geometry, dict) else None
    wraps = {"Point": 3, "LineString": 2, "Polygon": 1, "MultiPolygon": 0}.get(str(geometry.get("type")) if found else None)
    for _ in range(wraps or 0):
        found = [found]
    lists = lambda it: it if wraps is not None and isinstance(it, list) else []
    is_position = lambda it: len(lists(it)) > 1 and is_number(it[0], 180) and is_number(it[1], 90)
    parts = [[[p[:2] for p in lists(ring) if is_position(p)] for ring in lists(part)] for part in lists(found)]
    return [part for part in parts if any(part)]


def points_of(parts):
    return [p for part in parts for ring in part for p in ring]


class Folder:
    """The features that can be read, and the parts of each in metres, x + y j with y to the south."""

    def __init__(self, base, folder):
        self.base, self.folder = base, folder
        self.features = {name: self.read(f"{name}.geojson") for name in DRAWN + OTHERS}
        self.ids = {str(it.get("id")).lower(): (name, k) for name in DRAWN for k, it in enumerate(self.features[name])}
        raw = {(name, k): polygons(it.get("geometry")) for name in self.features for k, it in enumerate(self.features[name])}
        lon, lat = (statistics.median(axis) for axis in zip(*[p for parts in raw.values() for p in points_of(parts)] or [(0, 0)]))
        kx, ky = self.settings(lat)
        self.metres = lambda x, y: complex((x - lon) * kx, (lat - y) * ky)
        self.parts = {key: [[[self.metres(*p) for p in ring] for ring in part] for part in raw[key]] for key in raw}

    def read(self, name):
        try:
            with open(os.path.join(self.base, self.folder, name), encoding="utf-8-sig") as file:
                found = json.load(file)["features"]
        except (OSError, ValueError, KeyError, TypeError, RecursionError):
            return []
        its = [it if isinstance(it, dict) else {} for it in found] if isinstance(found, list) else []
        return [it | {"properties": it["properties"] if isinstance(it.get("properties"), dict) else {}} for it in its]

    def settings(self, latitude):
        """The metres of a degree of longitude and of latitude, as the settings have them, or those of the globe."""
        try:
            with open(os.path.join(self.base, "venue.toml"), encoding="utf-8") as file:
                text = file.read()
            return [int(re.search(rf"(?m)^\s*{key}\s*=\s*(\d+)", text)[1]) / 100 for key in ("kx", "ky")]
        except (OSError, ValueError, TypeError):
            return [111_320 * math.cos(math.radians(latitude)), 111_320]

    def holder(self, name, index, over):
        """The feature of the type `over` that a feature names as what it is in or on, None where there is none."""
        its = self.features[name][index]["properties"]
        told = its.get("unit_ids" if name == "amenity" else f"{over}_id")
        found = self.ids.get(str(told[0] if isinstance(told, list) and told else told).lower())
        return found if found and found[0] == over else None

    def ordinal(self, name, index):
        """The ordinal of the level on which a feature is, None where nothing tells it."""
        if name == "level":
            told = self.features[name][index]["properties"].get("ordinal")
            return told if is_number(told, 9999) else None
        above = self.holder(name, index, "level" if name in ("unit", "opening") else "unit")
        return self.ordinal(*above) if above else None


def turn(a, b):
    return (a.conjugate() * b).imag


def outside(p, parts):
    """How far a point is outside of polygons, 0 where it is inside of one."""
    edges = [[edge for ring in part for edge in zip(ring, ring[1:])] for part in parts]
    is_left = lambda a, b: (a.imag > p.imag) != (b.imag > p.imag) and (turn(b - a, p - a) > 0) == (b.imag > a.imag)
    along = lambda a, b: max(0, min(1, ((p - a) / (b - a)).real)) if a != b else 0
    if any(sum(is_left(*edge) for edge in part) % 2 for part in edges):
        return 0
    return min((abs(p - a - along(a, b) * (b - a)) for part in edges for a, b in part), default=0)


def crossing(ring):
    """A point at which two edges of a ring cross, else its first."""
    for (a, b), (c, d) in itertools.combinations(list(zip(ring, ring[1:]))[:400], 2):
        whole = turn(b - a, d - c)
        t, u = (turn(c - a, it) / whole if whole else 0 for it in (d - c, b - a))
        if 1e-9 < t < 1 - 1e-9 and 1e-9 < u < 1 - 1e-9:
            return a + t * (b - a)
    return ring[0]


def middle(points):
    xs, ys = [p.real for p in points], [p.imag for p in points]
    return complex(min(xs) + max(xs), min(ys) + max(ys)) / 2


def spot(venue, rule, file, index, member, look):
    """Where a finding is, and of which feature: the corner that sticks out, the crossing, else its middle. None where it has no place."""
    if look == "hint" and file.split(".")[0] not in DRAWN[1:] + ["occupant", "fixture", "kiosk"]:
        return None
    if rule == "G6":
        return max(((p, key) for key, parts in venue.parts.items() for p in points_of(parts)), key=lambda it: abs(it[0]), default=None)
    key = file.split(".")[0], index
    if key[0] == "occupant":
        key = venue.holder(*key, "anchor") or key
    points, rings = points_of(venue.parts.get(key, [])), [(part, ring) for part in venue.parts.get(key, []) for ring in part]
    if not points:
        return None
    if rule in ("K1", "K4"):
        return max(points, key=lambda p: outside(p, venue.parts.get(venue.holder(*key, "level"), []))), key
    if rule in ("G3", "G4", "G5") and member < len(rings) and rings[member][1]:
        part, ring = rings[member]
        return {"G3": crossing, "G4": lambda it: max(it, key=lambda p: outside(p, [part[:1]])), "G5": middle}[rule](ring), key
    return middle(points), key


def findings(base, folder):
    """What check prints: rule, name of the file, index, member, and how it is ringed; and the lines of another form."""
    lines = subprocess.run([PROGRAM, "check", base, folder], capture_output=True, text=True).stdout.splitlines()
    rows = [(line, re.fullmatch(r"(finding|note) (\S+) (\S+) (\d+) (\d+)", line)) for line in lines]
    found = [(row[2], row[3], int(row[4]), int(row[5]), "note" if row[1] == "note" else "ring") for _, row in rows if row]
    return found, [line for line, row in rows if not row]


def hints(base, folder, lines):
    """What is advised of an accepted folder, as rows like those of findings, and the sentence of each row."""
    if not lines or not lines[0].startswith("accepted"):
        return [], {}
    found = advise.all_of(PROGRAM, base, folder, "wheelchair")
    rows = [(it.kind, it.feature.file, it.feature.index, k, "hint") for k, it in enumerate(found)]
    return rows, {row: f"{it.says[0].upper()}{it.says[1:]}. What to do: {it.mend}." for row, it in zip(rows, found)}


def sentences():
    """What docs/RULES.md says that each rule asks, and each note tells."""
    with open(os.path.join(HERE, "..", "docs", "RULES.md"), encoding="utf-8") as file:
        return dict(re.findall(r"(?m)^\| ([A-Z]\d) \| (.*?) \|", file.read()))


class Picture:
    """The frame that all levels share: which metres it shows, and how many pixels one has. What lies far out is set to its edge."""

    def __init__(self, venue):
        points = [p for parts in venue.parts.values() for p in points_of(parts)] or [0j, 100 + 60j]
        reach = 20 * (statistics.median(map(abs, points)) + 5)
        near = [p for p in points if abs(p) <= reach]
        (self.left, right), (self.top, bottom) = ((min(axis), max(axis)) for axis in zip(*((p.real, p.imag) for p in near)))
        self.scale = (WIDTH - 2 * EDGE) / max(right - self.left, (bottom - self.top) / 1.5, 1)
        self.height = (bottom - self.top) * self.scale + 2 * EDGE
        self.sides = (self.left - 1, right + 1), (self.top - 1, bottom + 1)

    def at(self, p):
        x, y = (max(low, min(high, n)) for n, (low, high) in zip((p.real, p.imag), self.sides))
        far = f", {abs(p) / 1000:.1f} km away" if (x, y) != (p.real, p.imag) else ""
        return round((x - self.left) * self.scale + EDGE, 1), round((y - self.top) * self.scale + EDGE, 1), far


class Labels:
    """The boxes of the labels of a level, none of which covers another."""

    def __init__(self):
        self.boxes = [(EDGE, -14, EDGE + 120, 5)]

    def take(self, x, y, anchor, text, wide):
        """Whether a text fits at a place, which is then taken."""
        long = wide * len(text)
        left = x - {"start": 0, "middle": long / 2, "end": long}[anchor]
        box = (left, y - 13, left + long, y + 4)
        if box[0] < 0 or box[2] > WIDTH or any(a < box[2] and c > box[0] and b < box[3] and d > box[1] for a, b, c, d in self.boxes):
            return False
        self.boxes.append(box)
        return True


def drawn(venue, picture, name, index, is_loose, labels):
    """One feature; `loose` is one whose level nothing tells."""
    parts, kind = venue.parts[name, index], str(venue.features[name][index]["properties"].get("category") or "").split(".")[0]
    x, y, _ = picture.at(middle(points_of(parts)))
    looks = " ".join(filter(None, [name, name == "unit" and LOOKS.get(kind), is_loose and "loose"]))
    if name in ("anchor", "amenity"):
        return f'<circle class="{looks}" cx="{x:g}" cy="{y:g}" r="4"/>'
    lines = ["L".join("{:g} {:g}".format(*picture.at(p)) for p in ring) for part in parts for ring in part if ring]
    is_named = name == "unit" and kind and kind not in SOLID and labels.take(x, y + 4, "middle", kind, 6.6)
    text = f'<text class="name" x="{x:g}" y="{y + 4:g}">{escape(kind)}</text>' if is_named else ""
    return f'<path class="{looks}" d="M{"M".join(lines)}"/>{text}'


def ring(row, at, labels):
    """A ring round a place, and beside it a label where one fits."""
    x, y, far = at
    text = f'{row[0]} {row[1].split(".")[0]} {row[2]}{far}'
    spots = [(x + side * 20, y + 5 + 17 * down, anchor) for down in (0, 1, -1, 2, -2, 3, -3) for side, anchor in ((1, "start"), (-1, "end"))]
    free = next((it for it in spots if labels.take(*it, text, 8.2)), None)
    tag = ""
    if free:
        end = ' text-anchor="end"' if free[2] == "end" else ""
        tag = f'<text class="tag" x="{free[0]:g}"{end} y="{free[1]:g}">{escape(text)}</text>'
    return f'<circle class="{row[4]}" cx="{x:g}" cy="{y:g}" r="14"/>{tag}'


def lens(level, at, top, scale):
    """What stands at a place, enlarged."""
    side, box = WINDOW * scale, f'x="{EDGE}" y="{top:g}" width="{LENS}" height="{LENS}"'
    x, y = at[0] - side / 2, at[1] - side / 2
    inner = f'<rect class="lens" x="{x:g}" y="{y:g}" width="100%" height="100%"/><use href="#level{level:g}"/>'
    return f'<svg {box} viewBox="{x:g} {y:g} {side:g} {side:g}">{inner}</svg><rect class="frame" {box}/>'


def draw(base, folder, wanted, words, with_sight):
    venue, asked, (rows, others) = Folder(base, folder), sentences(), findings(base, folder)
    advised, says = ([], {}) if words or with_sight else hints(base, folder, others)
    others, rows = others + ([f"advice {len(advised)}"] if advised else []), rows + advised
    picture, top = Picture(venue), 70
    told = {key: venue.ordinal(*key) for key in venue.parts if key[0] in DRAWN and venue.parts[key]}
    levels = sorted(set(told.values()) - {None}) or [0]
    shown = [level for level in levels if wanted in (None, level)]
    level_of = lambda key: levels[0] if told.get(key) is None else told[key]
    found = [(row, spot(venue, *row)) for row in rows]
    found = [(row, it and level_of(it[1]), it and picture.at(it[0])) for row, it in found]
    rooms = map_rooms.Rooms(base, folder) if (words or with_sight) and others and others[0].startswith("accepted") else None
    place = lambda it: picture.at(venue.metres(*(axis / 2e9 for axis in it)))
    nodes, costs, why = map_rooms.way(PROGRAM, base, folder, words) if rooms and words else ([], [], "the folder is rejected")
    labels_on = {level: Labels() for level in levels}
    sight, left = map_rooms.drawn_sight(rooms, place, labels_on) if rooms and with_sight else ({}, [])
    out = [f'<text class="bold" x="{EDGE}" y="30">{escape(" · ".join([folder] + others))}</text>']
    for level in shown:
        labels = labels_on[level]
        rings = [ring(row, at, labels) for row, on, at in found if at and on == level]
        way = map_rooms.drawn_way(rooms, level, place, nodes, costs, labels) if nodes else []
        out += [f'<g transform="translate(0 {top:g})"><text class="soft" x="{EDGE}" y="0">level {level:g}</text><g id="level{level:g}">']
        out += [drawn(venue, picture, *key, told[key] is None, labels) for key in told if level_of(key) == level] + ["</g>", *rings]
        out += [*sight.get(level, []), *way, "</g>"]
        top += picture.height + 30
    lenses = 0
    for row, level, at in found:
        rule, (name, index, member) = row[0], row[1:4]
        its, text = venue.features.get(name.split(".")[0], []), textwrap.wrap(says.get(row) or asked.get(rule, ""), 88)
        has_lens = at and level in shown and lenses < MOST_LENSES
        lenses += bool(has_lens)
        out += [lens(level, at, top, picture.scale)] if has_lens else []
        is_hint = row[4] == "hint"
        called = (f"{rule}: {name} {index}" if is_hint else f"{name} {index} {member}") + (f" (#{str(its[index].get('id'))[-4:]})" if index < len(its) else "")
        out.append(f'<text class="bold" x="{EDGE + LENS + 16}" y="{top + 16:g}">{"·" if is_hint else escape(rule)}</text>')
        lines = [("", called)] + [("soft", line) for line in text]
        out += [f'<text class="{it}" x="{EDGE + LENS + 48}" y="{top + 16 + 19 * k:g}">{escape(line)}</text>' for k, (it, line) in enumerate(lines)]
        top += max(LENS if has_lens else 0, 24 + 19 * len(text)) + 14
    for line in (map_rooms.told_way(nodes, costs, why) if words else []) + left:
        out.append(f'<text x="{EDGE}" y="{top + 16:g}">{escape(line)}</text>')
        top += 19
    size = f'width="{WIDTH}" height="{top + 10:g}" viewBox="0 0 {WIDTH} {top + 10:g}"'
    ground = f'<style>{STYLE}{MORE_STYLE if words or with_sight else ""}</style><rect width="100%" height="100%" fill="#fff"/>'
    return "\n".join([f'<svg xmlns="http://www.w3.org/2000/svg" {size}>{ground}', *out, "</svg>\n"])


def main(words):
    found = re.fullmatch(r"(--level\n-?\d+\n)?(--way\n.+\n.+\n.+\n)?(--sight\n)?", "".join(f"{it}\n" for it in words[2:]))
    if len(words) < 2 or not found:
        sys.exit(__doc__)
    level, way = (it.split() if it else [] for it in found.groups()[:2])
    sys.stdout.buffer.write(draw(*words[:2], int(level[1]) if level else None, way[1:], bool(found[3])).encode())


main(sys.argv[1:])
