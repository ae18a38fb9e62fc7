"""For checks/advise.py: made venues, and a plain search for what is unreachable in them and whose closing cuts a level off. It goes round over
all links until nothing changes, once for each closing; which doors lead outside it knows from how the venue was made."""
import json
import os
import random
import subprocess
import sys
import tempfile

TOP = os.path.join(os.path.dirname(os.path.abspath(__file__)), "..")
sys.path.append(os.path.join(TOP, "examples"))

from advice import drawn
from advice.folder import Folder
from advice.led import Led
from advice.table import tables_of
from advice_cases import Venue, box, halves, line, point, ring

SIDE = 10
UPWARD = ["elevator", "escalator", "ramp", "stairs", "movingwalkway"]
ON_THE_WAY = UPWARD + ["steps"]


class Made(Venue):
    """A venue of square rooms in a grid, some missing and some solid, with doors in the walls, halls over several rooms, and passages. Where
    ways go round walls many rooms have one in them."""

    def __init__(self, draw, is_clear):
        super().__init__()
        self.settings |= {"inside": '"clear"'} if is_clear else {}
        self.random, self.outside, self.cells, self.is_clear = draw, set(), [], is_clear
        self.wide, self.deep, self.high = draw.randint(1, 4), draw.randint(1, 3), draw.randint(1, 3)
        around = box(0, 0, self.wide * SIDE, self.deep * SIDE)
        self.add("venue", "venue", around)
        for k in range(self.high):
            self.add(f"level{k}", "level", around, ordinal=k)
            self.units_of_level(k)
            self.doors_of_level(k)
            self.places_of_level(k)
        for k in range(self.high - 1):
            for n in range(draw.randint(0, 4)):
                self.passage(f"passage {k} {n}", k)

    def chance(self, share):
        return self.random.random() < share

    def units_of_level(self, k):
        covered = {}
        for i in range(self.wide):
            for j in range(self.deep):
                if self.chance(0.1):
                    continue
                word = self.random.choice(["room", "room", "walkway", "elevator", "ramp", "stairs", "movingwalkway", "column"])
                its = {"level_id": self.id(f"level{k}"), "category": word}
                its |= {"restriction": "employeesonly"} if self.chance(0.1) else {}
                self.add(f"unit {k} {i} {j}", "unit", self.room(i * SIDE, j * SIDE), **its)
                covered[i, j] = [f"unit {k} {i} {j}"]
        if self.chance(0.3):
            i, j = self.random.randint(0, self.wide - 1), self.random.randint(0, self.deep - 1)
            to = self.random.randint(i + 1, self.wide), self.random.randint(j + 1, self.deep)
            its = {"level_id": self.id(f"level{k}"), "category": "lobby"}
            self.add(f"hall {k}", "unit", box(i * SIDE, j * SIDE, to[0] * SIDE, to[1] * SIDE), **its)
            for x in range(i, to[0]):
                for y in range(j, to[1]):
                    covered.setdefault((x, y), []).append(f"hall {k}")
        self.cells.append(covered)

    def room(self, x, y):
        """A room; with walls it may be an L, or have a fin from the west, or one that reaches to the east and so makes two halves of it."""
        form = self.random.choice(["box", "corner", "fin", "halves", "halves"]) if self.is_clear else "box"
        if form == "corner":
            return ring(*((x + a, y + b) for a, b in ((0, 0), (SIDE, 0), (SIDE, SIDE), (3.8, SIDE), (3.8, 6.2), (0, 6.2))))
        if form == "fin":
            return ring(*((x + a, y + b) for a, b in ((0, 0), (SIDE, 0), (SIDE, SIDE), (0, SIDE), (0, 8), (8, 8), (8, 6.5), (0, 6.5))))
        return halves((x, y, x + SIDE, y + 6.5), (x, y + 8, x + SIDE, y + SIDE)) if form == "halves" else box(x, y, x + SIDE, y + SIDE)

    def doors_of_level(self, k):
        for i in range(self.wide + 1):
            for j in range(self.deep):
                self.door(k, line(i * SIDE, j * SIDE + 4, i * SIDE, j * SIDE + 6), (i - 1, j), (i, j))
        for i in range(self.wide):
            for j in range(self.deep + 1):
                self.door(k, line(i * SIDE + 4, j * SIDE, i * SIDE + 6, j * SIDE), (i, j - 1), (i, j))

    def door(self, k, shape, one, other):
        is_outer = not (one in self.cells[k] and other in self.cells[k])
        if not self.chance(0.15 if is_outer else 0.6):
            return
        its = {"level_id": self.id(f"level{k}"), "category": "pedestrian"}
        its |= {"door": {"type": "revolving"}} if self.chance(0.1) else {}
        its |= {"access_control": ["outofservice"]} if self.chance(0.05) else {}
        its |= {"category": "emergencyexit"} if self.chance(0.05) else {}
        name = self.add(f"door {k} {one} {other}", "opening", shape, **its)
        inside = {self[it]["category"] for it in self.cells[k].get(one, []) + self.cells[k].get(other, [])}
        if is_outer and its["category"] != "emergencyexit" and inside - {"column", "movingwalkway"}:
            self.outside.add(name)

    def places_of_level(self, k):
        units = [word for word in self.words if word.startswith(f"unit {k} ")]
        for word in units:
            i, j = map(int, word.split()[2:])
            if self.chance(0.3):
                anchor = self.add(f"anchor {word}", "anchor", point(i * SIDE + 3, j * SIDE + 3), unit_id=self.id(word))
                if self.chance(0.5):
                    self.add(f"shop {word}", "occupant", None, category="retail", anchor_id=anchor, name={"en": word})
            if self.chance(0.15):
                others = [it for it in self.words if it.startswith("unit ")]
                names = [self.id(word)] + ([self.id(self.random.choice(others))] if self.chance(0.2) else [])
                self.add(f"amenity {word}", "amenity", point(i * SIDE + 7, j * SIDE + 7), category="atm", unit_ids=names)

    def passage(self, word, k):
        stops = []
        for level in [k, k + 1] + ([k + 2] if k + 2 < self.high and self.chance(0.4) else []):
            its = [it for it in self.words if it.startswith((f"unit {level} ", f"door {level} "))]
            if not its:
                return
            stops.append(self.random.choice(its))
        if self.chance(0.3):
            stops.reverse()
        ends = [{"id": self.id(it), "feature_type": self.words[it]["feature_type"]} for it in stops]
        category, direction = self.random.choice(UPWARD[:4] + ["traversal"]), self.random.choice(["directed", "undirected", "undirected"])
        self.add(word, "relationship", None, category=category, direction=direction, origin=ends[0], intermediary=ends[1:-1], destination=ends[-1])


class Search:
    """The links of a profile as pairs of identifiers, with what each goes by. A corner is told by its line behind the unit's identifier."""

    def __init__(self, venue, text, profile):
        rows = [row.split() for row in text.splitlines()]
        self.venue, self.profile, self.nodes = venue, profile, []
        for name in (row[1] for row in rows if row[0] == "node"):
            self.nodes.append(f"{name}/{len(self.nodes)}" if name in self.nodes else name)
        self.places = [it for it in self.nodes if "/" not in it]
        self.links = [(self.nodes[int(row[1])], self.nodes[int(row[2])], row[4]) for row in rows if row[0] == "link"]
        self.by_id = {it["id"]: it for its in venue.rows.values() for it in its}
        self.roots = self.where_ways_begin()

    def its(self, name):
        return self.by_id[name]["properties"]

    def kind(self, name):
        return self.by_id[name]["feature_type"]

    def led(self, starts, links):
        found, before = set(starts), -1
        while before != len(found):
            before = len(found)
            found |= {b for a, b, _ in links if a in found}
        return found

    def turned(self, links):
        return [(b, a, via) for a, b, via in links]

    def parts(self, nodes):
        """Sets of nodes that links within them join."""
        label = {it: k for k, it in enumerate(nodes)}
        changed = True
        while changed:
            changed = False
            for a, b, _ in self.links:
                if a in label and b in label and label[a] != label[b]:
                    label[a] = label[b] = min(label[a], label[b])
                    changed = True
        return [[it for it in nodes if label[it] == k] for k in sorted(set(label.values()))]

    def where_ways_begin(self):
        passed = {it for link in self.links for it in link[:2]}
        doors = self.venue.outside & passed
        parts = [[it for it in part if it in self.places] for part in self.parts(self.nodes)]
        largest = max(parts, key=len, default=[])
        if not largest or doors & set(largest):
            return doors
        halls = [it for it in largest if self.kind(it) == "unit" and self.its(it)["category"] not in ON_THE_WAY] or largest
        members = lambda unit: len({a for a, b, via in self.links if via == unit and a in self.places})
        most = max(map(members, halls))
        return doors | {next(it for it in halls if members(it) == most)}

    def units(self, name):
        its = self.its(name)
        if self.kind(name) == "opening":
            i, j = (map(int, it.strip("()").split(", ")) for it in self.word(name).split(" ", 2)[2].split(") ("))
            level = int(self.word(name).split()[1])
            one, other = (set(self.venue.cells[level].get(tuple(it), [])) for it in (i, j))
            # A hall on both sides has no wall there.
            units = [self.venue.id(word) for word in one ^ other]
            return [it for it in units if self.its(it)["category"] not in ("column", "movingwalkway")]
        return its["unit_ids"] if self.kind(name) == "amenity" else [its["unit_id"]]

    def word(self, name):
        return next(word for word, it in self.venue.words.items() if it["id"] == name)

    def unreachable(self):
        """The parts that no way leads to or from, as sets of the places in them; in the last set are those that a restriction keeps apart."""
        near = self.led(self.roots, self.links) | self.led(self.roots, self.turned(self.links))
        found, apart = [], set()
        for part in self.parts([it for it in self.nodes if it not in near]):
            its = {it for it in part if it in self.places and self.kind(it) in ("anchor", "amenity", "opening") and not self.is_barred(it)}
            kept = {it for it in its if self.units(it) and all(self.its(unit).get("restriction") for unit in self.units(it))}
            apart |= self.with_shops(kept)
            found.append(self.with_shops(its - kept))
        return sorted(sorted(it) for it in found + [apart] if it)

    def with_shops(self, its):
        return its | {it["id"] for it in self.venue.rows.get("occupant", []) if it["properties"]["anchor_id"] in its}

    def is_barred(self, name):
        its = self.its(name)
        return "outofservice" in its.get("access_control", []) or self.profile == "wheelchair" and "door" in its

    def level(self, name):
        its = self.its(name)
        return its["level_id"] if "level_id" in its else self.its((its.get("unit_ids") or [its.get("unit_id")])[0])["level_id"]

    def closings(self):
        """Of each door, lift and ramp whose closing cuts levels off, how many can't be reached then, and how many can't be left."""
        groups = {}
        for it in self.places:
            if self.kind(it) != "opening" and not (self.kind(it) == "unit" and self.its(it)["category"] in ON_THE_WAY):
                groups.setdefault(self.level(it), []).append(it)
        found = {}
        for kind in ("opening", "unit", "relationship"):
            for it in self.venue.rows.get(kind, []):
                if kind == "opening" or it["properties"]["category"] in UPWARD:
                    counts = [self.cut(it["id"], links, groups) for links in (self.links, self.turned(self.links))]
                    found |= {it["id"]: counts} if any(counts) else {}
        return found

    def cut(self, closed, links, groups):
        before = self.led(self.roots, links)
        open_ones = [link for link in links if closed not in link]
        after = self.led(self.roots - {closed}, open_ones)
        return sum(any(it in before for it in group) and not any(it in after for it in group) for group in groups.values())


def printed(program, base, profile):
    return subprocess.run([program, "links", base, "venue", profile], capture_output=True).stdout.decode()


def told(program, base, profile):
    """The same by the code of advice."""
    folder = Folder(base, "venue")
    table, whole = tables_of(program, folder, profile)
    touching = {}
    for unit, members in whole.areas.items():
        for it in (whole.nodes[member] for member in members):
            if folder.get(it).kind == "opening":
                touching.setdefault(it, []).append(unit)
    led = Led(folder, profile, table, touching, list(drawn.entrances(drawn.Drawing(folder), touching)))
    parts = sorted(sorted(it.id for it in [row.feature, *row.others]) for row in led.unreachable(set()))
    groups = led.groups()
    cuts = {name: [counts[0] for counts in both] for name, both in led.cuts(list(groups.values())).items()}
    return parts, {name: counts for name, counts in cuts.items() if any(counts)}


def differ(program, first, end):
    """What is wrong with the made venues of these numbers, None where nothing is."""
    with tempfile.TemporaryDirectory() as base:
        for number in range(first, end):
            venue = Made(random.Random(number), is_clear=number % 2 == 1)
            venue.write(base)
            for profile in ("wheelchair", "walk"):
                search = Search(venue, printed(program, base, profile), profile)
                wanted, found = (search.unreachable(), search.closings()), told(program, base, profile)
                if found != wanted:
                    return f"venue {number}, {profile}: {json.dumps(found)} and not {json.dumps(wanted)}"
    return None
