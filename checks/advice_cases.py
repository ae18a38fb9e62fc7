"""For checks/advise.py: a small venue of which nothing is to be advised, made by plain numbers, and of each kind of advice a change that
brings it."""
import json
import os

# A degree at 50 degrees north, from a table of the ellipsoid WGS 84: 71.70 and 111.23 km. In centimetres, as the settings want it.
KX, KY = 7_169_600, 11_122_900
ROOMS = [(10, "Bakery"), (20, "Books"), (30, "Flowers")]


def at(x, y):
    """The position so many metres east and north of the corner of the venue."""
    return [round(10 + x * 100 / KX, 9), round(50 + y * 100 / KY, 9)]


def line(x1, y1, x2, y2):
    return {"type": "LineString", "coordinates": [at(x1, y1), at(x2, y2)]}


def box(x1, y1, x2, y2):
    return {"type": "Polygon", "coordinates": [[at(x1, y1), at(x2, y1), at(x2, y2), at(x1, y2), at(x1, y1)]]}


def ring(*places):
    return {"type": "Polygon", "coordinates": [[at(x, y) for x, y in [*places, places[0]]]]}


def halves(*boxes):
    return {"type": "MultiPolygon", "coordinates": [box(*it)["coordinates"] for it in boxes]}


def point(x, y):
    return {"type": "Point", "coordinates": at(x, y)}


class Venue:
    """Features by type, found again by the word that each is made with."""

    def __init__(self):
        self.rows, self.words, self.count, self.settings = {}, {}, 0, {"kx": KX, "ky": KY}

    def add(self, word, kind, geometry, **properties):
        self.count += 1
        name = f"00000000-0000-4000-8000-{self.count:012d}"
        self.words[word] = {"type": "Feature", "id": name, "feature_type": kind, "geometry": geometry, "properties": properties}
        self.rows.setdefault(kind, []).append(self.words[word])
        return name

    def __getitem__(self, word):
        return self.words[word]["properties"]

    def id(self, word):
        return self.words[word]["id"]

    def draw(self, word, geometry):
        self.words[word]["geometry"] = geometry

    def take_out(self, *words):
        for word in words:
            it = self.words[word]
            self.rows[it["feature_type"]].remove(it)

    def join(self, word, category, origin, destination, direction="undirected"):
        ends = [{"id": self.id(it), "feature_type": self.words[it]["feature_type"]} for it in (origin, destination)]
        self.add(word, "relationship", None, category=category, direction=direction, origin=ends[0], destination=ends[1], intermediary=None)

    def write(self, base, folder="venue"):
        path = os.path.join(base, folder)
        os.makedirs(path, exist_ok=True)
        for old in os.listdir(path):
            os.remove(os.path.join(path, old))
        with open(os.path.join(base, "venue.toml"), "w", encoding="utf-8") as file:
            file.write("".join(f"{key} = {value}\n" for key, value in self.settings.items()))
        with open(os.path.join(path, "manifest.json"), "w", encoding="utf-8") as file:
            json.dump({"version": "1.0.0", "created": "2024-01-01T00:00:00Z", "language": "en"}, file)
        for kind, features in self.rows.items():
            with open(os.path.join(path, f"{kind}.geojson"), "w", encoding="utf-8") as file:
                json.dump({"type": "FeatureCollection", "features": features}, file)


def named(text):
    return {"en": text}


def sound():
    """Two levels, each a hall with three rooms to the south and two lifts to the north; gates lead into the lower hall from west and east."""
    v = Venue()
    v.add("venue", "venue", box(0, 0, 60, 40), category="retail", name=named("Arcade"))
    v.add("building", "building", None, category="unspecified", name=None)
    for k in (0, 1):
        level = v.add(f"level{k}", "level", box(0, 0, 60, 40), ordinal=k, name=named(["Ground", "Upper"][k]), building_ids=[v.id("building")])
        v.add(f"hall{k}", "unit", box(0, 10, 60, 30), level_id=level, category="walkway", name=named("Hall"))
        for x, name in ROOMS:
            unit = v.add(f"{name}{k}", "unit", box(x, 0, x + 10, 10), level_id=level, category="room", name=None)
            v.add(f"door {name}{k}", "opening", line(x + 4, 10, x + 6, 10), level_id=level, category="pedestrian", name=None)
            anchor = v.add(f"anchor {name}{k}", "anchor", point(x + 5, 5), unit_id=unit)
            v.add(f"shop {name}{k}", "occupant", None, category="retail", anchor_id=anchor, name=named(f"{name} {k}"), validity=None)
        for x, name in ((10, "A"), (40, "B")):
            v.add(f"lift {name}{k}", "unit", box(x, 30, x + 3, 33), level_id=level, category="elevator", name=named(f"Lift {name}"))
            v.add(f"door {name}{k}", "opening", line(x + 1, 30, x + 2, 30), level_id=level, category="pedestrian", name=None)
    for x, name in ((0, "West gate"), (60, "East gate")):
        v.add(name, "opening", line(x, 14, x, 16), level_id=v.id("level0"), category="pedestrian.principal", name=named(name))
    for name in "AB":
        v.join(f"ride {name}", "elevator", f"lift {name}0", f"lift {name}1")
    v.add("restroom", "amenity", point(50, 20), category="restroom", name=named("Restroom"), unit_ids=[v.id("hall0")])
    return v


def amenity(v, category, *units):
    v.add("new", "amenity", point(50, 20), category=category, name=named("New"), unit_ids=[v.id(it) for it in units])


def directed(v, *ends):
    for name in "AB":
        v.take_out(f"ride {name}")
        v.join(f"ride {name}", "elevator", f"lift {name}{ends[0]}", f"lift {name}{ends[1]}", "directed")


def stairs(v, name=None):
    v.add("stairs0", "unit", box(52, 30, 56, 36), level_id=v.id("level0"), category="stairs", name=name)


def walled(v, word, geometry):
    v.settings.update(inside='"clear"')
    v.draw(word, geometry)


def books_in_halves(v):
    """A wall through a room, with the door and a second shop on one side."""
    walled(v, "Books0", halves((20, 0, 30, 6), (20, 7, 30, 10)))
    v.add("new", "anchor", point(22, 8), unit_id=v.id("Books0"))


def hall_in_halves(v):
    """A wall through the lower hall, on the side of which that has lift B there is no gate."""
    walled(v, "hall0", halves((0, 10, 31, 30), (32, 10, 60, 30)))
    v.take_out("East gate")


def lift_round_a_corner(v):
    """Only lift A leads up, and below one walks in it round a corner from the door to its own place."""
    walled(v, "lift A0", ring((10, 30), (13, 30), (13, 36), (19, 36), (19, 39), (10, 39)))
    v["lift A0"].update(display_point=point(18, 37.5))
    v.take_out("ride B", "lift B0", "lift B1", "door B0", "door B1")


def lift_in_halves(v):
    """A wall between the door of lift A and its own place, so that only lift B leads up."""
    walled(v, "lift A0", halves((10, 30, 13, 33), (10, 35, 13, 40)))
    v["lift A0"].update(display_point=point(11, 37))
    for name, y in (("new", 32), ("other", 38)):
        v.add(name, "anchor", point(12, y), unit_id=v.id("lift A0"))


def only(name):
    """What stays where one lift alone leads up: each of these cuts off the upper level."""
    found = [("closings", "passage", f"lift {name}{k}") for k in (0, 1)] + [("closings", "passage", f"ride {name}")]
    return found + [("closings", "opening", f"door {name}{k}") for k in (0, 1)]


ONE_LIFT = only("A")
# Of each case a change of the sound venue that brings it, all advice that comes then, and a change after it that mends it by what is told.
CASES = {
    "an amenity of two levels": (
        lambda v: v["restroom"]["unit_ids"].append(v.id("hall1")),
        [("across levels", "amenity", "restroom")],
        lambda v: v["restroom"]["unit_ids"].pop(),
    ),
    "a lift drawn as an amenity too": (
        lambda v: (amenity(v, "elevator", "lift A0", "lift A1"), v.draw("new", point(11, 31))),
        [("across levels", "relationship", "new")],
        lambda v: v["new"]["unit_ids"].pop(),
    ),
    "a kiosk of another level than its anchor": (
        lambda v: v.add("kiosk", "kiosk", box(12, 2, 13, 3), level_id=v.id("level1"), anchor_id=v.id("anchor Bakery0"), name=None),
        [("across levels", "anchor", "kiosk")],
        lambda v: v["kiosk"].update(level_id=v.id("level0")),
    ),
    "a lift that is an amenity alone": (
        lambda v: amenity(v, "elevator", "hall0", "hall1"),
        [("across levels", "amenity", "new"), ("lift without a ride", "amenity", "new")],
        lambda v: v.take_out("new"),
    ),
    "a lift that nobody takes": (
        lambda v: v.take_out("ride B"),
        [("lift without a ride", "unit", f"lift B{k}") for k in (0, 1)] + ONE_LIFT,
        lambda v: v.join("ride C", "elevator", "lift B0", "lift B1"),
    ),
    "a door two metres beside its wall": (
        lambda v: v.draw("door Books0", line(24, 12, 26, 12)),
        [("unreachable", "part", "shop Books0"), ("unreachable", "part", "door Books0")],
        lambda v: v.draw("door Books0", line(24, 10, 26, 10)),
    ),
    "a shop in a restricted room": (
        lambda v: v["Books0"].update(restriction="employeesonly"),
        [("unreachable", "restricted", "shop Books0")],
        lambda v: v["Books0"].update(restriction=None),
    ),
    "lifts that only go up": (
        lambda v: directed(v, 0, 1),
        [("one way", "not left", "shop Bakery1")],
        lambda v: v["ride A"].update(direction="undirected") or v["ride B"].update(direction="undirected"),
    ),
    "lifts that only go down": (
        lambda v: directed(v, 1, 0),
        [("one way", "not reached", "shop Bakery1")],
        lambda v: v["ride A"].update(direction="undirected") or v["ride B"].update(direction="undirected"),
    ),
    "a shop behind a badge door": (
        lambda v: v["door Books0"].update(access_control=["badgereader"]),
        [("not for visitors", "way", "door Books0")],
        lambda v: v["door Books0"].update(access_control=None),
    ),
    "a shop behind an emergency exit": (
        lambda v: v["door Books1"].update(category="emergencyexit"),
        [("not for visitors", "way", "door Books1")],
        lambda v: v["door Books1"].update(category="pedestrian"),
    ),
    "a hall that isn't public": (
        lambda v: v["hall1"].update(category="nonpublic"),
        [("not for visitors", "way", "hall1")],
        lambda v: v["hall1"].update(category="walkway"),
    ),
    "a restricted level": (
        lambda v: v["level0"].update(restriction="employeesonly"),
        [("not for visitors", "way", "level0")],
        lambda v: v["level0"].pop("restriction"),
    ),
    "a restricted building": (
        lambda v: (v["building"].update(restriction="restricted"), v["level1"].update(building_ids=None)),
        [("not for visitors", "way", "building")],
        lambda v: v["building"].pop("restriction"),
    ),
    "a shop that opens": (
        lambda v: v["shop Books0"].update(validity={"start": "2999-01-01T00:00:00Z", "end": None}),
        [("not for visitors", "to come", "shop Books0")],
        lambda v: v["shop Books0"].update(validity=None),
    ),
    "a shop that is gone": (
        lambda v: v["shop Books0"].update(validity={"start": "2001-01-01", "end": "2009-06-30"}),
        [("not for visitors", "over", "shop Books0")],
        lambda v: v["shop Books0"].update(validity={"start": "2001-01-01", "end": None}),
    ),
    "another scale": (
        lambda v: v.settings.update(kx=1),
        [("scale", "venue", "venue")],
        lambda v: v.settings.update(kx=KX),
    ),
    "a scale that is half a percent off": (lambda v: v.settings.update(kx=KX + KX // 200), [], lambda v: None),
    "a door 40 centimetres beside its wall": (
        lambda v: v.draw("door Books0", line(24, 10.4, 26, 10.4)),
        [("unreachable", "part", "shop Books0"), ("far openings", "opening", "door Books0")],
        # 0.4 m are 3,596 nanodegrees of latitude.
        lambda v: v.settings.update(border_tol=3_597),
    ),
    "a unit of 30 centimetres": (
        lambda v: v.add("new", "unit", box(20, 30, 30, 30.3), level_id=v.id("level0"), category="room", name=None),
        [("thin", "narrow", "new")],
        lambda v: v.draw("new", box(20, 30, 30, 31)),
    ),
    "rooms that lie over each other": (
        lambda v: v.draw("Books0", box(19, 0, 30, 10)),
        [("thin", "overlap", "Bakery0")],
        lambda v: v.draw("Books0", box(20, 0, 30, 10)),
    ),
    "a lift without a name": (lambda v: v["lift A0"].update(name=None), [("unnamed", "lift", "lift A0")], lambda v: v["lift A0"].update(name=named("Lift A"))),
    "stairs without a name": (stairs, [("unnamed", "stairs", "stairs0")], lambda v: v["stairs0"].update(name=named("Stairs"))),
    "a gate without a name": (lambda v: v["West gate"].update(name=None), [("unnamed", "entrance", "West gate")], lambda v: v["West gate"].update(name=named("West"))),
    "a door to the outside without a name": (
        lambda v: v.add("new", "opening", line(24, 0, 26, 0), level_id=v.id("level0"), category="pedestrian", name=None),
        [("unnamed", "entrance", "new")],
        lambda v: v["new"].update(name=named("South")),
    ),
    "two shops of one name": (
        lambda v: v["shop Books0"].update(name=named("Bakery 0")),
        [("unnamed", "equal", "shop Bakery0")],
        lambda v: v["shop Books0"].update(name=named("Books 0")),
    ),
    "one lift": (
        lambda v: v.take_out("ride B", "lift B0", "lift B1", "door B0", "door B1"),
        ONE_LIFT,
        lambda v: (
            [v.add(f"ramp{k}", "unit", box(40, 30, 44, 40), level_id=v.id(f"level{k}"), category="ramp", name=None) for k in (0, 1)],
            [v.add(f"door ramp{k}", "opening", line(41, 30, 43, 30), level_id=v.id(f"level{k}"), name=None) for k in (0, 1)],
            v.join("ramp", "ramp", "ramp0", "ramp1"),
        ),
    ),
    "a room with a wall through it": (
        books_in_halves,
        [("unreachable", "part", "shop Books0")],
        # The wall ends before the other side.
        lambda v: v.draw("Books0", ring((20, 0), (30, 0), (30, 10), (20, 10), (20, 7), (28, 7), (28, 6), (20, 6))),
    ),
    "a hall with a wall through it": (
        hall_in_halves,
        [*ONE_LIFT, ("closings", "opening", "West gate")],
        lambda v: v.rows["opening"].append(v.words["East gate"]),
    ),
    "one lift, in which one walks round a corner": (
        lift_round_a_corner,
        ONE_LIFT,
        lambda v: CASES["one lift"][2](v),
    ),
    "a lift with a wall through it": (
        lift_in_halves,
        only("B"),
        lambda v: v.draw("lift A0", box(10, 30, 13, 40)),
    ),
}
