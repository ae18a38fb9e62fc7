"""For checks/advise.py: the folder examples/arcade/hall broken in one way each, and the words that tell it and how to mend it."""
import json
import os
import shutil

TOP = os.path.join(os.path.dirname(os.path.abspath(__file__)), "..")
SOUND = os.path.join(TOP, "examples", "arcade")


def name(digits):
    return f"7d1f0c4e-5b2a-4c60-9e11-{digits:012d}"


class Files:
    """The texts of a base with the one folder `hall`, as they are changed."""

    def __init__(self, base):
        self.base, self.folder = base, os.path.join(base, "hall")
        shutil.rmtree(base, ignore_errors=True)
        shutil.copytree(SOUND, base)

    def path(self, file):
        return os.path.join(self.base if file == "venue.toml" else self.folder, file)

    def read(self, file):
        with open(self.path(file), encoding="utf-8") as opened:
            return opened.read()

    def write(self, file, text):
        with open(self.path(file), "w", encoding="utf-8") as opened:
            opened.write(text)

    def swap(self, file, old, new):
        text = self.read(file)
        assert old in text, (file, old)
        self.write(file, text.replace(old, new, 1))

    def change(self, file, index, how):
        found = json.loads(self.read(file))
        how(found["features"][index])
        self.write(file, json.dumps(found, ensure_ascii=False))

    def its(self, file, index, **members):
        self.change(file, index, lambda it: it["properties"].update(members))

    def drop(self, file):
        os.remove(self.path(file))


def mend(files):
    """Does what is told to be done of each line of advice on the sound folder."""
    files.its("amenity.geojson", 2, unit_ids=[name(107)])
    files.its("opening.geojson", 7, access_control=None)
    files.its("occupant.geojson", 4, validity=None)
    files.change("opening.geojson", 4, lambda it: it["geometry"].update(coordinates=[[11.5603897, 48.1400899], [11.5604165, 48.1400899]]))
    files.its("unit.geojson", 4, name={"de": "WC Damen"})
    files.its("unit.geojson", 5, name={"de": "WC Herren"})
    files.its("unit.geojson", 12, name={"de": "Haupttreppe"})
    # A second way in for wheelchairs, and a second lift, north of the halls between the main stairs and the fire stairs.
    files.its("opening.geojson", 1, door={"type": "sliding"})
    found = {file: json.loads(files.read(file)) for file in ("unit.geojson", "opening.geojson", "relationship.geojson")}
    low, high, west, east = 48.1402248, 48.1402518, 11.5603225, 11.5603628
    shaft = [[[west, low], [east, low], [east, high], [west, high], [west, low]]]
    for level in (0, 1):
        its = {"level_id": name(10 + level), "category": "elevator", "name": {"de": "Zweiter Aufzug"}}
        found["unit.geojson"]["features"].append(feature("unit", 114 + level, {"type": "Polygon", "coordinates": shaft}, its))
        line = {"type": "LineString", "coordinates": [[west + 0.00001, low], [east - 0.00001, low]]}
        found["opening.geojson"]["features"].append(feature("opening", 214 + level, line, {"level_id": name(10 + level)}))
    ends = [{"id": name(114 + level), "feature_type": "unit"} for level in (0, 1)]
    its = {"category": "elevator", "direction": "undirected", "origin": ends[0], "destination": ends[1]}
    found["relationship.geojson"]["features"].append(feature("relationship", 303, None, its))
    for file, content in found.items():
        files.write(file, json.dumps(content))


def feature(kind, digits, geometry, its):
    return {"type": "Feature", "id": name(digits), "feature_type": kind, "geometry": geometry, "properties": its}


# Of each case the change, what has to be told in one line, and how many lines tell what is wrong.
CASES = {
    "a file that is missing": (
        lambda f: f.drop("level.geojson"),
        ["X1: level.geojson: the file isn't there, and", "properties name its features", "Add level.geojson."],
        1,
    ),
    "a file of another name": (
        lambda f: os.rename(f.path("level.geojson"), f.path("levels.geojson")),
        ["level.geojson: the file isn't there", "Add level.geojson, for which levels.geojson may be meant: files of other names aren't read."],
        1,
    ),
    "a folder that isn't there": (lambda f: os.rename(f.folder, f.folder + "s"), ["no such folder hall in ", "There are: halls"], 0),
    "a comma that is missing": (
        # In the fourth line, after the type, whose text ends at column 17.
        lambda f: f.swap("unit.geojson", '\n{"type":"Feature","id":"' + name(102), '\n{"type":"Feature" "id":"' + name(102)),
        ["F3: unit.geojson: line 4, column 19: expecting ',' delimiter"],
        1,
    ),
    "an empty file": (lambda f: f.write("detail.geojson", ""), ["F3: detail.geojson: the file is empty", "A file without features may be missing, but not empty."], 1),
    "a number that JSON hasn't": (
        lambda f: f.swap("level.geojson", '"ordinal":-1', '"ordinal":NaN'),
        ["F3: level.geojson: line 2, column ", ": NaN is no number of JSON"],
        1,
    ),
    "a category that is missing": (
        lambda f: f.change("unit.geojson", 6, lambda it: it["properties"].pop("category")),
        [f'C6: unit.geojson 6 {name(106)} "Verwaltung", category: it isn\'t there, and is to be a text'],
        1,
    ),
    "units that are no list": (
        lambda f: f.its("amenity.geojson", 3, unit_ids=name(100)),
        [f'C6: amenity.geojson 3 {name(603)} "Geldautomat", unit_ids: it is "{name(100)}", and is to be a list of UUIDs, not empty'],
        1,
    ),
    "an item that is no identifier": (
        lambda f: f.its("amenity.geojson", 2, unit_ids=[name(107), "111"]),
        [f'C6: amenity.geojson 2 {name(602)} "Aufzug", unit_ids[1]: it is "111"'],
        1,
    ),
    "an ordinal as a text": (lambda f: f.its("level.geojson", 1, ordinal="0"), [f'L1: level.geojson 1 {name(11)} "Erdgeschoss": `ordinal` is "0"'], 1),
    "a direction that there isn't": (
        lambda f: f.its("relationship.geojson", 0, direction="both"),
        [f'Q1: relationship.geojson 0 {name(300)}: `direction` is "both"', "Write `\"undirected\"` where people pass both ways."],
        1,
    ),
    "a point in place of a line": (
        lambda f: f.change("opening.geojson", 2, lambda it: it.update(geometry={"type": "Point", "coordinates": [11.56, 48.14]})),
        [f'C5: opening.geojson 2 {name(202)}: its geometry is "Point", and opening.geojson asks for a LineString'],
        1,
    ),
    "a ring that doesn't close": (
        lambda f: f.change("unit.geojson", 3, lambda it: it["geometry"]["coordinates"][0].pop()),
        [f"G2: unit.geojson 3 {name(103)}: ring 0 begins at [", "and ends at [", "Close the ring, or draw what is missing."],
        1,
    ),
    "a point as a list": (
        lambda f: f.its("unit.geojson", 13, display_point=[11.56, 48.14]),
        [f'C6: unit.geojson 13 {name(113)} "Fluchttreppe", display_point: it is [11.56,48.14], and is to be null or', "What to do: Write display_point in this form, or leave it out."],
        1,
    ),
    "another type of feature": (
        lambda f: f.change("opening.geojson", 5, lambda it: it.update(feature_type="door")),
        [f'C4: opening.geojson 5 {name(205)}: `feature_type` is "door", and is to be "opening"', 'Write "opening", or move the feature'],
        1,
    ),
    "two features of one identifier": (
        lambda f: f.change("occupant.geojson", 4, lambda it: it.update(id=name(500))),
        [f'C7: occupant.geojson 4 {name(500)} "Sommermarkt": occupant.geojson 0 "Bäckerei Huber" has the identifier {name(500)} too'],
        1,
    ),
    "an identifier with a slip": (
        lambda f: f.its("anchor.geojson", 1, unit_id=name(192)),
        [f'X1: anchor.geojson 1 {name(401)}, unit_id: it names "{name(192)}", and no feature has this identifier'],
        1,
    ),
    "a unit that is taken out": (
        lambda f: f.swap("unit.geojson", name(110), name(119)),
        [f'it names "{name(110)}", and no feature has this identifier; so do 1 more, as unit_id of anchor.geojson 4 {name(404)}'],
        1,
    ),
    "a unit for a level": (
        lambda f: f.its("opening.geojson", 3, level_id=name(100)),
        [f'X2: opening.geojson 3 {name(203)}, level_id: it names "{name(100)}", which is unit.geojson 0, and asks for a feature of type `level`'],
        1,
    ),
    "longitude and latitude in the wrong order": (
        lambda f: f.change("amenity.geojson", 3, lambda it: it["geometry"]["coordinates"].reverse()),
        ["G6: manifest.json: most positions are near [11.56", f"and amenity.geojson 3 ({name(603)}) has [48.14"],
        1,
    ),
    "a ring whose edges cross": (
        lambda f: f.change("unit.geojson", 3, lambda it: it["geometry"]["coordinates"][0].insert(1, it["geometry"]["coordinates"][0].pop(2))),
        [f"G3: unit.geojson 3 {name(103)}: ring 0: the edge from [", "crosses that from [", "Put the positions into the order in which one walks round."],
        # The two halves of the bow have equal areas, so it has none, and the anchor isn't in either.
        3,
    ),
    "an anchor beyond its room": (
        # Of a room that ends 10 m north of the corner; so 3 m are 0.00002698 degrees of latitude.
        lambda f: f.change("anchor.geojson", 1, lambda it: it["geometry"]["coordinates"].__setitem__(1, round(48.14 + 13 * 100 / 11_119_305, 7))),
        [f"K2: anchor.geojson 1 {name(401)}: [", "is 3.0 m outside of unit.geojson 2, its `unit_id`", "Move the anchor, or correct `unit_id`."],
        1,
    ),
    "a room beyond its level": (
        # The level reaches 1 m further south than the rooms.
        lambda f: f.change("unit.geojson", 2, lambda it: it["geometry"]["coordinates"][0][1].__setitem__(1, round(48.14 - 500 / 11_119_305, 7))),
        [f"K1: unit.geojson 2 {name(102)}: [", 'is 4.0 m outside of level.geojson 1 "Erdgeschoss", its `level_id`'],
        1,
    ),
    "settings that aren't there": (lambda f: f.drop("venue.toml"), ["has no venue.toml, which has to have kx and ky at least", "`./venue scale LATITUDE`"], 0),
    "a key with a slip": (lambda f: f.swap("venue.toml", "stairs_extra", "stair_extra"), ["venue.toml has a key that there isn't; it may be misspelled: stair_extra"], 0),
    "a text for a number": (lambda f: f.swap("venue.toml", "kx = 7442294", 'kx = "7442294"'), ["a value of the wrong kind", ": kx"], 0),
    "settings that are no TOML": (lambda f: f.swap("venue.toml", "kx = 7442294", "kx = = 7442294"), ["venue.toml is no TOML document: ", "(at line 2, column 6)"], 0),
}


def wrong(told, words, lines):
    """What is missing of what has to be told, None where nothing is."""
    found = [line for line in told.splitlines() if line[:1].isupper() and line[1:2].isdigit()]
    if len(found) != lines:
        return f"{len(found)} lines and not {lines}: {told}"
    missing = [it for it in words if it not in told]
    return f"{missing} isn't told: {told}" if missing else None
