"""Writes a venue near the limits that breaks no rule: 100,000 features with 1,000,000 judged positions.

usage: folder.py BASE [BUILDINGS [CORNERS]]   (BASE gets venue.toml and the folder `sound`; each building has a tenth of all, and each
level's outline so many corners, 100 where nothing is said)
Every run writes the same bytes. A building has ten levels, a level two corridors with rooms along both sides.
"""
import json
import os
import random
import sys

DEGREE = 10**7  # ticks to a degree; a tick is about a centimetre
ROOM, DEPTH, CORRIDOR = 900, 1200, 400  # ticks: a room along its corridor and away from it, a corridor across
BAND = DEPTH + CORRIDOR + DEPTH
ROOMS, BANDS, LEVELS = 78, 2, 10  # rooms on a side of a corridor, corridors of a level, levels of a building
EAST, NORTH = ROOMS * ROOM, BANDS * BAND  # a level's rooms reach from 0 to these
HALL = 600  # ticks: the hall at the west end, which joins the corridors
BETWEEN = 10000  # ticks from a building to the next
PASSAGES = ["elevator", "stairs", "escalator", "ramp"]  # the first rooms of a side, above one another
FILE_LIMIT = 33_554_432
TYPES = (
    "address amenity anchor building detail fixture footprint geofence kiosk level occupant opening relationship section"
    " unit venue"
).split()


class Folder:
    """The features of each type as text, and how many features and judged positions there are."""

    def __init__(self, corners=100):
        self.chance = random.Random(1)
        self.corners = corners  # of a level's outline
        self.texts = {name: [] for name in TYPES}
        self.features = self.positions = 0

    def new_id(self):
        digits = f"{self.chance.getrandbits(128):032x}"
        return "-".join((digits[:8], digits[8:12], "4" + digits[13:16], "a" + digits[17:20], digits[20:]))

    def add(self, name, geometry, properties, identifier=None):
        identifier = identifier or self.new_id()
        item = {"type": "Feature", "id": identifier, "feature_type": name, "geometry": geometry, "properties": properties}
        self.texts[name].append(json.dumps(item, separators=(",", ":")))
        self.features += 1
        return identifier

    def judged(self, kind, points):
        """A geometry whose positions count."""
        self.positions += len(points)
        return geometry(kind, points)

    def write(self, folder):
        os.makedirs(folder)
        manifest = {"version": "1.0.0", "created": "2024-01-01T00:00:00Z", "language": "en"}
        write(os.path.join(folder, "manifest.json"), json.dumps(manifest))
        for name, texts in self.texts.items():
            text = '{"type":"FeatureCollection","features":[\n' + ",\n".join(texts) + "\n]}\n"
            write(os.path.join(folder, name + ".geojson"), text)


class Building:
    """One of the buildings of a venue: its place, and what its levels share."""

    def __init__(self, folder, number):
        self.folder, self.number = folder, number
        self.south = number * BETWEEN
        self.address = folder.add("address", None, {"address": f"{number + 1} Station Road", "locality": "Ems", "country": "DE"})
        self.id = folder.add("building", None, {"category": "unspecified", "name": None, "address_id": self.address})
        ring = box(-HALL, self.south, EAST, self.south + NORTH)
        folder.add("footprint", folder.judged("Polygon", ring), {"category": "ground", "name": None, "building_ids": [self.id]})
        folder.add("geofence", geometry("Polygon", ring), {"category": "geofence", "name": None})


class Level:
    """A level of a building, with its units and openings."""

    def __init__(self, building, ordinal):
        self.building, self.folder, self.ordinal = building, building.folder, ordinal
        self.south = building.south
        ring = outline(self.folder.chance, -HALL, self.south, EAST, self.south + NORTH, self.folder.corners)
        properties = {"category": "unspecified", "outdoor": False, "ordinal": ordinal, "name": named("Level", ordinal)}
        properties |= {"address_id": building.address, "building_ids": [building.id]}
        self.id = self.folder.add("level", self.folder.judged("Polygon", ring), properties)
        self.rooms, self.passages = [], []  # (unit, opening, corridor, a place inside), and of those the first of a side
        self.openings = []
        self.hall()
        for band in range(BANDS):
            self.corridor(self.south + band * BAND + DEPTH)
        for name in ("detail", "kiosk", "section"):
            self.not_judged(name)

    def hall(self):
        """The hall at the west end, from which an opening leads to each corridor."""
        south, middle, north = (self.south + y for y in (0, NORTH // 2, NORTH))
        ring = [(-HALL, south), (0, south), (0, middle), (0, north), (-HALL, north), (-HALL, south)]
        self.unit("walkway", ring, (-HALL // 2, middle))

    def corridor(self, south):
        """A corridor, the rooms along both sides, and the doors to them."""
        north = south + CORRIDOR
        steps = range(0, EAST + 1, EAST // 12)
        ring = [(x, south) for x in steps] + [(x, north) for x in reversed(steps)] + [(0, south)]
        corridor = self.unit("walkway", ring, (EAST // 2, south + CORRIDOR // 2))
        self.opening([(0, south + 100), (0, south + 300)])
        fixture = box(ROOM, south + 100, ROOM + 200, south + 200)
        properties = {"category": "furniture", "name": None, "anchor_id": None, "level_id": self.id}
        self.folder.add("fixture", self.folder.judged("Polygon", fixture), properties)
        for door, up in ((south, -1), (north, 1)):
            for place in range(ROOMS):
                self.room(corridor, place, door, up)

    def room(self, corridor, place, door, up):
        west, count = place * ROOM, len(self.rooms) + self.building.number * 7 + self.ordinal * 3
        category = PASSAGES[place] if place < len(PASSAGES) else ["room", "room", "restroom", "nonpublic", "lobby"][count % 5]
        inside = (west + ROOM // 2, door + up * DEPTH // 4)
        corners = 5 + count * 17 % (46 - (self.folder.corners - 100) // 130)
        unit = self.unit(category, room_ring(self.folder.chance, corners, west, door, up), inside)
        opening = self.opening([(west + 300, door), (west + 420, door)])
        self.rooms.append((unit, opening, corridor, inside))
        if place < len(PASSAGES):
            self.passages.append((category, unit, opening))

    def unit(self, category, ring, display):
        number = len(self.folder.texts["unit"])
        properties = {"category": category, "restriction": "employeesonly" if category == "nonpublic" else None}
        properties |= {"accessibility": None, "name": named("Unit", number), "alt_name": None, "level_id": self.id}
        properties["display_point"] = geometry("Point", [display]) if number % 2 else None
        return self.folder.add("unit", self.folder.judged("Polygon", ring), properties)

    def opening(self, line):
        """Openings wait, as some get a third position in the end."""
        identifier, number = self.folder.new_id(), len(self.openings)
        properties = {"category": "pedestrian", "accessibility": ["wheelchair"] if number % 3 else None, "access_control": None}
        properties["door"] = {"type": "swinging", "automatic": number % 2 == 0, "material": "glass"} if number % 4 else None
        properties |= {"name": None, "alt_name": None, "display_point": None, "level_id": self.id}
        self.openings.append((identifier, line, properties))
        self.folder.positions += len(line)
        return identifier

    def not_judged(self, name):
        ring = box(ROOM, self.south, 2 * ROOM, self.south + 100)
        self.folder.add(name, geometry("Polygon", ring), {"category": name, "name": None, "level_id": self.id})


def room_ring(chance, corners, west, door, up):
    """A room of so many corners: a straight wall at its door, and a wall away from it that goes in and out."""
    between = sorted(chance.sample(range(west + 1, west + ROOM), corners - 4))
    wall = [(x, door + up * chance.randint(DEPTH // 2, DEPTH)) for x in [west, *between, west + ROOM]]
    ring = [(west, door), (west + ROOM, door), *reversed(wall), (west, door)]
    return ring if up > 0 else ring[::-1]


def outline(chance, west, south, east, north, corners):
    """A wall round the box with so many corners, a multiple of ten, which goes outward between the box's corners."""
    xs, ys = range(west, east, (east - west) * 5 // (2 * corners)), range(south, north, (north - south) * 10 // corners)

    def out():
        return chance.randint(20, 400)

    ring = [(west - 20, south - 20)] + [(x, south - out()) for x in xs[1:]]
    ring += [(east + 20, south - 20)] + [(east + out(), y) for y in ys[1:]]
    ring += [(east + 20, north + 20)] + [(x, north + out()) for x in reversed(xs[1:])]
    ring += [(west - 20, north + 20)] + [(west - out(), y) for y in reversed(ys[1:])]
    return ring + ring[:1]


def box(west, south, east, north):
    return [(west, south), (east, south), (east, north), (west, north), (west, south)]


def geometry(kind, points):
    positions = [[(10 * DEGREE + x) / DEGREE, (50 * DEGREE + y) / DEGREE] for x, y in points]
    return {"type": kind, "coordinates": {"Point": positions[0], "LineString": positions, "Polygon": [positions]}[kind]}


def named(word, number):
    return {"en": f"{word} {number}"}


def reference(identifier, name):
    return {"id": identifier, "feature_type": name}


def relate(folder, category, direction, origin, between, destination):
    properties = {"category": category, "direction": direction, "origin": origin, "intermediary": between}
    folder.add("relationship", None, properties | {"destination": destination, "hours": None})


def add_relationships(folder, levels):
    """Passages from level to level of a building, by units or by openings, and the ways through a few doors of each level."""
    for below, above in zip(levels, levels[1:]):
        if below.building is above.building:
            for (category, *low), (_, *high) in zip(below.passages, above.passages):
                by = 0 if category in ("elevator", "ramp") else 1
                ends = [reference(end[by], ("unit", "opening")[by]) for end in (low, high)]
                relate(folder, category, "directed" if category == "escalator" else "undirected", ends[0], None, ends[1])
    for level in levels:
        for unit, opening, corridor, _ in level.rooms[4::26]:
            between = [reference(opening, "opening")]
            relate(folder, "traversal", "undirected", reference(unit, "unit"), between, reference(corridor, "unit"))


def add_anchors(folder, levels):
    """An anchor in every third room, and who is there."""
    for level in levels:
        for unit, _, _, (x, y) in level.rooms[::3]:
            place = folder.judged("Point", [(x + 50, y)])
            anchor = folder.add("anchor", place, {"address_id": level.building.address, "unit_id": unit})
            properties = {"name": named("Shop", len(folder.texts["occupant"])), "category": "shopping", "anchor_id": anchor}
            properties |= {"hours": "Mo-Fr 08:00-20:00", "phone": None, "website": None, "validity": None}
            folder.add("occupant", None, properties | {"correlation_id": None})


def add_amenities(folder, levels, count):
    """So many amenities, spread over the rooms; every fourth also names the corridor."""
    rooms = [room for level in levels for room in level.rooms]
    for number in range(count):
        unit, _, corridor, (x, y) = rooms[number * len(rooms) // count]
        units = [corridor, unit] if number % 4 == 0 else [unit]
        properties = {"category": ["restroom", "seating", "atm"][number % 3], "accessibility": None}
        properties |= {"name": named("Amenity", number), "alt_name": None, "hours": None, "phone": None, "website": None}
        properties |= {"unit_ids": units, "address_id": None, "correlation_id": None}
        folder.add("amenity", folder.judged("Point", [(x - 50, y)]), properties)


def add_openings(folder, levels, longer):
    """The openings of the levels; so many of them get a position in their middle."""
    for level in levels:
        for identifier, line, properties in level.openings:
            if longer > 0:
                longer -= 1
                (a, b), (c, d) = line
                line = [(a, b), ((a + c) // 2, (b + d) // 2), (c, d)]
                folder.positions += 1
            folder.add("opening", geometry("LineString", line), properties, identifier)


def add_venue(folder, buildings):
    ring = box(-BETWEEN, -BETWEEN, EAST + BETWEEN, buildings * BETWEEN)
    properties = {"category": "transitstation", "restriction": None, "name": named("Station", 1), "address_id": None}
    folder.add("venue", folder.judged("Polygon", ring), properties)


def write(path, text):
    data = text.encode()
    assert len(data) <= FILE_LIMIT, path
    with open(path, "wb") as file:
        file.write(data)


def main():
    base, *sizes = sys.argv[1:]
    buildings, corners = (int(word) for word in sizes + ["10", "100"][len(sizes) :])
    folder = Folder(corners)
    levels = [Level(building, n) for building in [Building(folder, n) for n in range(buildings)] for n in range(LEVELS)]
    add_venue(folder, buildings)
    add_relationships(folder, levels)
    add_anchors(folder, levels)
    openings = sum(len(level.openings) for level in levels)
    add_amenities(folder, levels, 10_000 * buildings - openings - folder.features)
    add_openings(folder, levels, 100_000 * buildings - folder.positions)
    assert (folder.features, folder.positions) == (10_000 * buildings, 100_000 * buildings)
    folder.write(os.path.join(base, "sound"))
    write(os.path.join(base, "venue.toml"), "kx = 7155000\nky = 11126000\n")


if __name__ == "__main__":
    main()
