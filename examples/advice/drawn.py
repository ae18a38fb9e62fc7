"""Advice by where things are drawn: which openings lead outside, which touch nothing, and which units are thin or lie over each other."""
from math import hypot

from advice.kinds import Advice
from advice.plain import called, latitude_of
from advice.plane import Index, box, common_box, depth_of_overlap, is_inside, is_thin, shape, to_border, width
from advice.scale import degree

TICKS = 10**9  # nanodegrees of a degree; shapes are kept in these
BEYOND = (30, 100)  # centimetres from an opening, at which something lies on its other side
ENTRANCE, EXIT = "pedestrian.principal", "emergencyexit"


class Level:
    """The units of a level as they are drawn, in nanodegrees, and a grid over their boxes."""

    def __init__(self, units):
        self.units = units
        self.rings = [shape(it.geometry, TICKS, TICKS) for it in units]
        self.boxes = [box([p for ring in rings for p in ring]) for rings in self.rings]
        self.index = Index(self.boxes)


class Drawing:
    """The levels of a folder, and the length of a nanodegree on each axis, as it is where the venue stands."""

    def __init__(self, folder):
        self.folder = folder
        self.x, self.y = (length / TICKS for length in degree(latitude_of(folder)))
        its = {}
        for unit in folder["unit"]:
            its.setdefault(folder.level_of(unit).id, []).append(unit)
        self.levels = {level: Level(units) for level, units in its.items()}
        self.empty = Level([])

    def level(self, feature):
        return self.levels.get(self.folder.level_of(feature).id, self.empty)

    def line(self, opening):
        return [(p[0] * TICKS, p[1] * TICKS) for p in opening.geometry["coordinates"]]

    def is_outside(self, p, level):
        return not any(is_inside(p, level.rings[n]) for n in level.index.near((*p, *p)))

    def leads_outside(self, opening):
        """Whether on one side of an opening, up to a metre away, there is no unit of its level."""
        line = self.line(opening)
        (ax, ay), (bx, by) = line[0], line[-1]
        dx, dy = (bx - ax) * self.x, (by - ay) * self.y
        long = hypot(dx, dy)
        if not long:
            return False
        out_x, out_y = -dy / long / self.x, dx / long / self.y
        x, y, level = (ax + bx) / 2, (ay + by) / 2, self.level(opening)
        return any(all(self.is_outside((x + side * far * out_x, y + side * far * out_y), level) for far in BEYOND) for side in (-1, 1))


def entrances(drawing, touching):
    """The openings of a unit that are main entrances, or beyond which there is no unit, but for emergency exits."""
    for opening in drawing.folder["opening"]:
        category = opening.its.get("category")
        if opening.id in touching and category != EXIT and (category == ENTRANCE or drawing.leads_outside(opening)):
            yield opening


def far_openings(drawing, touching):
    """Openings that touch no unit, though one is within ten times the tolerance of each of their vertices."""
    folder = drawing.folder
    tolerance = folder.settings["border_tol"]
    for opening in folder["opening"]:
        if opening.id in touching or "outofservice" in opening.texts("access_control"):
            continue
        line, level, reach = drawing.line(opening), drawing.level(opening), 10 * tolerance
        bounds = box(line)
        near = level.index.near((bounds[0] - reach, bounds[1] - reach, bounds[2] + reach, bounds[3] + reach))
        found = [(max(to_border(p, level.rings[n]) for p in line), n) for n in near]
        ticks, n = min(found, default=(reach + 1, None))
        if tolerance < ticks <= reach:
            unit = level.units[n]
            scaled = [[(x * drawing.x, y * drawing.y) for x, y in ring] for ring in level.rings[n]]
            far = max(to_border((x * drawing.x, y * drawing.y), scaled) for x, y in line)
            words = {"far": f"{far:.0f}", "ticks": int(ticks) + 1, "tolerance": tolerance}
            yield Advice("far openings", "opening", opening, [unit], unit=f"{called(folder, unit)} ({unit.id})", **words)


def thin(drawing):
    for level in drawing.levels.values():
        for number, unit in enumerate(level.units):
            if unit.is_walked:
                yield from narrow(drawing, unit, level.rings[number])
        yield from overlaps(drawing, level)


def narrow(drawing, unit, rings):
    settings = drawing.folder.settings
    for key, so in (("border_tol", "an opening on one side touches the other side too"), ("contain_tol", "a point beside it counts as within")):
        if is_thin(rings, settings[key]):
            wide = width([[(x * drawing.x, y * drawing.y) for x, y in ring] for ring in rings])
            yield Advice("thin", "narrow", unit, wide=f"{wide:.0f}", key=key, tolerance=settings[key], so=so)
            return


def overlaps(drawing, level):
    """Pairs of units in which people walk that lie over each other by more than openings may be off."""
    least = drawing.folder.settings["border_tol"]
    for number, bounds in enumerate(level.boxes):
        if not level.units[number].is_walked:
            continue
        for other in level.index.near(bounds):
            common = common_box(bounds, level.boxes[other], least) if other > number and level.units[other].is_walked else None
            deep = depth_of_overlap(level.rings[number], level.rings[other], common) if common else 0
            # A point that deep within both: the overlap is twice as wide.
            if 2 * deep > least:
                one, two = level.units[number], level.units[other]
                told = f"{2 * deep * min(drawing.x, drawing.y):.0f}"
                yield Advice("thin", "overlap", one, [two], unit=f"{called(drawing.folder, two)} ({two.id})", deep=told)
