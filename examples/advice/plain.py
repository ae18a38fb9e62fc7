"""Advice by the properties of features alone."""
import re

from advice.kinds import Advice
from advice.plane import box, common_box, middle, shape
from advice.scale import degree

LIFT = "elevator"
STAIRS = ("stairs", "steps")


def in_words(texts, most=3):
    """A few texts as a list in words."""
    texts = list(texts)
    if len(texts) > most:
        texts = texts[: most - 1] + [f"{len(texts) - most + 1} more"]
    return " and ".join(filter(None, [", ".join(texts[:-1]), texts[-1]])) if texts else "none"


def called(folder, feature):
    """A feature within a sentence, as it can be found."""
    name = folder.named(feature)
    return f"{feature.kind} {feature.index}" + (f' "{name}"' if name else f" (#{feature.id[-4:]})")


def level_ids(folder, units):
    return list(dict.fromkeys(folder.level_of(unit).id for unit in units))


def levels_told(folder, ids):
    levels = sorted((folder.get(it) for it in ids), key=lambda it: it.its["ordinal"])
    return in_words(folder.told(it) for it in levels)


def units_at(folder, element, touching):
    """The units at which a relationship's element stands."""
    return [folder.get(it) for it in touching.get(element.id, [])] if element.kind == "opening" else folder.units_of(element)


class Rides:
    """Between which units the relationships that make a passage lead."""

    def __init__(self, folder, touching):
        self.by_unit = {}
        for passage in folder.passages():
            stops = [{unit.id for unit in units_at(folder, it, touching)} for it in folder.elements(passage)]
            for unit in set().union(*stops) if stops else ():
                self.by_unit.setdefault(unit, []).append((passage, set().union(*stops)))

    def between(self, folder, units):
        """The first relationship that joins units of two levels of these, None where there is none."""
        names = {unit.id: folder.level_of(unit).id for unit in units}
        for unit, level in names.items():
            for passage, others in self.by_unit.get(unit, []):
                if any(names.get(it, level) != level for it in others):
                    return passage
        return None

    def leads_up_or_down(self, folder, unit):
        level = folder.level_of(unit).id
        return any(folder.level_of(folder.get(it)).id != level for _, others in self.by_unit.get(unit.id, []) for it in others)


def across_levels(folder, rides):
    for amenity in folder["amenity"]:
        units = folder.units_of(amenity)
        ids = level_ids(folder, units)
        if len(ids) > 1:
            beside = rides.between(folder, units)
            words = {"levels": levels_told(folder, ids)}
            words |= {"beside": f"{beside.index} ({beside.id})"} if beside else {}
            yield Advice("across levels", "relationship" if beside else "amenity", amenity, [beside] if beside else [], **words)
    for kind in ("kiosk", "fixture"):
        for it in folder[kind]:
            level, units = folder.get(it.its.get("level_id")), folder.units_of(it)
            other = folder.level_of(units[0]) if units else level
            if level and other is not level:
                yield Advice("across levels", "anchor", it, [folder.get(it.its["anchor_id"])], level=folder.told(level), other=folder.told(other))


def lifts_without_ride(folder, rides):
    for amenity in folder["amenity"]:
        units = folder.units_of(amenity)
        ids = level_ids(folder, units)
        if amenity.category == LIFT and len(ids) > 1 and not rides.between(folder, units):
            yield Advice("lift without a ride", "amenity", amenity, units, levels=levels_told(folder, ids))
    yield from lift_units(folder, rides)


def lift_units(folder, rides):
    """The units of lifts that stand above or below others, and have no ride; each with the next one."""
    lifts = [it for it in folder["unit"] if it.category == LIFT]
    columns = {}
    for lift in lifts:
        # Lifts of a venue whose middles are some metres apart are no more than a few columns of this grid apart.
        bounds = box([p for ring in shape(lift.geometry, 1e9, 1e9) for p in ring])
        x, y = (int(n // 50_000) for n in middle(bounds))
        columns.setdefault((x, y), []).append((lift, bounds))
    for lift, bounds, near in ((lift, bounds, neighbours(columns, at)) for at, its in columns.items() for lift, bounds in its):
        if rides.leads_up_or_down(folder, lift):
            continue
        ordinal = folder.level_of(lift).its["ordinal"]
        others = [it for it, theirs in near if folder.level_of(it).its["ordinal"] != ordinal and common_box(bounds, theirs, 0)]
        if others:
            other = min(others, key=lambda it: (abs(folder.level_of(it).its["ordinal"] - ordinal), it.index))
            unit = f"{called(folder, other)} ({other.id})"
            yield Advice("lift without a ride", "unit", lift, [other], other=folder.told(folder.level_of(other)), unit=unit)


def neighbours(columns, at):
    x, y = at
    return [it for i in (x - 1, x, x + 1) for j in (y - 1, y, y + 1) for it in columns.get((i, j), [])]


def latitude_of(folder):
    venue = folder["venue"][0]
    return middle(box([p for ring in shape(venue.geometry, 1, 1) for p in ring]))[1]


def off(has, true):
    """By how much a length is wrong, in words."""
    share = 100 * (has / true - 1)
    if abs(share) <= 1:
        return "right"
    return f"{abs(share):.{0 if abs(share) >= 10 else 1}f}% too {'long' if share > 0 else 'short'}"


def scale(folder):
    latitude = round(latitude_of(folder), 4)
    (x, y), (true_x, true_y) = folder.scale, degree(latitude)
    if abs(x / true_x - 1) > 0.01 or abs(y / true_y - 1) > 0.01:
        words = {"latitude": f"{latitude:g}", "x": x, "y": y, "true_x": true_x, "true_y": true_y}
        yield Advice("scale", "venue", folder["venue"][0], **words, wrong_x=off(x, true_x), wrong_y=off(y, true_y))


def dates(folder, today):
    """Occupants that aren't valid on a day, as a text like 2024-12-31."""
    for it in folder["occupant"]:
        validity = it.its.get("validity")
        start, end = (day_of(validity.get(key)) if isinstance(validity, dict) else None for key in ("start", "end"))
        if start and start > today:
            yield Advice("not for visitors", "to come", it, date=start)
        elif end and end < today:
            yield Advice("not for visitors", "over", it, date=end)


def day_of(text):
    found = re.match(r"\d{4}-\d\d-\d\d", text) if isinstance(text, str) else None
    return found[0] if found else None


def unnamed(folder, entrances):
    for it in folder["unit"]:
        if it.category == LIFT or it.category in STAIRS:
            if not folder.named(it):
                yield Advice("unnamed", "lift" if it.category == LIFT else "stairs", it)
    for it in entrances:
        if not folder.named(it):
            yield Advice("unnamed", "entrance", it)
    yield from equal_names(folder)


def equal_names(folder):
    """Units, amenities and occupants of one level that have the same name and don't belong to one unit."""
    found = {}
    for kind in ("unit", "amenity", "occupant"):
        for it in folder[kind]:
            name, level = folder.named(it), folder.level_of(it)
            if name and level:
                found.setdefault((level.id, name.casefold()), []).append(it)
    for (level, _), its in found.items():
        alone = []
        taken = set()
        for it in its:
            units = {unit.id for unit in folder.units_of(it)}
            if not units & taken:
                alone.append(it)
            taken |= units
        if len(alone) > 1:
            words = {"count": len(alone), "level": folder.told(folder.get(level)), "like": in_words(f"{it.kind} {it.index}" for it in alone[1:])}
            yield Advice("unnamed", "equal", alone[0], alone[1:], **words)
