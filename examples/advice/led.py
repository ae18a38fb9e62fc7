"""Advice by where ways lead: what they don't reach, what they go by, and whose closing cuts a level off."""
from advice.folder import LADDERS, flags_of
from advice.kinds import Advice
from advice.plain import called, in_words, levels_told
from advice.ways import Costs, Graph, cut_by, parts_of, reach

STAFF_DOORS = {"badgereader", "fingerprintreader", "keyaccess", "passwordaccess", "retinascanner", "voicerecognition"}
STAFF_UNITS = {"nonpublic", "kitchen", "mailroom", "serverroom", "storage"}
DOORS = {"emergencyexit": "an emergency exit", "automobile": "a door for cars", "service": "a door for staff"}
PLACES = ("anchor", "amenity", "opening")
# So many steps are spent on cheapest ways: from each public place of a venue of some thousand nodes, of a larger one from some of them.
MOST_STEPS = 2_000_000


def is_stop(feature):
    """Whether a feature is a unit in which people are on their way, as a lift."""
    return feature.kind == "unit" and feature.category in LADDERS | {"steps"}


class Led:
    """The ways of a profile through a folder. `touching` has the units that each opening touches, `doors` the entrances."""

    def __init__(self, folder, profile, table, touching, doors):
        self.folder, self.profile, self.table, self.touching = folder, profile, table, touching
        self.flags = flags_of(folder.settings, profile)
        self.graph = Graph(table)
        self.back = self.graph.back()
        self.number = {name: k for k, name in enumerate(table.nodes)}
        self.roots = self.roots_of([self.number[it.id] for it in doors])
        self.reached, self.left = reach(self.graph.next, self.roots), reach(self.back, self.roots)
        self.occupants = {}
        for it in folder["occupant"]:
            if it.its.get("anchor_id"):
                self.occupants.setdefault(folder.get(it.its["anchor_id"]).id, []).append(it)

    def node(self, number):
        """The feature of a node; None of a corner, and of a vertex that stands for a relationship or a block."""
        return self.folder.get(self.table.nodes[number]) if number < len(self.table.nodes) else None

    def roots_of(self, doors):
        """Where ways begin: the entrances that the profile can pass. Where the largest part has none, its unit with most members too."""
        doors = [it for it in doors if self.graph.next[it] or self.back[it]]
        parts = parts_of(self.graph.next, self.back, b"\1" * len(self.graph.next))
        parts = [sorted(it for it in part if it < len(self.table.nodes)) for part in parts]
        largest = max(parts, key=len, default=[])
        if not largest or set(doors) & set(largest):
            return doors
        halls = [it for it in largest if self.node(it).kind == "unit" and not is_stop(self.node(it))] or largest
        return doors + [max(halls, key=lambda it: len(self.members(it)))]

    def members(self, number):
        return self.table.areas.get(self.table.nodes[number], [])

    def is_barred(self, feature):
        """Whether the profile can't pass an opening by what stands at it."""
        if feature.kind != "opening":
            return False
        door = str((feature.its.get("door") or {}).get("type") or "").split(".")[0]
        marked = "wheelchair" in feature.texts("accessibility")
        return (
            "outofservice" in feature.texts("access_control")
            or door in ("revolving", "turnstile") and door not in self.flags
            or "marked" in self.flags and not marked
        )

    def is_restricted(self, feature):
        units = [self.folder.get(it) for it in self.touching.get(feature.id, [])] if feature.kind == "opening" else self.folder.units_of(feature)
        return bool(units) and "restricted" not in self.flags and all(unit.its.get("restriction") is not None for unit in units)

    def places(self, part):
        """What of a part visitors ask for, with the occupants of its anchors."""
        its = [it for it in map(self.node, part) if it and it.kind in PLACES and not self.is_barred(it)]
        return [occupant for it in its for occupant in self.occupants.get(it.id, [])] + its

    def levels(self, its):
        return levels_told(self.folder, dict.fromkeys(self.folder.level_of(it).id for it in its))

    def unreachable(self, but):
        """The places that ways neither lead to nor from, part by part; `but` are openings of which more is told elsewhere."""
        neither = bytearray(not a and not b for a, b in zip(self.reached, self.left))
        restricted = []
        for part in parts_of(self.graph.next, self.back, neither):
            its = [it for it in self.places(part) if it.id not in but]
            restricted += [it for it in its if self.is_restricted(it)]
            its = [it for it in its if not self.is_restricted(it)]
            if its:
                words = {"profile": self.profile, "count": self.counted(its), "levels": self.levels(its)}
                yield Advice("unreachable", "part", its[0], its[1:], **words)
        if restricted:
            yield Advice("unreachable", "restricted", restricted[0], restricted[1:], profile=self.profile, more=len(restricted) - 1)

    def counted(self, its):
        return f"{len(its)} place{'s' if len(its) > 1 else ''}"

    def one_way(self):
        for case, here, there in (("not left", self.reached, self.left), ("not reached", self.left, self.reached)):
            for part in parts_of(self.graph.next, self.back, bytearray(a and not b for a, b in zip(here, there))):
                its = self.places(part)
                if its:
                    words = {"profile": self.profile, "count": self.counted(its), "levels": self.levels(its)}
                    yield Advice("one way", case, its[0], its[1:], **words)

    def groups(self):
        """The places of each level that count for whether it is cut off: anchors, amenities, and units that are no passage."""
        found = {}
        for number, name in enumerate(self.table.nodes):
            it = self.folder.get(name)
            if it.kind != "opening" and not is_stop(it):
                found.setdefault(self.folder.level_of(it).id, []).append(number)
        return found

    def closings(self):
        groups = self.groups()
        levels = sorted(groups, key=lambda it: (self.folder.get(it).its["ordinal"], it))
        lists = [groups[it] for it in levels]
        cuts = self.cuts(lists)
        for feature in [*self.folder["opening"], *self.folder["unit"], *self.folder["relationship"]]:
            to, back = cuts.get(feature.id, ((0, []), (0, [])))
            if to[0] or back[0]:
                how, (count, first) = ("be reached", to) if to[0] else ("be left", back)
                its = [self.folder.get(levels[it]) for it in first]
                told = in_words([self.folder.told(it) for it in its] + [""] * (count - len(its)))
                words = {"cut": f"{told} couldn't {how}", "profile": self.profile, "what": {"elevator": "lift"}.get(feature.category, feature.category)}
                yield Advice("closings", "opening" if feature.kind == "opening" else "passage", feature, its, **words, levels=count)

    def cuts(self, lists):
        """Of the features whose closing cuts levels off, by identifier, how many can't be reached then, and how many can't be left,
        each with the first three."""
        both = [cut_by(self.graph.next, self.roots, lists), cut_by(self.back, self.roots, lists)]
        found = {}
        for number in set().union(*both):
            it = self.node(number)
            if it and (it.kind == "opening" or it.kind == "unit" and it.category in LADDERS and it.id not in self.graph.of_walled):
                found[it.id] = [cut.get(number, (0, [])) for cut in both]
        several = {name for name, its in self.graph.of_relationship.items() if len(its) > 1}
        for name, (number, *more) in self.graph.of_relationship.items():
            if not more and self.folder.get(name).category in LADDERS:
                found[name] = [cut.get(number, (0, [])) for cut in both]
        walled = {it: [self.number[it], *hubs] for it, hubs in self.graph.of_walled.items() if self.folder.get(it).category in LADDERS}
        found |= {name: self.cuts_without(closed, lists) for name, closed in walled.items()}
        return found | self.cuts_of_several(lists, {it for it in several if self.folder.get(it).category in LADDERS})

    def cuts_of_several(self, lists, names):
        """The same for relationships with stops between, whose links are all closed at once. One that leads both ways is looked at as a
        vertex that joins its stops; the others, which are few, one by one."""
        found, directed = {}, {name for name in names if self.folder.get(name).its["direction"] == "directed"}
        if names - directed:
            joined = Graph(self.table, lambda name: name in names - directed)
            both = [cut_by(joined.next, self.roots, lists), cut_by(joined.back(), self.roots, lists)]
            found |= {name: [cut.get(joined.of_relationship[name][0], (0, [])) for cut in both] for name in names - directed}
        return found | {name: self.cuts_without(self.graph.of_relationship[name], lists) for name in directed}

    def cuts_without(self, closed, lists):
        """The same where all of some vertices are closed."""
        return [self.cut_without(follow, closed, seen, lists) for follow, seen in ((self.graph.next, self.reached), (self.back, self.left))]

    def cut_without(self, follow, closed, seen, lists):
        still = reach(follow, self.roots, closed)
        cut = [k for k, its in enumerate(lists) if any(seen[it] for it in its) and not any(still[it] for it in its)]
        return len(cut), cut[:3]


class Visitors:
    """What isn't for visitors, and the cheapest ways that go by it nevertheless."""

    def __init__(self, led):
        self.led, self.folder, self.table, self.roots = led, led.folder, led.table, set(led.roots)
        self.closed_levels = {}
        for level in self.folder["level"]:
            buildings = [self.folder.get(it) for it in level.its.get("building_ids") or []]
            for it in [level, *buildings]:
                if it.its.get("restriction") is not None:
                    self.closed_levels.setdefault(level.id, it)
        self.units = {name: self.staff_unit(self.folder.get(name)) for name in self.table.areas}
        self.doors = {k: it for k, it in enumerate(map(led.node, range(len(self.table.nodes)))) if it.kind == "opening" and self.staff_door(it)}

    def staff_unit(self, unit):
        """What makes that visitors aren't meant to walk here: the unit, its level or its building; None where nothing does."""
        return unit if unit.category in STAFF_UNITS else self.closed_levels.get(self.folder.level_of(unit).id)

    def staff_door(self, opening):
        return DOORS.get(opening.category) or ("a door with a reader or a lock" if STAFF_DOORS & set(opening.texts("access_control")) else None)

    def what(self, it):
        if it.kind == "opening":
            free = "write another category, as `pedestrian`" if it.category in DOORS else "take that out of `access_control`"
            return self.staff_door(it), f"where visitors may pass, {free}; else add `outofservice` to `access_control`, which takes it out of all ways"
        if it.kind == "unit":
            return f"a unit of category `{it.its['category']}`", "write a `restriction`, as `employeesonly`, or another category where visitors may walk"
        return f"a {it.kind} with a restriction, of which no rule takes account", "write the `restriction` into its units, which keeps visitors out"

    def is_public(self, number):
        it = self.led.node(number)
        units = [unit.id for unit in self.folder.units_of(it)]
        if it.kind == "opening":
            return number in self.roots and number not in self.doors
        return bool(units) and not is_stop(it) and not any(self.staff_unit(self.folder.get(name)) for name in units)

    def advice(self):
        is_used = any(self.units.values()) or any(self.led.graph.next[k] for k in self.doors)
        if "restricted" in self.led.flags or not is_used:
            return
        for it, (start, end) in sorted(self.found().items(), key=lambda row: (row[0].kind, row[0].index)):
            what, mend = self.what(it)
            words = {"what": what, "mend": mend, "profile": self.led.profile}
            names = [self.place_told(self.led.node(k)) for k in (start, end)]
            yield Advice("not for visitors", "way", it, map(self.led.node, (start, end)), start=names[0], end=names[1], **words)

    def place_told(self, it):
        """A place within a sentence: of an anchor who is there."""
        return called(self.folder, self.led.occupants.get(it.id, [it])[0])

    def found(self):
        """What isn't for visitors and lies on a cheapest way between two public places, each with the first such places."""
        costs = Costs(self.table, [self.at(self.led.node(k)) for k in range(len(self.table.nodes))], self.extra)
        public = [k for k in range(len(self.table.nodes)) if self.led.graph.next[k] and self.is_public(k)]
        places, found = set(public), {}
        for source in self.sources(public):
            order, came = costs.ways_from(source)
            to = {}
            for at in reversed(order):
                end = to.get(at, at if at in places else None)
                before, by = came[at]
                if end is None or before is None:
                    continue
                to[before] = end if before not in to else to[before]
                staff = self.units.get(by)
                for it in ([staff] if staff else []) + ([self.doors[at]] if at in self.doors and at != end else []):
                    found.setdefault(it, (source, end))
        return found

    def sources(self, public):
        """The places from which ways are looked for: all, or as many as time allows, evenly spread."""
        steps = len(self.table.nodes) + sum(map(len, self.table.areas.values()))
        steps += sum(len(ends) for joined in self.table.walled.values() for ends, _ in joined.values())
        count = max(8, MOST_STEPS // max(1, steps))
        return public if len(public) <= count else [public[k * len(public) // count] for k in range(count)]

    def extra(self, name):
        return self.folder.settings.get(f"{self.folder.get(name).category}_extra", 0)

    def at(self, it):
        """Where a feature's node is, in centimetres by the settings."""
        x, y = self.folder.scale
        points = it.geometry["coordinates"]
        if it.kind == "opening":
            points = [(a + b) / 2 for a, b in zip(points[0], points[-1])]
        if it.kind == "unit":
            points = (it.its.get("display_point") or {}).get("coordinates") or self.middle_of(points, it.geometry["type"])
        return points[0] * x, points[1] * y

    @staticmethod
    def middle_of(coordinates, kind):
        rings = coordinates if kind == "Polygon" else [ring for part in coordinates for ring in part]
        axes = list(zip(*[p[:2] for ring in rings for p in ring]))
        return [(min(axis) + max(axis)) / 2 for axis in axes]
