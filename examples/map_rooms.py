"""What map.py draws over an accepted folder: a way, bent at its corners, and who sees nobody in a room. Sight is that of docs/FORMATS.md alone."""
import subprocess
from decimal import ROUND_HALF_UP, Decimal

from advice.folder import Folder
from sight import corners_of, edges_of, hosts, in_line, is_near, seen

# Rooms with more places than this are named and left out.
MOST_PLACES = 500


def ticks(position):
    """A position in whole nanodegrees."""
    return tuple(int(Decimal(repr(it)).scaleb(9).to_integral_value(ROUND_HALF_UP)) for it in position[:2])


def short(node):
    """A node in words, by the end of its identifier."""
    name, corner = node
    return f"corner {corner} of #{name[-4:]}" if corner else f"#{name[-4:]}"


class Rooms:
    """The nodes of a folder, each an identifier and the number of a corner, 0 of what is none, with their places in nanodegrees twice."""

    def __init__(self, base, name):
        self.folder = Folder(base, name)
        self.tolerance = max(self.folder.settings["border_tol"], self.folder.settings["contain_tol"])
        self.walked = [it for it in self.folder["unit"] if it.is_walked]
        self.polygons = {it.id: self.shape(it) for it in self.walked}
        kinds = [*self.folder["amenity"], *self.folder["anchor"], *self.folder["opening"], *self.walked]
        self.named, self.doors, self.corners = {}, {}, {}
        for it in [*self.folder["amenity"], *self.folder["anchor"]]:
            for unit in {unit.id for unit in self.folder.units_of(it)}:
                self.named.setdefault(unit, []).append((it.id, 0))
        for it in self.folder["opening"]:
            self.doors.setdefault(self.folder.level_of(it).id, []).append((it.id, [ticks(p) for p in it.geometry["coordinates"]]))
        self.places = {(it.id, 0): self.place(it) for it in kinds}
        for unit in self.walked:
            if unit.category != "movingwalkway":
                self.corners[unit.id] = [(unit.id, k) for k, _ in enumerate(corners_of(self.polygons[unit.id]), 1)]
                self.places.update(zip(self.corners[unit.id], ((2 * x, 2 * y) for x, y in corners_of(self.polygons[unit.id]))))

    def shape(self, unit):
        found = unit.geometry["coordinates"]
        polygons = found if unit.geometry["type"] == "MultiPolygon" else [found]
        return [[[ticks(p) for p in ring[:-1]] for ring in polygon] for polygon in polygons]

    def place(self, it):
        if it.kind == "unit":
            shown = it.its.get("display_point")
            points = [ticks(shown["coordinates"])] * 2 if shown else [p for polygon in self.polygons[it.id] for ring in polygon for p in ring]
            return tuple(min(axis) + max(axis) for axis in zip(*points))
        found = it.geometry["coordinates"]
        ends = (found[0], found[-1]) if it.kind == "opening" else (found, found)
        return tuple(sum(axis) for axis in zip(*map(ticks, ends)))

    def level(self, node):
        return self.folder.level_of(self.folder.get(node[0])).its["ordinal"]

    def members(self, unit):
        """The members of a unit, in the order of the nodes."""
        edges, near = edges_of(self.polygons[unit.id]), self.folder.settings["border_tol"]
        (west, east), (south, north) = ((min(axis) - near, max(axis) + near) for axis in zip(*(p for edge in edges for p in edge)))
        is_by = lambda x, y: west <= x <= east and south <= y <= north
        touches = lambda p: is_by(*p) and any(is_near(p, edge, near) for edge in edges)
        doors = [(name, 0) for name, line in self.doors.get(self.folder.level_of(unit).id, []) if all(map(touches, line))]
        return [*self.named.get(unit.id, []), *doors, (unit.id, 0), *self.corners[unit.id]]


def way(program, base, name, words):
    """The way that `route` prints for a profile and two places: its nodes and what each step costs; or the line that says why there is none."""
    run = lambda *more: subprocess.run([program, *more], capture_output=True, text=True).stdout.splitlines()
    answer, table = run("route", base, name, *words), [line.split() for line in run("links", base, name, words[0])]
    lines = [line.split() for line in answer]
    if not any(line[0] == "route" for line in lines):
        return [], [], "no links lead there" if "none" in answer else " ".join(answer[:1])
    nodes, count = [], {}
    for row in (row for row in table if row[0] == "node"):
        count[row[1]] = count.get(row[1], -1) + 1
        nodes.append((row[1], count[row[1]]))
    links = [row for row in table if row[0] == "link"]
    steps = [links[int(line[1])] for line in lines if line[0] == "step"]
    start = next(int(line[1]) for line in lines if line[0] == "from")
    return [nodes[start], *(nodes[int(row[2])] for row in steps)], [int(row[3]) for row in steps], ""


def drawn_way(rooms, level, at, nodes, costs, labels):
    """A way's parts on one level, and the metres of each step, where they fit beside it."""
    legs = [(a, b, cost) for a, b, cost in zip(nodes, nodes[1:], costs) if rooms.level(a) == rooms.level(b) == level]
    lines = [(*at(rooms.places[a])[:2], *at(rooms.places[b])[:2]) for a, b, _ in legs]
    for x, y, u, v in lines:
        count = max(1, round(max(abs(u - x), abs(v - y)) / 6))
        spots = [(x + (u - x) * k / count, y + (v - y) * k / count) for k in range(count + 1)]
        labels.boxes += [(a - 3, b - 3, a + 3, b + 3) for a, b in spots]
    out = []
    for (a, b, cost), (x, y, u, v) in zip(legs, lines):
        out.append(f'<path class="way" d="M{x:g} {y:g}L{u:g} {v:g}"><title>{short(a)} to {short(b)}</title></path>')
        text, (p, q) = f"{cost / 100:.2f} m", ((x + u) / 2, (y + v) / 2)
        spots = [(p + right, q + down, anchor) for down in (5, -8, 18, -20, 30) for right, anchor in ((8, "start"), (-8, "end"), (20, "start"), (-20, "end"))]
        free = next((it for it in spots if labels.take(*it, text, 7.5)), None)
        if free:
            end = ' text-anchor="end"' if free[2] == "end" else ""
            out.append(f'<text class="tag" x="{free[0]:g}"{end} y="{free[1]:g}">{text}</text>')
    return out


def told_way(nodes, costs, why):
    if not nodes:
        return [f"no way: {why}"]
    steps = [f"{k}. {cost / 100:.2f} m, to {short(node)}" for k, (node, cost) in enumerate(zip(nodes[1:], costs), 1)]
    ending = "" if len(costs) == 1 else "s"
    return [f"way of {sum(costs) / 100:.2f} m in {len(costs)} step{ending}", *steps]


def numbered(x, y, number, labels):
    """A dot, and its number beside it where one fits."""
    spots = [(x + 5 * side, y + down, anchor) for side, anchor in ((1, "start"), (-1, "end")) for down in (-4, 12)]
    free = next((it for it in spots if labels.take(*it, str(number), 6)), None)
    end = ' text-anchor="end"' if free and free[2] == "end" else ""
    text = f'<text class="number" x="{free[0]:g}"{end} y="{free[1]:g}">{number}</text>' if free else ""
    return f'<circle class="corner" cx="{x:g}" cy="{y:g}" r="3"><title>corner {number}</title></circle>{text}'


def drawn_sight(rooms, at, labels_on):
    """By level: the corners of rooms, who sees nobody in one and who leads him, and the positions that hide along a wall. Then what is left out."""
    out, left = {}, []
    for unit in rooms.walked:
        if unit.category == "movingwalkway":
            continue
        members = rooms.members(unit)
        if len(members) > MOST_PLACES:
            left.append(f"left out: #{unit.id[-4:]}, with {len(members)} places")
            continue
        mine = out.setdefault(rooms.level((unit.id, 0)), [])
        for x, y in in_line(rooms.polygons[unit.id]):
            u, v, _ = at((2 * x, 2 * y))
            mine.append(f'<path class="hides" d="M{u - 4:g} {v - 4:g}l8 8m-8 0l8 -8"/>')
        sees = seen(members, rooms.places, rooms.polygons[unit.id], rooms.tolerance)
        led = hosts(sees, rooms.places, rooms.folder.scale) if len(members) > 1 else {}
        for node in members:
            x, y, _ = at(rooms.places[node])
            if node[1]:
                mine.append(numbered(x, y, node[1], labels_on[rooms.level(node)]))
            if len(members) > 1 and not sees[node]:
                labels_on[rooms.level(node)].boxes.append((x - 10, y - 10, x + 10, y + 10))
                mine.append(f'<circle class="blind" cx="{x:g}" cy="{y:g}" r="9"/>')
            if node in led:
                u, v, _ = at(rooms.places[led[node]])
                mine.append(f'<path class="host" d="M{x:g} {y:g}L{u:g} {v:g}"><title>{short(node)} to {short(led[node])}</title></path>')
    return out, left
