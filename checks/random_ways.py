#!/usr/bin/env python3
"""Looks for ways through small venues made by arithmetic, with nothing closed by `route` and with closures for all and for some by `session`, and
compares each answer with plain rounds over the table of all links that `links` prints, and each closure with sets of profiles.

usage: random_ways.py [PROGRAM [VENUES [FIRST]]]   (without PROGRAM what is built in crates/venue_cli/out, else the launcher ./venue, which builds it)
Venues are judged side by side, as many as there are processors.
The venues have one to three levels of square rooms with doors in their walls, halls that lie over several rooms and share their doors,
restricted rooms, rooms with a wall in them, doors that a wheelchair can't pass, amenities in two units, and passages between units and doors of neighbouring
levels: directed or not, with an intermediary, twice between one pair, and without anything beside their way. In most venues ways go round the walls. It
prints one line, and ends with status 1 at a difference.
"""
import concurrent.futures
import json
import os
import random
import shutil
import subprocess
import sys
import tempfile

HERE = os.path.dirname(os.path.abspath(__file__))
BUILT = os.path.join(HERE, "..", "crates", "venue_cli", "out", "venue_cli")
KEY = "desk-key-1"
ROOM = 10
FREE = 10**18
# Those of every settings, and one more.
PROFILES = ["walk", "wheelchair", "pram"]


def position(point):
    x, y = point
    return [round(10 + x / 100000, 7), round(50 + y / 100000, 7)]


def line(a, b):
    return {"type": "LineString", "coordinates": [position(a), position(b)]}


def box(x1, y1, x2, y2):
    return {"type": "Polygon", "coordinates": [[position(p) for p in [(x1, y1), (x2, y1), (x2, y2), (x1, y2), (x1, y1)]]]}


def with_wall(shape, x, y):
    """The polygon less a wall across the room from here on, with gaps at both ends. It has no whole metre from west to east."""
    ring = [position((x + a, y + b)) for a, b in [(5.2, 1.2), (5.2, 8.8), (5.8, 8.8), (5.8, 1.2), (5.2, 1.2)]]
    return shape | {"coordinates": shape["coordinates"] + [ring]}


class Venue:
    """Features by type, each with an identifier of its own."""

    def __init__(self, draw):
        self.draw = draw
        self.rows = {}
        self.count = 0

    def add(self, kind, geometry, properties):
        self.count += 1
        name = f"00000000-0000-4000-8000-{self.count:012d}"
        feature = {"type": "Feature", "id": name, "feature_type": kind, "geometry": geometry, "properties": properties}
        self.rows.setdefault(kind, []).append(feature)
        return name

    def write(self, folder):
        os.makedirs(folder)
        with open(os.path.join(folder, "manifest.json"), "w", encoding="utf-8") as file:
            json.dump({"version": "1.0.0", "created": "", "language": "en"}, file)
        for kind, features in self.rows.items():
            with open(os.path.join(folder, kind + ".geojson"), "w", encoding="utf-8") as file:
                json.dump({"type": "FeatureCollection", "features": features}, file)


def reference(kind, name):
    return {"id": name, "feature_type": kind}


def venue_of(draw):
    venue = Venue(draw)
    wide, deep, high = draw.randint(1, 4), draw.randint(1, 3), draw.randint(1, 3)
    around = box(0, 0, wide * ROOM, deep * ROOM)
    venue.add("venue", around, {})
    units, doors = [], []
    for k in range(high):
        level = venue.add("level", around, {"ordinal": k})
        here, walls = [], []
        for i in range(wide):
            for j in range(deep):
                word = draw.choice(["room", "room", "walkway", "stairs", "elevator", "escalator", "ramp", "movingwalkway", "column"])
                properties = {"level_id": level, "category": word}
                if draw.random() < 0.1:
                    properties["restriction"] = draw.choice(["employeesonly", "restricted"])
                shape = box(i * ROOM, j * ROOM, (i + 1) * ROOM, (j + 1) * ROOM)
                if draw.random() < 0.7:
                    shape = with_wall(shape, i * ROOM, j * ROOM)
                here.append(venue.add("unit", shape, properties))
        if draw.random() < 0.5:
            i, j = draw.randint(0, wide - 1), draw.randint(0, deep - 1)
            shape = box(i * ROOM, j * ROOM, draw.randint(i + 1, wide) * ROOM, draw.randint(j + 1, deep) * ROOM)
            here.append(venue.add("unit", shape, {"level_id": level, "category": draw.choice(["lobby", "walkway"])}))
        for i in range(wide + 1):
            for j in range(deep):
                walls.append([(i * ROOM, j * ROOM + t) for t in (3, 5, 7)])
        for i in range(wide):
            for j in range(deep + 1):
                walls.append([(i * ROOM + t, j * ROOM) for t in (3, 5, 7)])
        found = []
        for a, b, c in walls:
            for pair in [(a, b), (b, c)]:
                if draw.random() < 0.4:
                    properties = {"level_id": level}
                    if draw.random() < 0.15:
                        properties["door"] = {"type": "revolving", "automatic": True, "material": "glass"}
                    found.append(venue.add("opening", line(*pair), properties))
        if draw.random() < 0.5:
            point = {"type": "Point", "coordinates": position((draw.randint(0, wide * ROOM), draw.randint(0, deep * ROOM)))}
            i, j = min(int((point["coordinates"][0] - 10) * 100000 + 0.5) // ROOM, wide - 1), min(
                int((point["coordinates"][1] - 50) * 100000 + 0.5) // ROOM, deep - 1
            )
            inside = here[i * deep + j]
            names = [inside] + ([draw.choice(here)] if draw.random() < 0.5 else [])
            venue.add("amenity", point, {"category": "restroom", "unit_ids": names})
        units.append(here)
        doors.append(found)
    for k in range(high - 1):
        for _ in range(draw.randint(0, 4)):
            category = draw.choice(["elevator", "stairs", "escalator", "ramp", "traversal.path"])
            ends = []
            for at in (k, k + 1):
                kind = "opening" if doors[at] and draw.random() < 0.5 else "unit"
                ends.append(reference(kind, draw.choice(doors[at] if kind == "opening" else units[at])))
            if draw.random() < 0.3:
                ends.reverse()
            properties = {
                "category": category,
                "direction": draw.choice(["directed", "undirected"]),
                "origin": ends[0],
                "destination": ends[1],
            }
            if draw.random() < 0.2:
                properties["intermediary"] = [reference("unit", draw.choice(units[k]))] + ([ends[0]] if draw.random() < 0.5 else [])
            for _ in range(2 if draw.random() < 0.1 else 1):
                venue.add("relationship", None, properties)
    return venue


def settings(draw):
    extras = draw.choice([(3000, 800, 2000, 1500), (0, 0, 0, 0), (1, 1, 1, 1)])
    names = ["elevator_extra", "escalator_extra", "ramp_extra", "stairs_extra"]
    text = draw.choice(["", 'inside = "clear"\n', 'inside = "clear"\n']) + "kx = 10000000\nky = 10000000\n" + "".join(f"{name} = {extra}\n" for name, extra in zip(names, extras))
    return text + f'staff_keys = ["{KEY}"]\n[[profile]]\nname = "{PROFILES[2]}"\nelevator = true\nramp = true\nrevolving = true\n'


def table_of(text):
    """The names of a table's nodes, as a reply has them in its rows, and its links. The k-th further line of an identifier is a corner, number k."""
    nodes, links, lines = [], [], {}
    for row in text.splitlines():
        words = row.split(" ")
        if words[0] == "node":
            corner = lines[words[1]] = lines.get(words[1], -1) + 1
            nodes.append({"node": words[1]} | ({"corner": corner} if corner else {}))
        elif words[0] == "link":
            links.append((int(words[1]), int(words[2]), int(words[3]), words[4]))
    return nodes, links


def places_of(nodes):
    """The numbers of the nodes that are no corners."""
    return [n for n, name in enumerate(nodes) if "corner" not in name]


def number_of(nodes, row, key):
    """The number of the node that a row of a reply names."""
    return nodes.index({"node": row[key]} | ({"corner": row["corner"]} if "corner" in row else {}))


def rounds(count, links, start):
    """The least cost of each node, by going over all links until nothing changes."""
    costs = [FREE] * count
    costs[start] = 0
    changed = True
    while changed:
        changed = False
        for a, b, cost, _ in links:
            if costs[a] + cost < costs[b]:
                costs[b] = costs[a] + cost
                changed = True
    return costs


def ordered(them):
    """Names in the order of the profiles."""
    return [name for name in PROFILES if name in them]


class Check:
    def __init__(self, program, base):
        self.program, self.base = program, base
        self.asked = 0
        self.differ = 0

    def run(self, *words, stdin=b""):
        done = subprocess.run(self.program + list(words), input=stdin, capture_output=True)
        return done.returncode, done.stdout

    def wrong(self, *words):
        self.differ += 1
        print(*words, file=sys.stderr)

    def judge_route(self, profile, nodes, links, a, b):
        """`route` from node to node: its cost, its steps and its certificate; and what `verify` says of it."""
        self.asked += 1
        status, text = self.run("route", self.base, "venue", profile, nodes[a]["node"], nodes[b]["node"])
        rows = [row.split(" ") for row in text.decode().splitlines()]
        costs = rounds(len(nodes), links, a)
        if rows[1:3] != [["from", str(a)], ["to", str(b)]]:
            return self.wrong("ends", nodes[a], nodes[b], rows[:3])
        if costs[b] == FREE:
            reached = [int(row[1]) for row in rows if row[0] == "reach"]
            if status != 1 or rows[3] != ["none"] or reached != [n for n, cost in enumerate(costs) if cost < FREE]:
                return self.wrong("none", nodes[a], nodes[b], rows)
        else:
            steps = [links[int(row[1])] for row in rows if row[0] == "step"]
            at = a
            for link in steps:
                if link[0] != at:
                    return self.wrong("walk", nodes[a], nodes[b], rows)
                at = link[1]
            firsts = [links.index(link) for link in steps] == [int(row[1]) for row in rows if row[0] == "step"]
            if status != 0 or rows[3] != ["route", str(costs[b])] or at != b or sum(link[2] for link in steps) != costs[b] or not firsts:
                return self.wrong("route", nodes[a], nodes[b], costs[b], rows)
        with open(os.path.join(self.base, "answer.txt"), "wb") as file:
            file.write(text)
        judged = self.run("verify", self.base)
        if judged != (0, b"proved\n"):
            self.wrong("verify", nodes[a], nodes[b], judged)

    def judge_session(self, draw, tables, closables):
        """Closures and ways in turns, in one session."""
        asked, requests = [], []
        for _ in range(12):
            if draw.random() < 0.4 and closables:
                name, closed = draw.choice(closables[:3] if draw.random() < 0.3 else closables), draw.random() < 0.8
                # Some of them, one perhaps twice, or all by naming nobody.
                names = None if draw.random() < 0.4 else draw.choices(PROFILES, k=draw.randint(1, 4))
                body = json.dumps({"feature": name, "closed": closed} | ({} if names is None and draw.random() < 0.7 else {"profiles": names}))
                requests.append(
                    f"POST /v1/closures HTTP/1.1\r\nhost: a\r\nx-staff-key: {KEY}\r\ncontent-length: {len(body)}\r\n\r\n{body}"
                )
                asked.append(("closure", name, closed, names))
            else:
                profile = draw.choice(sorted(tables))
                nodes = tables[profile][0]
                a, b = (nodes[draw.choice(places_of(nodes))]["node"] for _ in range(2))
                requests.append(
                    f"GET /v1/route?from={a}&to={b}&profile={profile}&certificate=yes HTTP/1.1\r\nhost: a\r\n\r\n"
                )
                asked.append(("route", profile, a, b))
        requests.append("GET /v1/closures HTTP/1.1\r\nhost: a\r\n\r\n")
        asked.append(("closures",))
        status, text = self.run("session", self.base, "venue", stdin="".join(requests).encode())
        if status != 0:
            return self.wrong("session", status, text)
        # For whom each feature is closed, and the version that stands.
        shut, version = {}, 1
        for what in asked:
            head, _, text = text.partition(b"\r\n\r\n")
            size = int(head.split(b"content-length: ")[1].split(b"\r\n")[0])
            reply, text = json.loads(text[:size]), text[size:]
            if what[0] == "closure":
                version += self.judge_closure(shut, version, what, reply)
            elif what[0] == "closures":
                rows = [name if len(shut[name]) == len(PROFILES) else {"feature": name, "profiles": ordered(shut[name])} for name in closables if shut.get(name)]
                if reply != {"closures": rows, "version": version}:
                    self.wrong("closures", rows, version, reply)
            else:
                self.judge_reply(tables[what[1]], {name for name in shut if what[1] in shut[name]}, what, reply)
        if text:
            self.wrong("session", "more bytes", text)

    def judge_closure(self, shut, version, what, reply):
        """Does the closure, and returns whether that changed anything."""
        _, name, closed, names = what
        before, them = shut.get(name, set()), set(PROFILES if names is None else names)
        shut[name] = before | them if closed else before - them
        changed = shut[name] != before
        wanted = {"changed": changed, "closed": closed, "feature": name, "version": version + changed}
        if reply != wanted | ({} if names is None else {"profiles": ordered(them)}):
            self.wrong("closure", what, reply)
        return changed

    def judge_reply(self, table, shut, what, reply):
        self.asked += 1
        nodes, links = table
        usable = [link for link in links if not shut & {link[3], nodes[link[0]]["node"], nodes[link[1]]["node"]}]
        a, b = (nodes.index({"node": it}) for it in what[2:])
        costs = rounds(len(nodes), usable, a)
        if costs[b] == FREE:
            reached = [name if "corner" in name else name["node"] for name, cost in zip(nodes, costs) if cost < FREE]
            if reply.get("result") != "none" or reply.get("reached") != reached:
                self.wrong("reply none", what, shut, reply)
            return
        if reply.get("result") != "route" or reply.get("cost") != costs[b]:
            return self.wrong("reply route", what, shut, costs[b], reply)
        at = a
        for step in reply["steps"]:
            link = (at, number_of(nodes, step, "to"), step["cost"], step["via"])
            if link not in usable:
                return self.wrong("reply step", what, shut, link)
            at = link[1]
        potentials = {number_of(nodes, p, "node"): p["value"] for p in reply["potentials"]}
        steep = [l for l in usable if potentials.get(l[1], costs[b]) > potentials.get(l[0], costs[b]) + l[2]]
        if at != b or potentials.get(a, costs[b]) != 0 or potentials.get(b, costs[b]) != costs[b] or steep:
            self.wrong("reply certificate", what, shut, reply)

    def judge_venue(self, draw):
        venue = venue_of(draw)
        folder = os.path.join(self.base, "venue")
        shutil.rmtree(folder, ignore_errors=True)
        venue.write(folder)
        with open(os.path.join(self.base, "venue.toml"), "w", encoding="utf-8") as file:
            file.write(settings(draw))
        status, text = self.run("check", self.base, "venue")
        if status != 0:
            return self.wrong("check", status, text)
        tables = {}
        for profile in PROFILES:
            _, text = self.run("links", self.base, "venue", profile)
            with open(os.path.join(self.base, "links.txt"), "wb") as file:
                file.write(text)
            nodes, links = tables[profile] = table_of(text.decode())
            for _ in range(4 if nodes and profile != PROFILES[2] else 0):
                self.judge_route(profile, nodes, links, *draw.choices(places_of(nodes), k=2))
        closables = [row["id"] for kind in ("opening", "relationship", "unit") for row in venue.rows.get(kind, [])]
        if tables["walk"][0]:
            self.judge_session(draw, tables, closables)


def judged(program, seed):
    """How many ways of a venue were asked for, and how many answers differ."""
    with tempfile.TemporaryDirectory() as base:
        check = Check(program, base)
        check.judge_venue(random.Random(seed))
    if check.differ:
        print(f"venue {seed}", file=sys.stderr)
    return check.asked, check.differ


def main():
    program = [sys.argv[1] if len(sys.argv) > 1 else BUILT if os.path.isfile(BUILT) else os.path.join(HERE, "..", "venue")]
    venues = int(sys.argv[2]) if len(sys.argv) > 2 else 150
    first = int(sys.argv[3]) if len(sys.argv) > 3 else 1
    with concurrent.futures.ProcessPoolExecutor() as pool:
        told = list(pool.map(judged, [program] * venues, range(first, first + venues)))
    asked, differ = (sum(column) for column in zip(*told))
    print(f"random_ways: {venues} venues, {asked} ways, {differ} differences")
    return 1 if differ else 0


if __name__ == "__main__":
    sys.exit(main())
