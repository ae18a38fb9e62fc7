#!/usr/bin/env python3
"""Asks `venue session` for routes over the example station and over rooms with walls with their certificates, before and after closures for all and for
some, and has examples/route_reply.py judge each reply, over the table of links and over the same in parts: it is `proved`, and with one number or
identifier, or the number of a corner, exchanged it isn't. Then 200 closures in the station for profiles that are drawn, each with a route after it: that is
`proved` for the profile asked for, and where the profiles of the closure's row are changed so that it matters, it `fails`; where there is node,
examples/web/check.js judges the same.
It asks for tours too, with the same closed, and compares each with the least costs that it finds itself over the table, in all orders of the stops.
And it asks for the nearest of a category, in the station and with amenities put into it and among columns, and has examples/nearest_reply.py judge each
reply as it is and with one number, identifier, row or member exchanged, taken away or added.

usage: route_replies.py [PROGRAM]   (without PROGRAM the launcher ./venue, which builds the program if need be)
It prints one line, and ends with status 1 at a difference.
"""
import collections
import contextlib
import glob
import heapq
import io
import itertools
import json
import os
import random
import runpy
import shutil
import subprocess
import sys
import tempfile

HERE = os.path.dirname(os.path.abspath(__file__))
EXAMPLES = os.path.join(HERE, "..", "examples")
sys.path.append(EXAMPLES)  # one checker takes what it shares from the other
CHECKER = os.path.join(EXAMPLES, "route_reply.py")
NEAREST_CHECKER = os.path.join(EXAMPLES, "nearest_reply.py")
NODE = "00000000-0000-4000-8000-{:012x}"
# A folder of examples, its places, and what is closed in each session and for whom, by the last digits of their identifiers.
Venue = collections.namedtuple("Venue", "base folder places closed")
PLACES = [0x31, 0x41, 0x42, 0x51, 0x52, 0x101, 0x107, 0x203, 0x204, 0x300, 0x301, 0x305, 0x404]
CLOSED = [{}, {0x301: None}, {0x301: None, 0x24: None}, {0x305: None}, {0x400: None, 0x102: None}, {0x301: ["wheelchair"], 0x22: ["walk"]}, {0x301: ["walk"], 0x24: None}]
STATION = Venue(EXAMPLES, "station", PLACES, CLOSED)
WALLS = os.path.join(EXAMPLES, "walls")
CONCOURSE = Venue(WALLS, "concourse", [0x43, 0x51, 0x52, 0x53, 0x54, 0x55, 0x56, 0x101, 0x106, 0x300, 0x304],
                  [{}, {0x105: None, 0x101: None}, {0x300: None}, {0x105: ["walk"], 0x302: None}])
FOLDERS = [STATION, CONCOURSE, Venue(WALLS, "ell", [0x41, 0x42, 0x300], [{}, {0x300: None}]),
           Venue(WALLS, "ell_room", [0x41, 0x42, 0x43, 0x101, 0x300, 0x301], [{}, {0x101: None}, {0x301: ["wheelchair"]}, {0x300: ["walk"]}])]
PAIRS = 4
# How many tours are drawn where so much is closed, of how many stops at most, and tours of which the costs are known.
TOURS = 6
MOST_STOPS = 5
EIGHT = [0x109, 0x31, 0x102, 0x104, 0x106, 0x110, 0x111, 0x108]
KNOWN = [("wheelchair", [0x109, 0x31], 18986), ("walk", [0x109, 0x31], 17474), ("wheelchair", [0x31, 0x106], 13233), ("wheelchair", EIGHT[:3], 20237),
         ("wheelchair", EIGHT, 25245), ("walk", EIGHT, 22662), ("wheelchair", [0x31], 9536), ("wheelchair", [0x31, 0x31], 9536), ("wheelchair", [0x51], 9040)]
# What is put behind the amenities of a folder that is asked for the nearest: identifier, category, metres east and north, and units. In the station three
# stand in one place; two on a border, of which the first is reached by the second; one has a category that only begins as that of others; one stands in a
# column. In the concourse two stand between columns, at one place, and one in a shop.
VENUES = [(STATION, []), (STATION, [(0x32, "atm", 30, 30, [0x300]), (0x33, "atm", 30, 30, [0x300]), (0x34, "atm", 30, 30, [0x300])]),
          (STATION, [(0x32, "atm", 45, 10, [0x306]), (0x33, "atm", 45, 10, [0x300, 0x306])]),
          (STATION, [(0x32, "restroom", 12, 12, [0x300]), (0x33, "restroom.wheelchair", 88, 38, [0x300]), (0x34, "restroom", 50, 20, [0x400])]),
          (STATION, [(0x32, "atm", 61, 21, [0x307])]),
          (CONCOURSE, [(0x31, "restroom", 45, 24, [0x300]), (0x32, "atm", 25, 24, [0x300]), (0x33, "atm", 25, 24, [0x300]), (0x34, "restroom", 75, 35, [0x306])])]
CATEGORIES = ["restroom", "restroom", "atm", "restroom.wheelchair", "Restroom"]
# In how many ways each reply about a route is spoiled by its corners at most.
CORNERS = 8
# How many questions for the nearest are drawn where so much is closed, in how many ways each reply is spoiled, and what is known: the venue, what is closed,
# the start, the category, the profile, the limit, the nearest with their costs, and how many nodes are reached where there are fewer than the limit.
NEAREST = 2
SPOILED = 4
KNOWN_NEAREST = [(0, None, 0x51, "restroom", "wheelchair", 1, [(0x31, 2436)], None),
                 (0, None, 0x52, "restroom", "wheelchair", 1, [(0x31, 7100)], None),
                 (0, None, 0x51, "restroom", "wheelchair", 2, [(0x31, 2436)], 25), (0, 0x105, 0x51, "restroom", "wheelchair", 1, [], 2),
                 (0, None, 0x31, "restroom", "wheelchair", 2, [(0x31, 0)], 25),
                 (0, 0x300, 0x31, "restroom", "wheelchair", 1, [(0x31, 0)], None),
                 (0, None, 0x51, "restroom", "walk", 10, [(0x31, 2436)], 31), (0, None, 0x51, "Restroom", "wheelchair", 1, [], 25),
                 (1, None, 0x51, "atm", "wheelchair", 2, [(0x32, 2870), (0x33, 2870)], None),
                 (2, None, 0x51, "atm", "wheelchair", 1, [(0x32, 3133)], None),
                 (3, None, 0x51, "restroom", "wheelchair", 10, [(0x32, 1458), (0x31, 2436), (0x34, 10481)], 28),
                 (3, None, 0x51, "restroom", "walk", 10, [(0x32, 1458), (0x31, 2436), (0x34, 7830)], 34),
                 (3, 0x301, 0x51, "restroom", "wheelchair", 10, [(0x32, 1458), (0x31, 2436), (0x34, 11611)], 27),
                 (4, None, 0x51, "atm", "wheelchair", 1, [], 25)]
# The profiles of the settings, of which these here add the last three, and how many closures are drawn.
MORE = {"pram": ["elevator", "ramp", "revolving"], "steps-only": ["stairs"], "night_watch": ["stairs", "elevator", "ramp", "revolving", "turnstile", "restricted"]}
PROFILES = ["walk", "wheelchair", *MORE]
CASES = 200
# Rows of the closures that are none.
BAD_ROWS = [1, None, True, [], {}, [NODE.format(0x301)], {"feature": NODE.format(0x301)}, {"profiles": ["walk"]}, {"feature": NODE.format(0x301), "profiles": []},
            {"feature": NODE.format(0x301), "profiles": None}, {"feature": NODE.format(0x301), "profiles": "walk"}, {"feature": NODE.format(0x301), "profiles": ["walk", 1]},
            {"feature": NODE.format(0x301), "profiles": {"walk": 1}}, {"feature": 1, "profiles": ["walk"]}, {"feature": NODE.format(0x301), "profiles": ["walk"], "x": 1}]
# Judges rows of a reply, the closures, the anchors and a table's folder by check.js, which it is handed, and prints a verdict each.
JUDGE = """import { readFileSync } from "node:fs";
import { judgeReply, partsOf, readNodes, readPart } from "./check.mjs";
const table = readNodes(readFileSync(`${process.argv[2]}/parts.txt`, "utf-8")), held = new Map();
const partOf = (profile, name) => {
  const path = `${process.argv[2]}/${profile}/${name}.txt`;
  if (!held.has(path)) held.set(path, readPart(readFileSync(path, "utf-8"), table, name));
  return held.get(path);
};
const rows = JSON.parse(readFileSync(0, "utf-8")), anchors = new Map(rows.anchors);
console.log(JSON.stringify(rows.judged.map(([reply, closures]) => {
  const { from, to, profile } = reply, parts = new Map(["between", ...partsOf(reply, table)].map((name) => [name, partOf(profile, name)]));
  return judgeReply({ from, to, profile }, reply, closures, table, parts, anchors);
})));
"""


def bodies(program, base, requests, folder="station"):
    """The bodies of the replies to requests of one session."""
    ran = subprocess.run(program + ["session", base, folder], input="".join(requests).encode(), capture_output=True, timeout=50)
    found = ran.stdout.decode().split("HTTP/1.1 200 OK\r\n")[1:]
    assert len(found) == len(requests), ran.stdout
    return [text.split("\r\n\r\n")[1] for text in found]


def closing(feature, profiles=None, closed=True):
    body = json.dumps({"feature": feature, "closed": closed} | ({} if profiles is None else {"profiles": profiles}))
    return f"POST /v1/closures HTTP/1.1\r\nhost: a\r\nx-staff-key: desk-key-1\r\ncontent-length: {len(body)}\r\n\r\n{body}"


def question(target):
    return f"GET {target} HTTP/1.1\r\nhost: a\r\n\r\n"


def way(start, end, profile):
    return question(f"/v1/route?from={start}&to={end}&profile={profile}&certificate=yes")


def spoiled(chance, reply):
    """The reply with something exchanged that its proof depends on."""
    reply = json.loads(json.dumps(reply))
    if reply["result"] == "none":
        reply["reached"].remove(chance.choice(reply["reached"]))
        return reply
    kind = chance.randrange(4 if reply["potentials"] else 3) if reply["steps"] else 0
    if kind == 0:
        reply["cost"] += 1
    elif kind == 1:
        chance.choice(reply["steps"])["cost"] -= 1
    elif kind == 2:
        reply["steps"].pop()
    else:
        next(mark for mark in reply["potentials"] if mark["node"] == reply["start"] and "corner" not in mark)["value"] += 1
    return reply


def spoiled_corners(reply, links):
    """The reply with something else in the place of a corner's number, or of a node that is reached, and with a corner listed twice or that the table hasn't.
    Another corner of the unit stands there only where the steps are then no way, or where it is listed already."""
    start, end = links.node(reply["from"]), links.node(reply["to"])
    for key, name in (("steps", "to"), ("potentials", "node"), ("reached", "node")):
        rows = reply.get(key, [])
        listed = {(row[name], row.get("corner")) for row in rows if isinstance(row, dict)}
        for place, row in enumerate(rows):
            if isinstance(row, str):
                yield from (exchanged(reply, (key, place), {"node": row} | more) for more in ({}, {"corner": 0}, {"corner": None}))
            if isinstance(row, str) or "corner" not in row:
                continue
            number, last = row["corner"], links.corners[row[name]]
            yield from (exchanged(reply, (key, place, "corner"), other) for other in (0, None, True, str(number), float(number), last + 1))
            for other in set(range(1, last + 1)) - {number}:
                it = exchanged(reply, (key, place, "corner"), other)
                if not links.is_walk(start, end, it["steps"]) if key == "steps" else (row[name], other) in listed:
                    yield it
            if key != "steps":
                yield from (exchanged(reply, (key,), [*rows, other]) for other in (row, row | {"corner": last + 1}))
            if key == "reached":
                yield exchanged(reply, (key, place), row["node"])


def parts_of(program, base, site, folder="station"):
    """The folder of the table in parts, as site.py writes it."""
    words = [sys.executable, os.path.join(EXAMPLES, "web", "site.py"), base, folder, site]
    subprocess.run(words, check=True, stdout=subprocess.DEVNULL, env=os.environ | {"VENUE": os.path.abspath(program[0])})
    return glob.glob(os.path.join(site, "data", "*", "links"))[0]


def table_of(program, base, profile, folder="station"):
    return subprocess.run(program + ["links", base, folder, profile], capture_output=True, text=True).stdout


def printed(words, checker=CHECKER):
    """What a checker prints for these words, run here since there are a thousand."""
    kept, said = sys.argv, io.StringIO()
    sys.argv = [checker] + words
    with contextlib.redirect_stdout(said), contextlib.suppress(SystemExit):
        runpy.run_path(checker, run_name="__main__")
    sys.argv = kept
    return said.getvalue()


def occupants_of(base, folder):
    """The words that name the folder's occupants to a checker, none where it has none."""
    path = os.path.join(base, folder, "occupant.geojson")
    return [path] if os.path.exists(path) else []


class Judge:
    def __init__(self, folder, parts, occupants):
        self.files, self.parts, self.occupants = [os.path.join(folder, name) for name in ("reply.json", "links.txt", "closures.json")], parts, occupants

    def says(self, reply, closures, table):
        """The two verdicts, or where they are the same, that one."""
        for path, text in zip(self.files, (json.dumps(reply), table, json.dumps(closures))):
            with open(path, "w", encoding="utf-8") as file:
                file.write(text)
        said = [printed([self.files[0], it, self.files[2], *self.occupants]) for it in (self.files[1], os.path.join(self.parts, reply["profile"]))]
        return said[0] if len({it.startswith("proved") for it in said}) == 1 else "unlike " + " and ".join(said)


def judge_some(program, folder, chance, venue):
    """A few replies in sessions with something closed, as they are and spoiled: how many, and the differences."""
    base, name, places, shut = venue
    occupants = occupants_of(base, name)
    judge, judged, wrong = Judge(folder, parts_of(program, base, os.path.join(folder, name), name), occupants), 0, []
    for profile in ("wheelchair", "walk"):
        table = table_of(program, base, profile, name)
        for closed in shut:
            asked = [way(NODE.format(a), NODE.format(b), profile) for a, b in (chance.sample(places, 2) for _ in range(PAIRS))]
            requests = [closing(NODE.format(it), names) for it, names in closed.items()] + [question("/v1/closures")] + asked
            closures, *replies = map(json.loads, bodies(program, base, requests, name)[len(closed):])
            links = Links(table, profile, closures, occupants)
            for reply in replies:
                judged += 1
                said, others = judge.says(reply, closures, table), list(spoiled_corners(reply, links))
                if said != "proved\n":
                    wrong.append(f"{json.dumps(reply)}: {said}")
                for other in [spoiled(chance, reply), *chance.sample(others, min(CORNERS, len(others)))]:
                    said = judge.says(other, closures, table)
                    if not said.startswith("fails "):
                        wrong.append(f"of {json.dumps(other)}: {said}")
        for row in BAD_ROWS:
            said = judge.says(reply, closures | {"closures": closures["closures"] + [row]}, table)
            if said != "fails closures\n":
                wrong.append(f"of the row {json.dumps(row)}: {said}")
    return judged, wrong


def with_profiles(folder):
    """A base with the station and more profiles."""
    base = os.path.join(folder, "base")
    shutil.copytree(os.path.join(EXAMPLES, "station"), os.path.join(base, "station"))
    with open(os.path.join(EXAMPLES, "venue.toml"), encoding="utf-8") as file, open(os.path.join(base, "venue.toml"), "w", encoding="utf-8") as into:
        into.write(file.read() + "".join(f'\n[[profile]]\nname = "{name}"\n' + "".join(f"{flag} = true\n" for flag in flags) for name, flags in MORE.items()))
    return base


def features_of(reply):
    """What a way goes by: where it is closed, it isn't one."""
    return sorted({reply["start"]} | {step[key] for step in reply["steps"] for key in ("via", "to")}) if reply["result"] == "route" else []


def ids_of(name):
    with open(os.path.join(EXAMPLES, "station", f"{name}.geojson"), encoding="utf-8") as file:
        return [it["id"] for it in json.load(file)["features"]]


def drawn_cases(program, base, chance):
    """Closures of something on a way for profiles that are drawn, beside another closure now and then: of each the profile asked for, the reply before, what
    is closed then, the reply after, and the feature."""
    closables = {it for name in ("opening", "relationship", "unit") for it in ids_of(name)}
    asked = [(chance.choice(PROFILES), *(NODE.format(it) for it in chance.sample(PLACES, 2))) for _ in range(5 * CASES)]
    open_ways = zip(asked, map(json.loads, bodies(program, base, [way(start, end, profile) for profile, start, end in asked])))
    ways = [(it, sorted(closables & set(features_of(reply)))) for it, reply in open_ways]
    ways, requests, cases = [it for it in ways if it[1]][:CASES], [], []
    assert len(ways) == CASES, f"only {len(ways)} ways go by something that can be closed"
    for (profile, start, end), features in ways:
        feature, other = chance.choice(features), chance.choice(sorted(closables))
        names, others = (chance.sample(PROFILES, chance.randint(1, len(PROFILES))) for _ in range(2))
        ask = way(start, end, profile)
        beside = [closing(other, others)] if other != feature and chance.random() < 0.4 else []
        cases.append((profile, feature, len(requests) + len(beside)))
        requests += beside + [ask, closing(feature, names), question("/v1/closures"), ask, closing(feature, None, False), closing(other, None, False)]
    replies = [json.loads(text) for text in bodies(program, base, requests)]
    for profile, feature, at in cases:
        yield profile, feature, replies[at], replies[at + 2], replies[at + 3]


def changed_row(closures, feature, profile):
    """The closures with this feature's row changed: closed for the profile where it wasn't, open for it where it was."""
    rows = []
    for row in closures["closures"]:
        if (row if isinstance(row, str) else row["feature"]) != feature:
            rows.append(row)
            continue
        names = set(PROFILES if isinstance(row, str) else row["profiles"]) ^ {profile}
        rows += [feature] if len(names) == len(PROFILES) else [{"feature": feature, "profiles": [it for it in PROFILES if it in names]}] if names else []
    return closures | {"closures": rows}


def cost_of(reply):
    return reply["cost"] if reply["result"] == "route" else float("inf")


def judge_drawn(program, folder, chance):
    """The drawn closures by both checkers: how many are told, for how many the change of the row matters, and the differences."""
    base, wanted, rows = with_profiles(folder), [], []
    parts = parts_of(program, base, os.path.join(folder, "more"))
    tables = {profile: table_of(program, base, profile) for profile in PROFILES}
    for profile, feature, before, closures, after in drawn_cases(program, base, chance):
        rows.append([after, closures])
        wanted.append("proved")
        was_closed = cost_of(after) > cost_of(before)
        # Where the feature was closed to the profile and the way was a cheaper one before, that way breaks the proof as soon as it is open; where
        # it wasn't and the way goes by it, a step is none as soon as it is closed.
        if was_closed or feature in features_of(after):
            rows.append([after, changed_row(closures, feature, profile)])
            wanted.append("fails")
    for row in BAD_ROWS:
        rows.append([after, closures | {"closures": [row]}])
        wanted.append("fails closures")
    judge, wrong = Judge(folder, parts, occupants_of(base, "station")), []
    said = [[judge.says(reply, closures, tables[reply["profile"]]).strip() for reply, closures in rows]]
    if shutil.which("node"):
        said.append(in_node(folder, parts, rows))
    for found in said:
        for (reply, closures), one, other in zip(rows, found, wanted):
            if one != other and not (other == "fails" and one.startswith("fails ")):
                wrong.append(f"{json.dumps(reply)} with {json.dumps(closures)}: {one}, and wanted is {other}")
    return wanted.count("proved"), wanted.count("fails"), len(said) > 1, wrong


def in_node(folder, parts, rows):
    """What check.js says of these rows."""
    shutil.copy(os.path.join(EXAMPLES, "web", "check.js"), os.path.join(folder, "check.mjs"))
    with open(os.path.join(folder, "judge.mjs"), "w", encoding="utf-8") as file:
        file.write(JUDGE)
    anchors = list(anchors_of(occupants_of(EXAMPLES, "station")).items())
    ran = subprocess.run(["node", os.path.join(folder, "judge.mjs"), parts], input=json.dumps({"anchors": anchors, "judged": rows}), capture_output=True, text=True, timeout=50)
    assert ran.returncode == 0, ran.stderr
    return json.loads(ran.stdout)


def anchors_of(occupants):
    """The anchor of each occupant of the files that these words name."""
    features = []
    for path in occupants:
        with open(path, encoding="utf-8") as file:
            features += json.load(file)["features"]
    return {it["id"]: it["properties"]["anchor_id"] for it in features}


class Links:
    """The links of a printed table, less what is closed for the profile, and the least costs over them, which are found once. A node is its identifier and
    the number of its corner, 0 where it is none. `corners` has how many there are by their unit."""

    def __init__(self, table, profile, closures, occupants):
        shut = {it if isinstance(it, str) else it["feature"] for it in closures["closures"] if isinstance(it, str) or profile in it["profiles"]}
        words = [line.split(" ") for line in table.splitlines()]
        nodes, self.corners = [], {}
        for id in (it[1] for it in words if it[0] == "node"):
            self.corners[id] = self.corners.get(id, -1) + 1
            nodes.append((id, self.corners[id]))
        links = [(nodes[int(it[1])], nodes[int(it[2])], int(it[3]), it[4]) for it in words if it[0] == "link"]
        self.links = {it for it in links if not shut & {it[0][0], it[1][0], it[3]}}
        self.out, self.found, self.anchors = {}, {}, anchors_of(occupants)
        for start, end, cost, _ in self.links:
            self.out.setdefault(start, []).append((end, cost))

    def costs_from(self, start):
        """The least cost of a way from a node to each that it leads to (Dijkstra 1959)."""
        if start not in self.found:
            costs, heap = {}, [(0, start)]
            while heap:
                cost, node = heapq.heappop(heap)
                if node not in costs:
                    costs[node] = cost
                    for end, more in self.out.get(node, []):
                        heapq.heappush(heap, (cost + more, end))
            self.found[start] = costs
        return self.found[start]

    def node(self, place):
        return self.anchors.get(place, place), 0

    def legs(self, places):
        """The least costs from place to place, or None where one of them leads nowhere."""
        nodes = [self.node(it) for it in places]
        costs = [self.costs_from(start).get(end) for start, end in zip(nodes, nodes[1:])]
        return None if None in costs else costs

    def is_walk(self, start, end, steps):
        """Whether the steps are open links that lead from node to node."""
        for step in steps:
            end_of_step = step["to"], step.get("corner", 0)
            if (start, end_of_step, step["cost"], step["via"]) not in self.links:
                return False
            start = end_of_step
        return start == end


def fault_of_tour(links, start, end, stops, reply):
    """What is wrong with the reply to a question for a tour, or None."""
    found = [legs for order in set(itertools.permutations(stops)) for legs in [links.legs([start, *order, end])] if legs is not None]
    if (reply["from"], reply["to"]) != (start, end):
        return "other ends"
    if not found:
        return None if (reply["result"], reply.get("stops")) == ("none", stops) else "no order can be walked"
    if reply["result"] != "tour":
        return "an order can be walked"
    if sorted(reply["order"]) != sorted(stops):
        return "other stops"
    places, legs = [start, *reply["order"], end], reply["legs"]
    if [leg["cost"] for leg in legs] != links.legs(places):
        return "a leg costs more, or is one too many"
    for leg, first, last in zip(legs, places, places[1:]):
        if not links.is_walk(links.node(first), links.node(last), leg["steps"]) or leg["cost"] != sum(step["cost"] for step in leg["steps"]):
            return "a leg that is no way of its cost"
    if reply["cost"] != sum(leg["cost"] for leg in legs):
        return "another cost than the legs"
    return None if reply["cost"] == min(map(sum, found)) else "another order costs less"


def tour(start, end, stops, profile):
    return question(f"/v1/tour?from={start}&to={end}&stops={','.join(stops)}&profile={profile}")


def spoiled_tours(reply):
    """The tour without its first step, with another cost, and without its last leg."""
    stepless, dearer, shorter = (json.loads(json.dumps(reply)) for _ in range(3))
    dearer["cost"] += 1
    shorter["legs"].pop()
    steps = next((leg["steps"] for leg in stepless["legs"] if leg["steps"]), None)
    if steps:
        steps.pop(0)
    return ([stepless] if steps is not None else []) + [dearer, shorter]


def judge_tours(program, chance, venue):
    """Tours that are drawn, in sessions with something closed, and in the station those of known costs: how many, and the differences."""
    base, folder, places, shut = venue
    occupants, judged, walked, wrong = occupants_of(base, folder), 0, 0, []
    for profile in ("wheelchair", "walk"):
        table = table_of(program, base, profile, folder)
        for closed in shut:
            asked = [(*(NODE.format(it) for it in chance.choices(places, k=2)), [NODE.format(it) for it in chance.choices(places, k=chance.randint(1, MOST_STOPS))]) for _ in range(TOURS)]
            known = [] if closed or venue != STATION else [(stops, cost) for name, stops, cost in KNOWN if name == profile]
            asked += [(NODE.format(0x51), NODE.format(0x52), [NODE.format(it) for it in stops]) for stops, _ in known]
            requests = [closing(NODE.format(it), names) for it, names in closed.items()] + [question("/v1/closures")] + [tour(*it, profile) for it in asked]
            closures, *replies = map(json.loads, bodies(program, base, requests, folder)[len(closed):])
            links = Links(table, profile, closures, occupants)
            for (start, end, stops), reply in zip(asked, replies):
                judged, fault = judged + 1, fault_of_tour(links, start, end, stops, reply)
                if fault:
                    wrong.append(f"the tour from {start} to {end} by {stops} for {profile}: {fault}: {json.dumps(reply)}")
                elif reply["result"] == "tour":
                    walked += 1
                    wrong += [f"no fault is found in {json.dumps(it)}" for it in spoiled_tours(reply) if not fault_of_tour(links, start, end, stops, it)]
            costs, told = [cost for _, cost in known], [it.get("cost") for it in replies[TOURS:]]
            wrong += [] if told == costs else [f"for {profile} the known tours cost {told}, and not {costs}"]
    if not walked or walked == judged:
        wrong.append(f"of {judged} tours in {folder} {walked} can be walked")
    return judged, wrong


def nearest(start, category, profile, limit, certificate="yes"):
    return question(f"/v1/nearest?from={start}&category={category}&profile={profile}&limit={limit}&certificate={certificate}")


def with_amenities(base, venue, amenities):
    """A base with a copy of the folder and these amenities behind its own."""
    shutil.copytree(os.path.join(venue.base, venue.folder), os.path.join(base, venue.folder))
    shutil.copy(os.path.join(venue.base, "venue.toml"), base)
    path, rows = os.path.join(base, venue.folder, "amenity.geojson"), {"type": "FeatureCollection", "features": []}
    if os.path.exists(path):
        with open(path, encoding="utf-8") as file:
            rows = json.load(file)
    for number, category, east, north, units in amenities:
        place = {"type": "Point", "coordinates": [10 + east / 100_000, 50 + north / 100_000]}
        properties = {"category": category, "unit_ids": [NODE.format(it) for it in units]}
        rows["features"].append({"type": "Feature", "id": NODE.format(number), "feature_type": "amenity", "geometry": place, "properties": properties})
    with open(path, "w", encoding="utf-8") as file:
        json.dump(rows, file)
    return base


def leaves(value, path=()):
    """The numbers and texts within a value, each with where it stands."""
    if isinstance(value, (dict, list)):
        for key, item in value.items() if isinstance(value, dict) else enumerate(value):
            yield from leaves(item, path + (key,))
    else:
        yield path, value


def exchanged(reply, path, other):
    """The reply with something else there."""
    reply = json.loads(json.dumps(reply))
    within = reply
    for key in path[:-1]:
        within = within[key]
    within[path[-1]] = other
    return reply


def spoiled_nearest(reply):
    """The reply with each of its numbers and identifiers exchanged, and with a row, a potential or a member too few or too many. Some identifiers are exchanged
    for one that nothing has, and so are corners, since another way by other doors may be as right; a potential for the last cost, below which all are."""
    rows, spoiled = reply["places"], []
    for path, value in leaves(reply):
        if path[-1] in ("kind", "profile") or path == ("category",) and not rows:
            continue
        if path[-1] == "value":
            other = rows[-1]["cost"]
        elif isinstance(value, int):
            other = value + (999 if path[-1] == "corner" else 1)
        else:
            other = NODE.format(0x999 if path[-1] in ("to", "via", "node") else 0x106 if value != NODE.format(0x106) else 0x108)
        spoiled.append(exchanged(reply, path, other))
    if rows:
        spoiled.append(exchanged(reply, ("places",), rows[:-1]))
        spoiled.append(exchanged(reply, ("places",), rows + rows[-1:]))
    if len(rows) > 1:
        spoiled.append(exchanged(reply, ("places",), rows[::-1]))
    if len(reply.get("potentials", [])) > 1:
        spoiled.append(exchanged(reply, ("potentials",), reply["potentials"][::-1]))
        spoiled.append(exchanged(reply, ("potentials",), [it for it in reply["potentials"] if it["node"] != reply["start"]]))
    if "reached" in reply:
        spoiled.append({key: value for key, value in reply.items() if key != "reached"})
        spoiled.append(exchanged(reply, ("reached",), reply["reached"][:-1]))
    else:
        spoiled.append(reply | {"reached": [reply["start"]]})
    return spoiled


def judge_nearest(program, folder, chance):
    """Questions for the nearest that are drawn, in each venue with something closed, and those of which the costs are known: how many, and the differences."""
    judged, shown, wrong = 0, 0, []
    files = [os.path.join(folder, name) for name in ("reply.json", "links.txt", "closures.json")]

    def says(reply, limit, table, closures, venue):
        for path, text in zip(files, (json.dumps(reply), table, json.dumps(closures))):
            with open(path, "w", encoding="utf-8") as file:
                file.write(text)
        return printed([files[0], str(limit), *files[1:], os.path.join(*venue, "amenity.geojson"), *occupants_of(*venue)], NEAREST_CHECKER).strip()

    for number, (venue, amenities) in enumerate(VENUES):
        base = with_amenities(os.path.join(folder, f"venue{number}"), venue, amenities)
        for profile in ("wheelchair", "walk"):
            table = table_of(program, base, profile, venue.folder)
            for closed in [*venue.closed, {0x105: None}, {0x300: None}]:
                places = [*venue.places, *(it[0] for it in amenities)]
                drawn = [(chance.choice(places), chance.choice(CATEGORIES), chance.randint(1, 4), chance.choice(["yes", "yes", "no"])) for _ in range(NEAREST)]
                known_here = [it for it in KNOWN_NEAREST if (it[0], it[4], {it[1]: None} if it[1] else {}) == (number, profile, closed)]
                asked = [(*it, None) for it in drawn] + [(it[2], it[3], it[5], "yes", it[6:]) for it in known_here]
                requests = [closing(NODE.format(it), names) for it, names in closed.items()] + [question("/v1/closures")]
                requests += [nearest(NODE.format(start), category, profile, limit, certificate) for start, category, limit, certificate, _ in asked]
                closures, *replies = map(json.loads, bodies(program, base, requests, venue.folder)[len(closed):])
                for (start, category, limit, certificate, known), reply in zip(asked, replies):
                    judged, shown = judged + 1, shown + len(reply["places"])
                    said = says(reply, limit, table, closures, (base, venue.folder))
                    told = (reply["from"], reply["category"], reply["profile"], "potentials" in reply)
                    if said != "proved" or told != (NODE.format(start), category, profile, certificate == "yes"):
                        wrong.append(f"limit {limit}, certificate {certificate}: {json.dumps(reply)}: {said}")
                    found = [(row["amenity"], row["cost"]) for row in reply["places"]], len(reply["reached"]) if "reached" in reply else None
                    if known and found != ([(NODE.format(it), cost) for it, cost in known[0]], known[1]):
                        wrong.append(f"known are {known}, and not {found}")
                    spoiled = spoiled_nearest(reply)
                    for other in chance.sample(spoiled, min(SPOILED, len(spoiled))):
                        if not says(other, limit, table, closures, (base, venue.folder)).startswith("fails "):
                            wrong.append(f"no fault is found in {json.dumps(other)}")
    if shown < judged // 2:
        wrong.append(f"{judged} questions for the nearest show only {shown}")
    return judged, wrong


def main():
    program = [sys.argv[1]] if len(sys.argv) > 1 else [os.path.join(HERE, "..", "venue")]
    routes, roaming = random.Random(5), random.Random(13)
    with tempfile.TemporaryDirectory() as folder:
        some = [judge_some(program, folder, routes, venue) for venue in FOLDERS]
        tours = [judge_tours(program, roaming, venue) for venue in FOLDERS]
        drawn, changed, has_node, wrong = judge_drawn(program, folder, random.Random(8))
        near, nearer = judge_nearest(program, folder, random.Random(21))
    wrong += nearer + [it for _, found in some + tours for it in found]
    if drawn != CASES or changed < CASES // 2:
        wrong.append(f"{drawn} closures are drawn, and of {changed} the profiles matter")
    for line in wrong:
        print(line, file=sys.stderr)
    by = "by both checkers" if has_node else "by one checker, since there is no node"
    judged, toured = (sum(count for count, _ in it) for it in (some, tours))
    print(f"route_replies: {judged} replies, {drawn} closures for some and {changed} with other profiles {by}, {toured} tours, {near} of the nearest, "
          f"{len(wrong)} differences")
    return 1 if wrong else 0


sys.exit(main())
