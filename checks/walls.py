#!/usr/bin/env python3
"""Checks ways through rooms with walls: how many nodes and links their venues have, and what the cheapest way costs, step by step, as `route` prints it
and as `session` replies.

usage: walls.py [PROGRAM]   (without PROGRAM the launcher ./venue, which builds the program if need be)
What is wanted was worked out by hand, in centimetres. Each way is proved by `verify`, each reply by examples/route_reply.py. It prints one line, and ends
with status 1 at a difference.
"""
import json
import os
import shutil
import subprocess
import sys

from rooms import NAME, TOP, Kept, Venue, box, ell, in_metres, judge_rows, set_up

sys.path.append(os.path.join(TOP, "examples"))
from route_reply import check, features_of, verdict

HOLE = [(15, 15), (15, 25), (25, 25), (25, 15)]
COMB = [(0, 0), (40, 0), (40, 20), (30, 20), (30, 10), (20, 10), (20, 20), (10, 20), (10, 10), (0, 10)]
FIN = [(19.9, 0), (19.9, 15), (20.1, 15), (20.1, 0)]
KITE = [(20, 0), (15, 5), (20, 10), (25, 5)]
NOTCH = [(15, 0), (15, 10), (25, 10), (25, 0)]


def room(*rings, places=(), display=None):
    """A room of these rings in metres, with an anchor at each of these places."""
    shown = in_metres([display])[0] if display else None
    return Venue().room([in_metres(it) for it in rings], display=shown).anchor(*in_metres(places))


def side(*jambs):
    """A room of 40 by 20 metres with these positions in its south side, and a door between each two."""
    venue = Venue().room([in_metres([(0, 0), *((x, 0) for x in jambs), (40, 0), (40, 20), (0, 20)])])
    return venue.door(*in_metres([(9, 0), (11, 0)])).door(*in_metres([(13, 0), (15, 0)]), number=102)


def walled(notch, **more):
    return room([(0, 0), *notch, *box(0, 0, 40, 20)[1:]], **more)


def halves(*polygons, **more):
    venue = Venue().room(*[[in_metres(box(*it))] for it in polygons], display=more.get("display"))
    return venue.anchor(*in_metres(more["places"]))


def square(**more):
    return lambda: room(box(0, 0, 40, 40), HOLE, places=more["places"])


# A name, the venue, whether ways go round walls, settings more; how many nodes and links there are; from where to where, and what each step costs.
ROWS = [
    ("ell, straight", ell, False, "", (3, 6), (41, 42), [4243]),
    ("ell", ell, True, "", (4, 6), (41, 42), [2550, 2550]),
    ("ell, from its own place", ell, True, "", (4, 6), (300, 42), [1415, 2550]),
    ("a hole, straight", square(places=[(5, 20), (35, 20)]), False, "", (3, 6), (41, 42), [3000]),
    ("a hole", square(places=[(5, 20), (35, 20)]), True, "", (7, 18), (41, 42), [1119, 1000, 1119]),
    ("along a hole", square(places=[(5, 15), (35, 15)]), True, "", (7, 18), (41, 42), [1000, 1000, 1000]),
    ("a comb", lambda: room(COMB, places=[(35, 18), (15, 18)]), True, "", (6, 18), (41, 42), [944, 1000, 944]),
    ("jambs in a wall", lambda: side(9, 11, 13, 15), True, "", (3, 4), (101, 102), [1415, 1167]),
    ("jambs and a wide tolerance", lambda: side(9, 11, 13, 15), True, "contain_tol = 10000\n", (3, 6), (101, 102), [400]),
    ("jambs and a wide tolerance of borders", lambda: side(9, 11, 13, 15), True, "border_tol = 10000\n", (3, 6), (101, 102), [400]),
    ("no jambs", side, True, "", (3, 6), (101, 102), [400]),
    ("jambs nearer than the tolerance", lambda: side(9.5, 10.5, 13.5, 14.5), True, "", (3, 6), (101, 102), [400]),
    ("a fin", lambda: walled(FIN, places=[(10, 5), (30, 5)]), True, "", (5, 18), (41, 42), None),
    ("a fin, and a place beside it", lambda: walled(FIN, places=[(10, 5), (30, 5)], display=(5, 18)), True, "", (5, 16), (41, 42), [1408, 1422]),
    ("places at a fin", lambda: walled(FIN, places=[(19.5, 5), (20.5, 5)]), True, "", (5, 20), (41, 42), [100]),
    ("a hole that touches the border", lambda: room(box(0, 0, 40, 20), KITE, places=[(10, 1), (30, 1)]), True, "", (7, 30), (41, 42), None),
    ("a hole along the border", lambda: room(box(0, 0, 40, 20), NOTCH, places=[(10, 1), (30, 1)]), True, "", (7, 20), (41, 42), [510, 1000, 510]),
    ("a notch", lambda: walled(NOTCH, places=[(10, 1), (30, 1)]), True, "", (5, 10), (41, 42), [1030, 1000, 1030]),
    ("two polygons that share a side", lambda: halves((0, 0, 10, 10), (10, 0, 20, 10), places=[(5, 5), (15, 5)], display=(20_000, 80_000)), True, "", (3, 4), (41, 42), None),
    ("two polygons apart", lambda: halves((0, 0, 10, 10), (30, 0, 40, 10), places=[(5, 5), (35, 5)]), True, "", (3, 6), (41, 42), [3000]),
    ("two polygons apart, two places in one", lambda: halves((0, 0, 10, 10), (30, 0, 40, 10), places=[(5, 5), (8, 5), (35, 5)]), True, "", (4, 6), (41, 43), [300, 2700]),
    ("the ell of examples with a room in its corner", lambda: Kept("walls", "ell_room"), True, "", (7, 16), (43, 42), [1500, 1500, 2550]),
    ("the ell of examples", lambda: Kept("walls", "ell"), True, "", (4, 6), (41, 42), [2550, 2550]),
    ("the concourse of examples, straight", lambda: Kept("walls", "concourse"), False, "", (19, 78), (53, 55), None),
    ("the concourse of examples", lambda: Kept("walls", "concourse"), True, "", (75, 1634), (53, 55), [500, 1152, 1304, 1152, 500]),
    ("the station", lambda: Kept("station"), True, "", (31, 243), (51, 52), None),
]
# What the ways cost whose steps have no names of their own.
COSTS = {
    "a fin": 2238,
    "a hole that touches the border": 2010,
    "two polygons that share a side": 1000,
    "the concourse of examples, straight": 4606,
    "the station": 8683,
}
# The corners of unit #0300 at which the steps of a reply end, none where a step ends at another node.
CORNERS = {"the ell of examples with a room in its corner": [None, 1, None], "the ell of examples": [1, None], "the concourse of examples": [None, 15, 37, None, None]}


def run(program, *words):
    return subprocess.run([*program, *words], capture_output=True, text=True).stdout


def asked(program, base, ends):
    """The reply about the way, with what proves it."""
    start, end = (NAME.format(it) for it in ends)
    sent = f"GET /v1/route?from={start}&to={end}&profile=walk&certificate=yes HTTP/1.1\r\nhost: a\r\n\r\n"
    ran = subprocess.run([*program, "session", base, "folder"], input=sent.encode(), capture_output=True)
    return json.loads(ran.stdout.split(b"\r\n\r\n")[1])


def occupants(folder):
    path = os.path.join(folder, "occupant.geojson")
    return features_of([path] if os.path.exists(path) else [])


def differences(program, base, row):
    """What the program tells of a row's venue otherwise than it should."""
    name, venue, clear, more, table, ends, wanted = row
    set_up(base, clear, more)
    venue().write(os.path.join(base, "folder"))
    links = run(program, "links", base, "folder", "walk")
    rows = [line.split() for line in links.splitlines()]
    counted = tuple(sum(row[0] == word for row in rows) for word in ("node", "link"))
    if counted != table:
        yield f"{name}: {counted[0]} nodes and {counted[1]} links, wanted {table[0]} and {table[1]}"
    answer = run(program, "route", base, "folder", "walk", *(NAME.format(it) for it in ends))
    costs = [int(row[3]) for row in rows if row[0] == "link"]
    steps = [costs[int(line.split()[1])] for line in answer.splitlines() if line.startswith("step ")]
    reply = asked(program, base, ends)
    for found in steps, [step["cost"] for step in reply["steps"]]:
        if (sum(found) != COSTS[name]) if wanted is None else (found != wanted):
            yield f"{name}: steps of {found}, wanted {wanted or COSTS[name]}"
    corners = [step.get("corner") for step in reply["steps"]]
    if corners != (CORNERS.get(name, corners) if clear else [None] * len(corners)):
        yield f"{name}: by corners {corners}, wanted {CORNERS[name] if clear else 'none'}"
    for file, text in (("links.txt", links), ("answer.txt", answer)):
        with open(os.path.join(base, file), "w", encoding="utf-8") as out:
            out.write(text)
    told = run(program, "verify", base)
    if told != "proved\n":
        yield f"{name}: verify prints {told!r}"
    told = verdict(lambda: check(reply, os.path.join(base, "links.txt"), {"closures": [], "version": 1}, occupants(os.path.join(base, "folder"))))
    if told != "proved":
        yield f"{name}: the reply {told}"
    shutil.rmtree(os.path.join(base, "folder"))


sys.exit(judge_rows("walls", ROWS, "ways", differences))
