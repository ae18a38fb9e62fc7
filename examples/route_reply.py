#!/usr/bin/env python3
"""Checks the body of a route's reply, asked for with certificate=yes, from docs/HTTP.md and docs/FORMATS.md alone. It shares no code with the program.

usage: route_reply.py REPLY LINKS CLOSURES [OCCUPANTS]
REPLY has the body; LINKS what `venue links` prints for the profile that the reply names, of the folder that was published last, or the
profile's folder of that table in parts, of which only the parts are read that the reply needs; CLOSURES the body of GET /v1/closures at
the same version; OCCUPANTS is the occupant.geojson of that folder, needed where an end is an occupant.
It prints `proved`, status 0, or `fails` and what doesn't hold, status 1. The `kind` of a step stands in no table and isn't checked.
"""
import collections
import json
import os
import re
import sys
import typing

IDENTIFIER = r"[0-9a-f]{8}(?:-[0-9a-f]{4}){3}-[0-9a-f]{12}"
LINK = re.compile(r"link (\d+) (\d+) (\d+) (" + IDENTIFIER + ")")


class Fails(Exception):
    """What doesn't hold."""


class Node(typing.NamedTuple):
    """A node by its name: its identifier, and of a corner its number in its unit. Other nodes have 0 there, which no reply prints."""

    id: str
    corner: int = 0

    def __str__(self):
        return f"{self.id} corner {self.corner}" if self.corner else self.id


def need(holds, what):
    if not holds:
        raise Fails(what)


def read(path):
    with open(path, encoding="utf-8") as file:
        return file.read()


def nodes_of(identifiers):
    """The nodes of a table's lines in their order: the k-th further line of an identifier is its corner k."""
    lines = collections.Counter()
    for id in identifiers:
        yield Node(id, lines[id])
        lines[id] += 1


def links_of(table):
    """The nodes of a table by number, each with its own, and its links as (from, to, cost, via)."""
    lines = table.splitlines()
    need(lines[:1] == ["imdf-links 1"] and lines[-1] == "end", "table")
    nodes = list(nodes_of(line[5:] for line in lines if re.fullmatch("node " + IDENTIFIER, line)))
    rows = [LINK.fullmatch(line) for line in lines[1 + len(nodes):-1]]
    need(all(rows), "table")
    links = [(nodes[int(a)], nodes[int(b)], int(cost), via) for a, b, cost, via in (row.groups() for row in rows)]
    return {node: number for number, node in enumerate(nodes)}, links


def node_at(row, key):
    """The node that a row names by this member and, where it is a corner, by its number."""
    corner = row.get("corner", 0)
    need("corner" not in row or type(corner) is int and corner >= 1, f"corner {corner}")
    return Node(row[key], corner)


def reached_by(reply):
    """The nodes that a reply lists as reached: a corner is an object, another node its identifier."""
    for row in reply.get("reached", []):
        need(type(row) is str or type(row) is dict and set(row) == {"corner", "node"}, f"reached {row}")
        yield Node(row) if type(row) is str else node_at(row, "node")


def named_in(reply):
    """The nodes that a reply lists. Another has the potential `cost` and isn't reached, so a link can break the proof only if it starts or ends at one of
    these."""
    if "start" in reply:
        yield Node(reply["start"])
    yield from reached_by(reply)
    for rows, key in (("steps", "to"), ("potentials", "node")):
        yield from (node_at(row, key) for row in reply.get(rows, []))


def need_known(reply, nodes):
    """The table has each node that the reply lists."""
    for node in named_in(reply):
        need(node in nodes, f"node {node}")


def links_of_parts(folder, reply):
    """All nodes of a table in parts, and the links of the parts of the nodes that the reply names, and between parts."""
    first, *lines, last = read(os.path.join(folder, "..", "parts.txt")).splitlines()
    mark = re.fullmatch("imdf-parts 1 ([0-9a-f]{16})", first)
    need(mark and last == "end" and all(re.fullmatch("part|node " + IDENTIFIER, line) for line in lines), "parts")
    nodes, part_of, part = nodes_of(line[5:] for line in lines if line != "part"), {}, -1
    for line in lines:
        part += line == "part"
        if line != "part":
            need(part >= 0, "parts")
            part_of[next(nodes)] = part
    nodes, links = list(part_of), []
    for name in ["between", *sorted({part_of[node] for node in (Node(reply["from"]), *named_in(reply)) if node in part_of})]:
        for a, b, cost, via in links_of_part(read(os.path.join(folder, f"{name}.txt")), f"imdf-part 1 {mark[1]} {name}"):
            ends = {part_of[nodes[a]], part_of[nodes[b]]}
            need(len(ends) == 2 if name == "between" else ends == {name}, f"part {name}")
            links.append((nodes[a], nodes[b], cost, via))
    return set(nodes), links


def links_of_part(text, wanted):
    first, *lines, last = text.splitlines()
    need(first == wanted and last == "end", wanted)
    lines = iter(lines)
    for line in lines:
        word, *words = line.split(" ")
        if word == "link":
            need(LINK.fullmatch(line), line)
            yield int(words[0]), int(words[1]), int(words[2]), words[3]
            continue
        need(word == "room" and re.fullmatch(IDENTIFIER, words[0]) and len(set(words[1:])) == len(words) - 1 > 1, line)
        via, members = words[0], [int(number) for number in words[1:]]
        for k, member in enumerate(members[:-1]):
            word, *costs = next(lines, "").split(" ")
            need(word == "costs" and len(costs) == len(members) - 1 - k, line)
            for other, cost in zip(members[k + 1:], map(int, costs)):
                yield member, other, cost, via
                yield other, member, cost, via


def closed_for(rows, profile):
    """The identifiers of what these rows of the closures close for a profile. A row that is a text is closed for all; else it is an object of a
    feature and the profiles for which it is closed, of which there are some. A row of another form can't be judged."""
    need(type(rows) is list, "closures")
    closed = set()
    for row in rows:
        if type(row) is dict:
            names = row.get("profiles")
            need(set(row) == {"feature", "profiles"} and type(names) is list and names and all(type(name) is str for name in names), "closures")
            feature, is_closed = row["feature"], profile in names
        else:
            feature, is_closed = row, True
        need(type(feature) is str, "closures")
        if is_closed:
            closed.add(feature)
    return closed


def open_links(links, closures, reply):
    """The links of which neither the way nor an end is closed for the reply's profile, at its version."""
    need(reply["version"] == closures["version"], "version")
    closed = closed_for(closures["closures"], reply["profile"])
    return [link for link in links if not closed & {link[0].id, link[1].id, link[3]}]


def node_of(place, nodes, occupants):
    """The node at which a place is: its own, or that of its anchor."""
    anchors = {occupant["id"]: occupant["properties"]["anchor_id"] for occupant in occupants}
    node = Node(place if Node(place) in nodes else anchors.get(place))
    need(node in nodes, f"place {place}")
    return node


def check_walk(steps, cost, links, start, end):
    """The steps are such links, lead from node to node, and cost so much together."""
    at, total = start, 0
    for number, step in enumerate(steps, 1):
        before, at = at, node_at(step, "to")
        need((before, at, step["cost"], step["via"]) in links, f"step {number}")
        total += step["cost"]
    need(at == end, "end")
    need(total == cost, "cost")


def check_potentials(reply, cost, links, start, ends):
    """The potentials by node: 0 at the start, at each end what it costs, and no link's end above its start by more than the link costs. A node that
    isn't listed has the potential `cost`."""
    potential = {node_at(mark, "node"): mark["value"] for mark in reply["potentials"]}
    need(all(type(value) is int for value in potential.values()) and len(potential) == len(reply["potentials"]), "potentials")
    for node, value in [(start, 0), *ends]:
        need(potential.get(node, cost) == value, f"potential {node}")
    for a, b, length, via in links:
        need(potential.get(b, cost) <= potential.get(a, cost) + length, f"link {a} {b} {via}")
    return potential


def check_route(reply, links, start, end):
    need(Node(reply["start"]) == start, "start")
    check_walk(reply["steps"], reply["cost"], set(links), start, end)
    check_potentials(reply, reply["cost"], links, start, [(end, reply["cost"])])


def check_none(reply, links, start, end):
    reached = set(reached_by(reply))
    need(len(reached) == len(reply["reached"]), "reached")
    need(start in reached, "start")
    need(end not in reached, "end")
    for a, b, _, via in links:
        need(a not in reached or b in reached, f"link {a} {b} {via}")


def check(reply, path, closures, occupants):
    nodes, links = links_of_parts(path, reply) if os.path.isdir(path) else links_of(read(path))
    need_known(reply, nodes)
    links = open_links(links, closures, reply)
    start, end = (node_of(reply[key], nodes, occupants) for key in ("from", "to"))
    need(reply["result"] in ("route", "none"), "result")
    (check_route if reply["result"] == "route" else check_none)(reply, links, start, end)


def verdict(judge):
    """What is printed of what `judge` finds."""
    try:
        judge()
    except Fails as fails:
        return f"fails {fails}"
    except (OSError, ValueError, KeyError, TypeError, IndexError, AttributeError) as error:
        return f"fails form: {type(error).__name__} {error}"
    return "proved"


def features_of(words):
    """The features of the file that these words name, or none."""
    return json.loads(read(words[0]))["features"] if words else []


def main(words):
    if len(words) not in (3, 4):
        return "fails words"
    return verdict(lambda: check(json.loads(read(words[0])), words[1], json.loads(read(words[2])), features_of(words[3:])))


if __name__ == "__main__":
    printed = main(sys.argv[1:])
    print(printed)
    sys.exit(0 if printed == "proved" else 1)
