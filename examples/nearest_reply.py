#!/usr/bin/env python3
"""Checks the body of a reply about the nearest of a category, asked for with certificate=yes or without, from docs/HTTP.md and docs/FORMATS.md alone. It
shares no code with the program. It finds the least costs itself over the table, and judges the certificate beside them.

usage: nearest_reply.py REPLY LIMIT LINKS CLOSURES AMENITIES [OCCUPANTS]
REPLY has the body; LIMIT is how many were asked for at most, 1 where nothing was said; LINKS what `venue links` prints for the profile that the reply
names, of the folder that was published last; CLOSURES the body of GET /v1/closures at the same version; AMENITIES is the amenity.geojson of that
folder, and OCCUPANTS its occupant.geojson, needed where the start is an occupant.
It prints `proved`, status 0, or `fails` and what doesn't hold, status 1. The `kind` of a step stands in no table and isn't checked.
"""
import heapq
import json
import sys

sys.dont_write_bytecode = True  # so that a clone stays as it is

from route_reply import Node, check_potentials, check_walk, features_of, links_of, need, need_known, node_of, open_links, reached_by, read, verdict

ALWAYS = {"category", "from", "places", "profile", "start", "version"}


def costs_from(start, links):
    """The least cost of a walk from a node to each to which one leads (Dijkstra 1959)."""
    out, costs, heap = {}, {}, [(0, start)]
    for a, b, cost, _ in links:
        out.setdefault(a, []).append((b, cost))
    while heap:
        cost, node = heapq.heappop(heap)
        if node not in costs:
            costs[node] = cost
            for end, more in out.get(node, []):
                heapq.heappush(heap, (cost + more, end))
    return costs


def check_places(rows, limit, links, start, candidates, costs):
    """The rows are the first of the candidates to which a walk leads, by cost and then by node, each with a least walk."""
    nearest = sorted((costs[node], number, node) for node, number in candidates.items() if node in costs)[:limit]
    need([(Node(row["amenity"]), row["cost"]) for row in rows] == [(node, cost) for cost, _, node in nearest], "places")
    links = set(links)
    for row in rows:
        end = Node(row["amenity"])
        need(row["steps"] == [] or end != start, "a way from the start to itself")
        check_walk(row["steps"], row["cost"], links, start, end)


def check_certificate(reply, nodes, links, start, candidates):
    """The potentials rise by node, and lie below the last cost; no candidate that has no row lies below it."""
    ends = {Node(row["amenity"]): row["cost"] for row in reply["places"]}
    last = max(ends.values(), default=0)
    potential = check_potentials(reply, last, links, start, ends.items())
    need(list(potential) == sorted(potential, key=nodes.get), "potentials that don't rise by node")
    need(all(0 <= value < last for value in potential.values()), "a potential that isn't below the last cost")
    for node in set(candidates) - set(ends):
        need(potential.get(node, last) >= last, f"potential {node}")


def check(reply, limit, table, closures, amenities, occupants):
    need(1 <= limit <= 10, "limit")
    nodes, links = links_of(table)
    need_known(reply, nodes)
    links = open_links(links, closures, reply)
    start = node_of(reply["from"], nodes, occupants)
    need(Node(reply["start"]) == start, "start")
    candidates = {node: nodes[node] for it in amenities for node in [Node(it["id"])] if it["properties"]["category"] == reply["category"]}
    costs = costs_from(start, links)
    check_places(reply["places"], limit, links, start, candidates, costs)
    told = set(reply) - ALWAYS
    need(ALWAYS <= set(reply) and told in (set(), {"potentials", "reached"} if len(reply["places"]) < limit else {"potentials"}), "members")
    if told:
        check_certificate(reply, nodes, links, start, candidates)
    if "reached" in told:
        need(list(reached_by(reply)) == [node for node in nodes if node in costs], "reached")


def main(words):
    if len(words) not in (5, 6):
        return "fails words"
    reply, limit, table, closures, amenities = words[:5]
    files = [amenities], words[5:]
    return verdict(lambda: check(json.loads(read(reply)), int(limit), read(table), json.loads(read(closures)), *map(features_of, files)))


if __name__ == "__main__":
    printed = main(sys.argv[1:])
    print(printed)
    sys.exit(0 if printed == "proved" else 1)
