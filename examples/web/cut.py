"""Cuts the table of links that `venue links` prints into parts, as docs/FORMATS.md tells under "A table in parts": one for each level, and one
of the links between levels."""
from array import array
from itertools import groupby

BETWEEN = -1


class Cut:
    """The parts of one profile's table. `part_of` has the part of each feature that is a node by its identifier; the corners of a unit are in that of the unit.
    `number_of` comes to have the number of each node over all parts, in order, by its identifier and its corner, which is 0 but for corners; `members` the
    nodes of the links by each unit or relationship."""

    def __init__(self, lines, part_of):
        self.texts, self.members, self.number_of, self.links, names = {}, {}, {}, 0, []
        if next(lines, b"").rstrip() != b"imdf-links 1":
            raise ValueError("the first line isn't that of a table of links")
        for via, rows in groupby(map(bytes.split, lines), key=lambda words: (words[0], words[-1] if words[0] == b"link" else b"")):
            if via[0] == b"node":
                names = named(words[1].decode() for words in rows)
                self.number_of = numbered(names, part_of)
                self.part = [part_of[node] for node, _ in self.number_of]
                nodes = [self.number_of[name] for name in names]
            elif via[0] == b"link":
                self.add(via[1].decode(), nodes, rows)
        if {node for node, _ in names} != part_of.keys():
            raise ValueError("its nodes aren't those of the folder")

    def line(self, part, *words):
        self.texts.setdefault(part, []).append(" ".join(map(str, words)) + "\n")

    def add(self, via, nodes, rows):
        """The links by one unit or relationship: a block where there is one each way between all its members, at one cost, else line by line."""
        starts, ends, costs = array("i"), array("i"), array("i")
        for _, start, end, cost, _ in rows:
            starts.append(nodes[int(start)])
            ends.append(nodes[int(end)])
            costs.append(int(cost))
        self.links += len(costs)
        members = array("i", dict.fromkeys(starts))
        others = len(members) - 1
        if len(members) < 3 or not is_block(members, starts, ends, costs):
            for start, end, cost in zip(starts, ends, costs):
                self.link(start, end, cost, via)
            return
        self.members[via] = list(members)
        places = {}
        for place, member in enumerate(members):
            places.setdefault(self.part[member], []).append(place)
        for part, its in places.items():
            self.line(part, "room", via, *(members[place] for place in its))
            for k, place in enumerate(its[:-1]):
                self.line(part, "costs", *(costs[place * others + other - 1] for other in its[k + 1:]))
        if len(places) > 1:
            for start, end, cost in zip(starts, ends, costs):
                if self.part[start] != self.part[end]:
                    self.link(start, end, cost, via)

    def link(self, start, end, cost, via):
        part = self.part[start] if self.part[start] == self.part[end] else BETWEEN
        self.members.setdefault(via, []).extend((start, end))
        self.line(part, "link", start, end, cost, via)

    def text(self, part, mark):
        name = "between" if part == BETWEEN else part
        return "".join([f"imdf-part 1 {mark} {name}\n", *self.texts.get(part, []), "end\n"]).encode()


def is_block(members, starts, ends, costs):
    """Whether the links lead from each member to each other one, in order, and both ways between two cost the same."""
    count, others = len(members), len(members) - 1
    if len(costs) != count * others:
        return False
    for k in range(count):
        row = slice(k * others, (k + 1) * others)
        if starts[row] != members[k:k + 1] * others or ends[row] != members[:k] + members[k + 1:]:
            return False
        if costs[k * others + k:(k + 1) * others] != costs[(k + 1) * others + k::others]:
            return False
    return True


def named(nodes):
    """The nodes of a table by their identifiers and corners: the k-th further line of an identifier is its corner k."""
    lines, names = {}, []
    for node in nodes:
        names.append((node, lines.get(node, 0)))
        lines[node] = names[-1][1] + 1
    return names


def numbered(names, part_of):
    """The number of each node over all parts: part by part, in each in the order of the features, the corners of a unit behind it."""
    place_of = {node: place for place, node in enumerate(part_of)}
    ordered = sorted(names, key=lambda name: (part_of[name[0]], place_of[name[0]], name[1]))
    return {name: number for number, name in enumerate(ordered)}


def nodes_text(number_of, part_of, parts, mark):
    """The nodes of each part."""
    lines = [["part\n"] for _ in range(parts)]
    for node, _ in number_of:
        lines[part_of[node]].append(f"node {node}\n")
    return "".join([f"imdf-parts 1 {mark}\n", *(line for part in lines for line in part), "end\n"]).encode()
