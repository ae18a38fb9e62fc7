"""Which places ways lead to, from where all of them may be cut off, and what the cheapest go by."""
import heapq
from math import ceil, hypot


class Graph:
    """The nodes and the corners of a table, numbered as there, and after them a vertex for each pair of nodes that a relationship joins. A
    unit's members are joined by its own node, which stands for the walk across it; those of a walled unit by a vertex for each block."""

    def __init__(self, table, is_one=lambda name: False):
        """Of a relationship for which `is_one` holds all nodes are joined by one vertex."""
        self.table, count = table, len(table.nodes) + table.corners
        number = {name: k for k, name in enumerate(table.nodes)}
        self.next = [[] for _ in range(count)]
        self.of_relationship, self.of_walled, between = {}, {}, {}
        for unit, members in table.areas.items():
            if unit in table.blocks:
                self.of_walled[unit] = [self.hub_of(block) for block in table.blocks[unit]]
                continue
            hub = number[unit]
            self.next[hub].extend(it for it in members if it != hub)
            for member in members:
                if member != hub:
                    self.next[member].append(hub)
        for name, start, end in table.links:
            key = (name,) if is_one(name) else (name, min(start, end), max(start, end))
            if key not in between:
                between[key] = len(self.next)
                self.next.append([])
                self.of_relationship.setdefault(name, []).append(between[key])
            self.next[start].append(between[key])
            self.next[between[key]].append(end)

    def hub_of(self, block):
        """A new vertex that joins the vertices of a block."""
        for it in block:
            self.next[it].append(len(self.next))
        self.next.append(block)
        return len(self.next) - 1

    def back(self):
        """The same links, each the other way."""
        found = [[] for _ in self.next]
        for start, ends in enumerate(self.next):
            for end in ends:
                found[end].append(start)
        return found


def reach(follow, starts, closed=()):
    """Which vertices ways from the starts lead to, around those that are closed."""
    seen = bytearray(len(follow))
    for it in closed:
        seen[it] = 1
    todo = [it for it in starts if not seen[it]]
    for it in todo:
        seen[it] = 1
    while todo:
        for it in follow[todo.pop()]:
            if not seen[it]:
                seen[it] = 1
                todo.append(it)
    for it in closed:
        seen[it] = 0
    return seen


def parts_of(follow, back, wanted):
    """The connected parts of the wanted vertices among each other, in the order of their first."""
    left, found = bytearray(wanted), []
    for first in range(len(follow)):
        if not left[first]:
            continue
        left[first], part = 0, [first]
        for at in part:
            for it in follow[at] + back[at]:
                if left[it]:
                    left[it] = 0
                    part.append(it)
        found.append(part)
    return found


def blocks_of(joined):
    """The largest sets of vertices that stay joined without any one of them, of links that lead both ways (J. Hopcroft and R. E. Tarjan,
    1973). Sets of which one vertex is the same are joined by it alone."""
    found, place, least = [], {}, {}
    for root in joined:
        if root in place:
            continue
        place[root] = least[root] = len(place)
        stack, waiting = [(root, iter(joined[root]))], []
        while stack:
            at, todo = stack[-1]
            for it in todo:
                if it not in place:
                    place[it] = least[it] = len(place)
                    waiting.append(it)
                    stack.append((it, iter(joined[it])))
                    break
                least[at] = min(least[at], place[it])
            else:
                stack.pop()
                if not stack:
                    break
                above = stack[-1][0]
                least[above] = min(least[above], least[at])
                if least[at] >= place[above]:
                    block = [above]
                    while block[-1] != at:
                        block.append(waiting.pop())
                    found.append(block)
    return found


def walk_deep(follow, root):
    """The vertices in the order in which a walk goes deeper first, and of each the place of the one from which it came."""
    place, order, parent = [-1] * len(follow), [root], [0]
    place[root] = 0
    stack = [(0, iter(follow[root]))]
    while stack:
        at, todo = stack[-1]
        for it in todo:
            if place[it] < 0:
                place[it] = len(order)
                order.append(it)
                parent.append(at)
                stack.append((place[it], iter(follow[it])))
                break
        else:
            stack.pop()
    return place, order, parent


def dominators(follow, root):
    """The reached vertices in a walk's order, and of each the place in that order of the nearest other one that no way from the root
    avoids (T. Lengauer and R. E. Tarjan, 1979); 0 of the root."""
    place, order, parent = walk_deep(follow, root)
    count = len(order)
    before = [[] for _ in range(count)]
    for at, it in enumerate(order):
        for end in follow[it]:
            before[place[end]].append(at)
    least, best, above, nearest = list(range(count)), list(range(count)), [-1] * count, [0] * count
    waiting = [[] for _ in range(count)]

    def lowest(v):
        if above[v] < 0:
            return v
        path, u = [], v
        while above[above[u]] >= 0:
            path.append(u)
            u = above[u]
        for u in reversed(path):
            if least[best[above[u]]] < least[best[u]]:
                best[u] = best[above[u]]
            above[u] = above[above[u]]
        return best[v]

    for w in range(count - 1, 0, -1):
        for v in before[w]:
            least[w] = min(least[w], least[lowest(v)])
        waiting[least[w]].append(w)
        above[w] = parent[w]
        for v in waiting[parent[w]]:
            u = lowest(v)
            nearest[v] = u if least[u] < least[v] else parent[w]
        waiting[parent[w]] = []
    for w in range(1, count):
        if nearest[w] != least[w]:
            nearest[w] = nearest[nearest[w]]
    return order, nearest


def cut_by(follow, roots, groups):
    """Of each vertex the groups to none of whose vertices a way from the roots leads where it is closed: how many, and the first three.
    Groups are lists of vertices; of those that ways lead to at all."""
    root = len(follow)
    order, nearest = dominators(follow + [list(roots)], root)
    place = {it: k for k, it in enumerate(order)}
    depth = [0] * len(order)
    below = [[] for _ in order]
    for k in range(1, len(order)):
        depth[k] = depth[nearest[k]] + 1
        below[nearest[k]].append(k)
    rank, todo = {}, [0]
    while todo:
        at = todo.pop()
        rank[at] = len(rank)
        todo.extend(below[at])
    counts, firsts = [0] * len(order), [[] for _ in order]
    for number, group in enumerate(groups):
        inside = [place[it] for it in group if it in place]
        if inside:
            at = meeting(nearest, depth, min(inside, key=rank.get), max(inside, key=rank.get))
            counts[at] += 1
            firsts[at].append(number)
    for k in range(len(order) - 1, 0, -1):
        counts[nearest[k]] += counts[k]
        firsts[nearest[k]] = sorted(firsts[nearest[k]] + firsts[k])[:3]
    return {it: (counts[k], sorted(firsts[k])[:3]) for k, it in enumerate(order) if counts[k] and it != root}


def meeting(nearest, depth, a, b):
    """The lowest vertex of a tree that is above both."""
    while a != b:
        if depth[a] < depth[b]:
            a, b = b, a
        a = nearest[a]
    return a


class Costs:
    """Cheapest ways over a table, at the lengths of straight lines, in walled units those of the table, and what the settings add."""

    def __init__(self, table, at, extra_of):
        """`at` has the place of each node in centimetres, `extra_of` what a relationship adds."""
        self.table, self.at, self.extra_of = table, at, extra_of
        self.links = [[] for _ in range(len(table.nodes) + table.corners)]
        self.areas, self.walled = [[] for _ in self.links], [[] for _ in self.links]
        for unit, members in table.areas.items():
            into = self.walled if unit in table.walled else self.areas
            for member in table.walled.get(unit, members):
                into[member].append(unit)
        for name, start, end in table.links:
            self.links[start].append((name, end))

    def length(self, a, b):
        (x, y), (u, v) = self.at[a], self.at[b]
        return ceil(hypot(x - u, y - v) - 1e-6)

    def ways_from(self, source):
        """Of each node that is reached, in the order of cost, the node before it and by what it is reached. A way goes straight
        across a unit that isn't walled, so a node that is reached across one isn't gone on from across the same."""
        cost, came, order, done = {source: 0}, {source: (None, None)}, [], set()
        todo = [(0, source)]
        while todo:
            so_far, at = heapq.heappop(todo)
            if at in done:
                continue
            done.add(at)
            order.append(at)
            steps = [(it, unit, so_far + self.length(at, it)) for unit in self.areas[at] if unit != came[at][1] for it in self.table.areas[unit]]
            steps += [(it, unit, so_far + far) for unit in self.walled[at] for it, far in zip(*self.table.walled[unit][at])]
            steps += [(it, name, so_far + self.length(at, it) + self.extra_of(name)) for name, it in self.links[at]]
            for it, by, whole in steps:
                if it not in cost or whole < cost[it]:
                    cost[it], came[it] = whole, (at, by)
                    heapq.heappush(todo, (whole, it))
        return order, came
