"""Lengths and shapes in a plane: points are pairs of numbers, rings lists of points of which the last is the first."""
from math import hypot, sqrt

PROBES = 7


def parts(geometry):
    """The polygons of a geometry, each a list of rings of positions."""
    found = geometry["coordinates"]
    return [found] if geometry["type"] == "Polygon" else found


def shape(geometry, x, y):
    """The rings of a geometry, part by part, each degree so many units long."""
    return [[(p[0] * x, p[1] * y) for p in ring] for part in parts(geometry) for ring in part]


def box(points):
    xs, ys = [p[0] for p in points], [p[1] for p in points]
    return min(xs), min(ys), max(xs), max(ys)


def middle(bounds):
    return (bounds[0] + bounds[2]) / 2, (bounds[1] + bounds[3]) / 2


def to_edge(p, a, b):
    """How far a point is from the straight line between two others."""
    (x, y), (ax, ay), (bx, by) = p, a, b
    dx, dy = bx - ax, by - ay
    square = dx * dx + dy * dy
    t = max(0.0, min(1.0, ((x - ax) * dx + (y - ay) * dy) / square)) if square else 0.0
    return hypot(x - ax - t * dx, y - ay - t * dy)


def to_border(p, rings):
    return min((to_edge(p, a, b) for ring in rings for a, b in zip(ring, ring[1:])), default=0.0)


def spans(rings, y):
    """Where the level line at `y` runs inside: pairs of numbers from left to right."""
    cuts = sorted(
        ax + (y - ay) * (bx - ax) / (by - ay) for ring in rings for (ax, ay), (bx, by) in zip(ring, ring[1:]) if (ay > y) != (by > y)
    )
    return list(zip(cuts[::2], cuts[1::2]))


def is_inside(p, rings):
    return any(left <= p[0] <= right for left, right in spans(rings, p[1]))


def heights(low, high):
    """A few heights between two, in no simple ratio so that they seldom meet a corner."""
    return [low + (high - low) * (k + 0.487) / PROBES for k in range(PROBES)]


def area(ring):
    x, y = ring[0]
    return abs(sum((ax - x) * (by - y) - (bx - x) * (ay - y) for (ax, ay), (bx, by) in zip(ring, ring[1:]))) / 2


def width(rings):
    """About how wide something is: the shorter side of the rectangle of the same area and border, which is right for corridors with bends."""
    half = sum(hypot(bx - ax, by - ay) for ring in rings for (ax, ay), (bx, by) in zip(ring, ring[1:])) / 2
    inner = area(rings[0]) - sum((area(ring) if is_inside(ring[0], rings[:1]) else -area(ring)) for ring in rings[1:])
    return (half - sqrt(max(0.0, half * half - 4 * abs(inner)))) / 2


def is_thin(rings, wide):
    """Whether no point within is so far from the border as half of `wide`, as far as some level lines show."""
    if width(rings) >= wide:
        return False
    bounds = box(rings[0])
    if min(bounds[2] - bounds[0], bounds[3] - bounds[1]) < wide:
        return True
    probes = [((left + right) / 2, y) for y in heights(bounds[1], bounds[3]) for left, right in spans(rings, y)]
    return all(to_border(p, rings) < wide / 2 for p in probes)


def depth_of_overlap(one, other, bounds):
    """How deep within both of two shapes a point lies, at most as far as some level lines of their common box show."""
    deepest = 0.0
    for y in heights(bounds[1], bounds[3]):
        mine, theirs = spans(one, y), spans(other, y)
        common = [(max(a, c), min(b, d)) for a, b in mine for c, d in theirs if max(a, c) < min(b, d)]
        for left, right in common:
            if right - left > 2 * deepest:
                p = (left + right) / 2, y
                deepest = max(deepest, min(to_border(p, one), to_border(p, other)))
    return deepest


def common_box(one, other, least):
    """What two boxes have in common, None where that is no more than `least` on an axis."""
    low = max(one[0], other[0]), max(one[1], other[1])
    high = min(one[2], other[2]), min(one[3], other[3])
    return (*low, *high) if high[0] - low[0] > least and high[1] - low[1] > least else None


class Index:
    """Boxes in a grid, so that those near a box are found without a look at all."""

    MOST_CELLS = 64

    def __init__(self, boxes):
        self.boxes, self.cells, self.wide = boxes, {}, []
        whole = box([p for it in boxes for p in (it[:2], it[2:])]) if boxes else (0, 0, 1, 1)
        self.side = max(whole[2] - whole[0], whole[3] - whole[1], 1e-9) / max(1.0, sqrt(len(boxes)))
        for number, it in enumerate(boxes):
            cells = self.cells_of(it)
            if len(cells) > self.MOST_CELLS:
                self.wide.append(number)
            for cell in cells if len(cells) <= self.MOST_CELLS else []:
                self.cells.setdefault(cell, []).append(number)

    def cells_of(self, it):
        left, low, right, high = (int(n // self.side) for n in it)
        if (right - left + 1) * (high - low + 1) > self.MOST_CELLS:
            return range(self.MOST_CELLS + 1)
        return [(x, y) for x in range(left, right + 1) for y in range(low, high + 1)]

    def near(self, it):
        """The numbers of the boxes that may meet a box, each once, ascending."""
        cells = self.cells_of(it)
        if len(cells) > self.MOST_CELLS:
            found = range(len(self.boxes))
        else:
            found = sorted({number for cell in cells for number in self.cells.get(cell, [])} | set(self.wide))
        a, b, c, d = it
        return [n for n in found if self.boxes[n][0] <= c and self.boxes[n][2] >= a and self.boxes[n][1] <= d and self.boxes[n][3] >= b]
