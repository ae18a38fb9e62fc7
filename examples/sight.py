"""Who sees whom in a room with walls, made from docs/FORMATS.md alone: corners, sight, hosts, lengths. Places are in whole nanodegrees, rings
without their last position, which repeats the first."""
from math import isqrt


def minus(p, q):
    return p[0] - q[0], p[1] - q[1]


def cross(u, v):
    return u[0] * v[1] - u[1] * v[0]


def dot(u, v):
    return u[0] * v[0] + u[1] * v[1]


def side(a, b, p):
    return cross(minus(b, a), minus(p, a))


def do_cross(a, b, c, d):
    """The two segments cross in a point that is an end of neither."""
    return side(a, b, c) * side(a, b, d) < 0 and side(c, d, a) * side(c, d, b) < 0


def is_within(p, q, t):
    return dot(minus(p, q), minus(p, q)) <= t * t


def is_near(p, edge, t):
    c, d = edge
    length, along = dot(minus(d, c), minus(d, c)), dot(minus(d, c), minus(p, c))
    if along <= 0:
        return is_within(p, c, t)
    if along >= length:
        return is_within(p, d, t)
    return side(c, d, p) ** 2 <= t * t * length


def is_inside(p, edges):
    found = False
    for a, b in edges:
        up = a[1] <= p[1] < b[1] and side(a, b, p) > 0
        down = b[1] <= p[1] < a[1] and side(a, b, p) < 0
        found ^= up or down
    return found


def edges_of(polygons, times=1):
    rings = [[(times * x, times * y) for x, y in [*ring, ring[0]]] for polygon in polygons for ring in polygon]
    return [edge for ring in rings for edge in zip(ring, ring[1:])]


def neighbours(ring):
    """Each position of a ring with that before it and that behind it, from the first on, equal neighbours being one."""
    points = ring[:1] + [p for before, p in zip(ring, ring[1:]) if p != before]
    while points[-1] == points[0]:
        points.pop()
    return list(zip([points[-1], *points], points, [*points[1:], points[0]]))


def corners_of(polygons):
    found = []
    for polygon in polygons:
        for k, ring in enumerate(polygon):
            area = sum(cross(v, w) for _, v, w in neighbours(ring))
            turns = [(side(u, v, w) * area, v) for u, v, w in neighbours(ring)]
            found += [v for turn, v in turns if (turn < 0 if k == 0 else turn > 0)]
    return found


def in_line(polygons):
    """The positions that lie in line between their neighbours: whoever looks along that wall is stopped there."""
    rings = [ring for polygon in polygons for ring in polygon]
    return [v for ring in rings for u, v, w in neighbours(ring) if side(u, v, w) == 0 and dot(minus(v, u), minus(w, v)) > 0]


def do_see(a, b, polygons, t):
    """Two places, at their positions twice."""
    for c, d in edges_of(polygons, 2):
        if do_cross(a, b, c, d) and not is_near(a, (c, d), 2 * t) and not is_near(b, (c, d), 2 * t):
            return False
        for v in (c, d):
            if side(a, b, v) == 0 and 0 < dot(minus(v, a), minus(b, a)) < dot(minus(b, a), minus(b, a)):
                if not is_within(v, a, 2 * t) and not is_within(v, b, 2 * t):
                    return False
    middle, edges = (a[0] + b[0], a[1] + b[1]), edges_of(polygons, 4)
    return is_inside(middle, edges) or any(is_near(middle, edge, 4 * t) for edge in edges)


def length(a, b, scale):
    """In whole centimetres, rounded up, of two places at their positions twice."""
    square = ((a[0] - b[0]) * scale[0]) ** 2 + ((a[1] - b[1]) * scale[1]) ** 2
    whole = -(-square // (4 * 10**18))
    root = isqrt(whole)
    return root if root * root == whole else root + 1


def seen(members, spots, polygons, t):
    """Whom each member sees."""
    return {a: {b for b in members if a != b and do_see(spots[a], spots[b], polygons, t)} for a in members}


def hosts(sees, spots, scale):
    """The host of each member that sees nobody, none where nobody sees anybody."""
    seeing = [b for b in sees if sees[b]]
    nearest = lambda a: min(seeing, key=lambda b: (length(spots[a], spots[b], scale), b))
    return {a: nearest(a) for a in sees if not sees[a]} if seeing else {}


def joined(members, spots, polygons, t, scale):
    """The pairs of members that are joined, as sets of neighbours."""
    sees = seen(members, spots, polygons, t)
    if not any(sees.values()):
        return {a: {b for b in members if a != b} for a in members}
    for a, host in hosts(sees, spots, scale).items():
        sees[a].add(host)
        sees[host].add(a)
    return sees
