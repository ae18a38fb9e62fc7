"""Writes the rooms of `sight.sh` into the folder that is named, a file a room or a set of rooms, by arithmetic alone: the same at every run.

A line is a room: a number of rings, of each its number of positions and x and y of each, then a number of places and x and y of each, doubled.
A metre has 10,000 nanodegrees, and a wall is 60 centimetres thick, since places within half a metre of a wall see past it.
"""

import math
import random
import sys

WALL = 6_000


def closed(points):
    points = [(round(x), round(y)) for x, y in points]
    return points + points[:1]


def rough(corners, least, greatest, draw, at=(0, 0)):
    """An outline of so many corners round a point, between two radii."""
    turn = 2 * math.pi / corners
    radii = [draw.randint(least, greatest) for _ in range(corners)]
    return closed([(at[0] + r * math.cos(turn * i), at[1] + r * math.sin(turn * i)) for i, r in enumerate(radii)])


def box(x, y, width, height):
    return closed([(x, y), (x + width, y), (x + width, y + height), (x, y + height)])


def comb(bays, bay, height, corridor, at=(0, 0)):
    """A corridor with bays to the north, a wall between each two, and one behind the last."""
    points = []
    for i in range(bays):
        x = at[0] + (bay + WALL) * i
        points += [(x, at[1]), (x, at[1] + height), (x + bay, at[1] + height), (x + bay, at[1])]
    end = at[0] + (bay + WALL) * bays
    return closed(points + [(end, at[1]), (end, at[1] - corridor), (at[0], at[1] - corridor)])


def serpentine(walls, width, height, gap):
    """A corridor up and down between walls that leave a gap at one end and the other; three corners more in its south side."""
    pitch = width + WALL
    south, north = [], []
    for i in range(walls):
        x = pitch * i + width
        if i % 2 == 0:
            south += [(x, 0), (x, height - gap), (x + WALL, height - gap), (x + WALL, 0)]
        else:
            north += [(x, height), (x, gap), (x + WALL, gap), (x + WALL, height)]
    end = pitch * walls + width
    bend = [(width // 4, 0), (width // 2, 0), (3 * width // 4, 0)]
    return closed([(0, 0)] + bend + south + [(end, 0), (end, height)] + north[::-1] + [(0, height)])


def turned(points, angle):
    c, s = math.cos(angle), math.sin(angle)
    return [(round(c * x - s * y), round(s * x + c * y)) for x, y in points]


def is_in(ring, x, y):
    odd = False
    for (ax, ay), (bx, by) in zip(ring, ring[1:]):
        if (ay <= y) != (by <= y) and ((bx - ax) * (y - ay) > (by - ay) * (x - ax)) == (by > ay):
            odd = not odd
    return odd


def drawn(rings, many, draw):
    """So many positions in the room, at random."""
    west, east = min(x for x, _ in rings[0]), max(x for x, _ in rings[0])
    south, north = min(y for _, y in rings[0]), max(y for _, y in rings[0])
    places = []
    while len(places) < many:
        x, y = draw.randint(west, east), draw.randint(south, north)
        if sum(is_in(ring, x, y) for ring in rings) % 2 == 1:
            places.append((x, y))
    return places


def line(rings, places):
    words = [len(rings)]
    for ring in rings:
        words.append(len(ring))
        words += [n for place in ring for n in place]
    words.append(len(places))
    words += [2 * n for place in places for n in place]
    return " ".join(map(str, words)) + "\n"


def rough_hall(draw):
    rings = [rough(119, 950_000, 1_000_000, draw)]
    return line(rings, drawn(rings, 4_096, draw))


def columns(draw):
    rings = [box(0, 0, 1_000_000, 800_000)]
    rings += [box(190_000 + 150_000 * i, 190_000 + 130_000 * j, 20_000, 20_000) for i in range(5) for j in range(4)]
    corners = [place for ring in rings[1:] for place in ring[:-1]]
    return line(rings, drawn(rings, 4_096 - len(corners), draw) + corners)


def many_bays(draw):
    """499 bays, a wall behind the last too; of the corners at their mouths every second one is a place."""
    ring = comb(499, 28_000, 60_000, 30_000)
    corners = [place for place in ring[:-4] if place[1] == 0][1::2]
    return line([ring], drawn([ring], 1_000 - len(corners), draw) + corners)


def few_bays(draw):
    """29 bays, without a wall behind the last."""
    ring = comb(29, 28_000, 60_000, 30_000)
    end = ring[-5][0]
    ring = ring[:-4] + [(end, -30_000), (0, -30_000), ring[0]]
    corners = [place for place in ring[:-3] if place[1] == 0][1:-1]
    return line([ring], drawn([ring], 4_096 - len(corners), draw) + corners)


def windings(draw):
    ring = serpentine(313, 54_000, 400_000, 30_000)
    return line([ring], ring[:-1])


def turned_comb(draw):
    """A third of the places in the corridor, the others in the bays."""
    ring = comb(4_999, 14_000, 40_000_000, 300_000)
    end = 20_000 * 4_999
    places = [(draw.randint(0, end), draw.randint(-300_000, 0)) for _ in range(105)]
    places += [(20_000 * draw.randrange(4_999) + draw.randint(0, 14_000), draw.randint(0, 40_000_000)) for _ in range(211)]
    middle = [(x - end // 2, y) for x, y in ring]
    return line([turned(middle, math.pi / 8)], turned([(x - end // 2, y) for x, y in places], math.pi / 8))


def many_rooms(draw):
    """A third rough outlines, a third combs of seven bays, a third halls with six columns, of 30 edges each."""
    lines = []
    for n in range(25_000):
        at = (600_000 * (n % 158 - 79), 600_000 * (n // 158 - 79))
        if n % 3 == 2:
            rings = [rough(30, 150_000, 200_000, draw, at)]
        elif n % 3 == 1:
            ring = comb(7, 28_000, 60_000, 30_000, at)
            rings = [ring[:-4] + [(ring[-5][0], at[1] - 30_000), (at[0], at[1] - 30_000), ring[0]]]
        else:
            width, height = 400_000, 300_000
            outer = [(0, 0), (width // 2, 0), (width, 0), (width, height), (width // 2, height), (0, height)]
            rings = [closed([(at[0] + x, at[1] + y) for x, y in outer])]
            rings += [box(at[0] + 90_000 + 100_000 * i, at[1] + 90_000 + 100_000 * j, 20_000, 20_000) for i in range(3) for j in range(2)]
        assert sum(len(ring) - 1 for ring in rings) == 30
        lines.append(line(rings, drawn(rings, 16, draw)))
    return "".join(lines)


ROOMS = {
    "rough_hall": rough_hall,
    "columns": columns,
    "comb_29": few_bays,
    "serpentine": windings,
    "comb_499": many_bays,
    "comb_turned": turned_comb,
    "rooms": many_rooms,
}


def main():
    for name, room in ROOMS.items():
        with open(f"{sys.argv[1]}/{name}", "w", encoding="ascii") as file:
            file.write(room(random.Random(20261201)))


main()
