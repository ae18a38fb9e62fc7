"""Writes rings of about 20,000 positions, one a line: a name, a number of positions, x and y of each. The same at every run."""

import math
import random
import sys

SIZE = 20_000


def closed(points):
    return [(round(x), round(y)) for x, y in points] + [(round(points[0][0]), round(points[0][1]))]


def staircase():
    points = []
    for i in range(9_999):
        points += [(1000 * i, 1000 * i), (1000 * i + 1000, 1000 * i)]
    return closed(points + [(0, 9_999_000)])


def comb(angle):
    points = []
    for i in range(4_999):
        x = 2000 * i
        points += [(x, 0), (x, 9_000_000), (x + 1000, 9_000_000), (x + 1000, 0)]
    points += [(10_000_000, 0), (10_000_000, -1000), (0, -1000)]
    c, s = math.cos(angle), math.sin(angle)
    return closed([(c * x - s * y, s * x + c * y) for x, y in points])


def around(radius):
    angles = [2 * math.pi * i / (SIZE - 1) for i in range(SIZE - 1)]
    return closed([(radius(i) * math.cos(a), radius(i) * math.sin(a)) for i, a in enumerate(angles)])


def spiral():
    turns, half = 100, (SIZE - 1) // 2
    points = []
    for i in range(half):
        a = 2 * math.pi * turns * i / half
        points.append((math.cos(a) * (100_000 + 100_000 * turns * i / half), math.sin(a) * (100_000 + 100_000 * turns * i / half)))
    for i in reversed(range(half)):
        a = 2 * math.pi * turns * i / half
        points.append((math.cos(a) * (130_000 + 100_000 * turns * i / half), math.sin(a) * (130_000 + 100_000 * turns * i / half)))
    return closed(points)


def main():
    draw = random.Random(20260101)
    spikes = [draw.randint(100_000, 10_000_000) for _ in range(SIZE)]
    rough = [draw.randint(9_900_000, 10_000_000) for _ in range(SIZE)]
    rings = {
        "staircase": staircase(),
        "comb": comb(0),
        "comb_45": comb(math.pi / 4),
        "comb_22.5": comb(math.pi / 8),
        "star": around(lambda i: spikes[i]),
        "spiral": spiral(),
        "circle": around(lambda i: 10_000_000),
        "rough": around(lambda i: rough[i]),
    }
    with open(sys.argv[1], "w") as file:
        for name, points in rings.items():
            file.write(name + " " + str(len(points)) + " " + " ".join(f"{x} {y}" for x, y in points) + "\n")


main()
