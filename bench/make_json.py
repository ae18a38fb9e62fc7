"""Writes two feature collections of 32 MiB or a little more: many small features, and few large rings. The same at each run.

usage: make_json.py FEATURES_FILE RINGS_FILE
"""
import random
import sys

SIZE = 32 << 20


def position(x, y):
    return f"[{x:.7f},{y:.7f}]"


def ring(numbers, corners):
    x, y = -121.88 + numbers.random() / 50, 37.32 + numbers.random() / 50
    positions = [position(x + numbers.random() / 1000, y + numbers.random() / 1000) for _ in range(corners)]
    return "[" + ",".join(positions + positions[:1]) + "]"


def identifier(numbers):
    digits = f"{numbers.getrandbits(128):032x}"
    return "-".join((digits[:8], digits[8:12], digits[12:16], digits[16:20], digits[20:]))


def feature(numbers, number, corners):
    return (
        f'{{"type":"Feature","id":"{identifier(numbers)}","feature_type":"unit",'
        f'"geometry":{{"type":"Polygon","coordinates":[{ring(numbers, corners)}]}},'
        f'"properties":{{"category":"room","restriction":null,"accessibility":null,'
        f'"name":{{"en":"Room {number}"}},"alt_name":null,"level_id":"{identifier(numbers)}",'
        f'"display_point":{{"type":"Point","coordinates":{position(-121.88, 37.32)}}}}}}}'
    )


def write(path, seed, corners):
    numbers = random.Random(seed)
    with open(path, "w") as out:
        size = out.write('{"type":"FeatureCollection","features":[' + feature(numbers, 0, corners))
        number = 1
        while size < SIZE:
            size += out.write(",\n" + feature(numbers, number, corners))
            number += 1
        out.write("]}\n")


write(sys.argv[1], 1, 4)
write(sys.argv[2], 2, 325000)
