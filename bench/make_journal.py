"""Writes a journal: a folder published by worker 0, then changes.

usage: make_journal.py FOLDER OUT closures COUNT IDENTIFIER ..   (a closure for both profiles and a reopening in turn, by worker 1, of one feature
                                                                  after the other)
       make_journal.py FOLDER OUT publications COUNT             (so many publications in all, the later ones by worker 1)
"""
import os
import sys

TYPES = """address amenity anchor building detail fixture footprint geofence kiosk level occupant opening relationship section unit venue""".split()


def slots(folder):
    text = b""
    for name in ["manifest.json"] + [f"{kind}.geojson" for kind in TYPES]:
        path = os.path.join(folder, name)
        if os.path.exists(path):
            with open(path, "rb") as file:
                held = file.read()
            text += b"\x01" + len(held).to_bytes(8, "big") + held
        else:
            text += b"\x00"
    return text


def main():
    folder, out, kind, count = sys.argv[1:4] + [int(sys.argv[4])]
    body = slots(folder)
    with open(out, "wb") as file:
        file.write(bytes([1, 1, 0]) + body)
        if kind == "closures":
            features = [bytes.fromhex(identifier.replace("-", "")) for identifier in sys.argv[5:]]
            pairs = [bytes([1, 2, 1]) + feature + bytes([0, 3]) + bytes([1, 3, 1]) + feature + bytes([0, 3]) for feature in features]
            whole, rest = divmod(count // 2, len(pairs))
            file.write(b"".join(pairs) * whole + b"".join(pairs[:rest]))
        else:
            for _ in range(count - 1):
                file.write(bytes([1, 1, 1]) + body)
        file.write(b"\x00")


main()
