#!/usr/bin/env python3
"""Writes what nginx needs to tell in its log which staff key a change came with, without the key: a `split_clients` over the hash of the key.

usage: staff_keys.py BASE > /etc/nginx/venue-keys.conf
A key is told by its place in `staff_keys` of BASE/venue.toml, from 0. Of its hash only the ten-thousandth in which it falls is written, from
which nobody gets the key; a wrong key falls into one of them once in ten thousand times, and its status is 403 all the same. Run it again
after each change of `staff_keys`. It ends with status 1 where two keys fall into the same.
"""
import os
import sys
import tomllib

PARTS = 10_000
WORD = 0xFFFFFFFF


def murmur(data):
    """MurmurHash2 of 32 bits with seed 0, by which `split_clients` of nginx splits."""
    mixed = lambda k: k * 0x5BD1E995 & WORD
    whole, found = len(data) // 4 * 4, len(data)
    for k in range(0, whole, 4):
        it = mixed(int.from_bytes(data[k : k + 4], "little"))
        found = mixed(found) ^ mixed(it ^ it >> 24)
    if data[whole:]:
        found = mixed(found ^ int.from_bytes(data[whole:], "little"))
    found = mixed(found ^ found >> 13)
    return found ^ found >> 15


def lines(keys):
    """The shares of the hashes in their order, each with the place of its key, or `-`."""
    parts = {}
    for place, key in enumerate(keys):
        part = murmur(key.encode()) * PARTS // WORD
        if part in parts:
            sys.exit(f"staff_keys: the log couldn't tell key {place} from key {parts[part]}: choose another one")
        parts[part] = place
    found, below = [], 0
    for part in sorted(parts):
        found += [f"{(part - below) / 100:.2f}% -;"] if part > below else []
        found.append(f"0.01% {parts[part]};")
        below = part + 1
    return found + ["* -;"] * (below < PARTS)


def main(words):
    if len(words) != 1:
        sys.exit(__doc__)
    with open(os.path.join(words[0], "venue.toml"), "rb") as file:
        keys = tomllib.loads(file.read().decode("utf-8-sig")).get("staff_keys", [])
    print("split_clients $http_x_staff_key $staff_key_by_hash {\n    " + "\n    ".join(lines(keys)) + "\n}")


main(sys.argv[1:])
