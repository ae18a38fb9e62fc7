#!/usr/bin/env python3
"""Checks venues of forty levels whose rings are as long as they may be, of which at most the last crosses itself.

usage: long_rings.py [PROGRAM]   (without PROGRAM the launcher ./venue, which builds the program if need be)
It prints one line, and ends with status 1 at a difference.
"""
import os
import shutil
import subprocess
import sys
import tempfile

HERE = os.path.dirname(os.path.abspath(__file__))
sys.path.insert(0, os.path.join(HERE, "..", "bench"))
from limits import comb, staircase, write  # noqa: E402

CROSSED = "rejected 1\nfinding G3 level.geojson 39 0\n"
SOUND = "accepted 45\nnotes 0\n"


def main():
    program = [sys.argv[1]] if len(sys.argv) > 1 else [os.path.join(HERE, "..", "venue")]
    crossed_staircase = staircase()[:-2] + [(0, 500), (0, 0)]
    crossed_comb = comb()[:-3] + [(4_998_500, 5000), (0, 5000), (0, 1000)]
    folders = [
        ("staircases", [staircase()] * 40, SOUND),
        ("staircases_crossed", [staircase()] * 39 + [crossed_staircase], CROSSED),
        ("combs", [comb()] * 40, SOUND),
        ("combs_crossed", [comb()] * 39 + [crossed_comb], CROSSED),
    ]
    differ = 0
    with tempfile.TemporaryDirectory() as base:
        shutil.copy(os.path.join(HERE, "..", "examples", "venue.toml"), base)
        for name, rings, wanted in folders:
            write(base, name, rings)
            found = subprocess.run(program + ["check", base, name], capture_output=True, text=True).stdout
            if found != wanted:
                differ += 1
                print(f"{name}: the program {found!r}, wanted {wanted!r}", file=sys.stderr)
            shutil.rmtree(os.path.join(base, name))
    print(f"long_rings: {len(folders)} folders, {differ} differences")
    return 1 if differ else 0


sys.exit(main())
