#!/usr/bin/env python3
"""Compares what `./venue advise` tells: of a small venue that is changed once for each kind of advice, and mended; of the folders of
examples/ as they are, and of the arcade when all is mended, also where ways go round walls; of made venues, every other with walls in rooms, with a plain search; and that each broken folder is told in words
that name what is wrong.

usage: advise.py [PROGRAM [VENUES]]   (without PROGRAM the launcher ./venue, which builds the program if need be; 1,000 venues)
It prints a line for each difference and one at the end, and ends with status 1 at a difference.
"""
import itertools
import json
import multiprocessing
import os
import re
import subprocess
import sys
import tempfile

sys.dont_write_bytecode = True
TOP = os.path.join(os.path.dirname(os.path.abspath(__file__)), "..")
PROGRAM = os.path.abspath(sys.argv[1]) if len(sys.argv) > 1 else os.path.join(TOP, "crates", "venue_cli", "out", "venue_cli")
VENUES = int(sys.argv[2]) if len(sys.argv) > 2 else 1_000

# After the line on compiled files.
import advice_broken
import advice_cases
import advice_search


def run(*words):
    """The status and what is printed, with what went wrong if something did."""
    done = subprocess.run([sys.executable, os.path.join(TOP, "examples", "advise.py"), *words], capture_output=True, env=os.environ | {"VENUE": PROGRAM})
    return done.returncode, done.stdout.decode(), done.stderr.decode()


def advised(base, folder, profile="wheelchair"):
    """Kind, case and identifier of all advice, sorted."""
    status, text, error = run(base, folder, profile, "--json")
    found = json.loads(text).get("advice") if text.startswith("{") else None
    if error or found is None or status != (1 if found else 0):
        return [("status", status, error or text)]
    return sorted((it["kind"], it["case"], it["id"]) for it in found)


def differs(word):
    """What is wrong with a case, None where nothing is."""
    change, wanted, mend = advice_cases.CASES[word]
    venue = advice_cases.sound()
    with tempfile.TemporaryDirectory() as base:
        change(venue)
        venue.write(base)
        found = advised(base, "venue")
        wanted = sorted((kind, case, venue.id(it)) for kind, case, it in wanted)
        if found != wanted:
            return f"{word}: {found} and not {wanted}"
        mend(venue)
        venue.write(base)
        found = advised(base, "venue")
        return f"{word}, mended: {found}" if found else None


def station_differs(folder, profile, wanted):
    found = [(kind, case, it[-3:]) for kind, case, it in advised(os.path.join(TOP, "examples"), folder, profile)]
    return None if found == sorted(wanted) else f"{folder}: {found}"


# The settings of examples/ have 10,000,000 for both axes, and the station has names for its occupants alone.
STATION = [("scale", "venue", "002")] + [("unnamed", "entrance", str(k)) for k in range(107, 113)]
STATION += [("unnamed", case, str(k)) for case, k in (("lift", 301), ("stairs", 302), ("lift", 401), ("stairs", 402))]
# Without the lift a wheelchair has the ramp alone: its doors, its relationship and its units.
NOLIFT = [it for it in STATION if it[1] != "lift"] + [("closings", "opening", "104"), ("closings", "opening", "204")]
NOLIFT += [("closings", "passage", "024")]


# By kind, case and the last digits of the identifier; docs/RULES.md says of each when it is told.
ARCADE = [("across levels", "relationship", "602"), ("unreachable", "part", "502"), ("not for visitors", "over", "504"), ("not for visitors", "way", "207")]
ARCADE += [("far openings", "opening", "204"), ("unnamed", "equal", "104"), ("unnamed", "stairs", "112")]
# The gate in the east has a revolving door, so a wheelchair has the one in the west alone; and one lift, on whose relationship nothing hangs,
# since the amenity leads past it.
ARCADE_WHEELCHAIR = ARCADE + [("closings", "opening", str(k)) for k in (200, 208, 211)] + [("closings", "passage", str(k)) for k in (107, 111)]
ARCADE_WALK = ARCADE + [("not for visitors", "way", str(k)) for k in (210, 213)]


def arcade_differs(profile, wanted):
    found = [(kind, case, it[-3:]) for kind, case, it in advised(os.path.join(TOP, "examples", "arcade"), "hall", profile)]
    return None if sorted(found) == sorted(wanted) else f"arcade: {found}"


def mended_differs():
    """What is still told of the arcade when all advice was followed, None where nothing is."""
    with tempfile.TemporaryDirectory() as base:
        files = advice_broken.Files(os.path.join(base, "base"))
        advice_broken.mend(files)
        found = advised(files.base, "hall")
        return f"arcade, mended: {found}" if found else None


def broken_differs(word):
    """What is wrong with the words on a broken folder, None where nothing is."""
    change, words, lines = advice_broken.CASES[word]
    with tempfile.TemporaryDirectory() as base:
        files = advice_broken.Files(os.path.join(base, "base"))
        change(files)
        status, text, error = run(files.base, "hall")
        wrong = error or (None if status == 2 else f"status {status}: {text}") or advice_broken.wrong(text, words, lines)
        is_json = isinstance(json.loads(run(files.base, "hall", "--json")[1]), dict)
        return f"{word}: {wrong}" if wrong or not is_json else None


def walls_differ(folder, profile):
    """Whether of a folder in which one walks round corners anything is told but its scale."""
    found = advised(os.path.join(TOP, "examples", "walls"), folder, profile)
    return None if [it[:2] for it in found] == [("scale", "venue")] else f"walls, {folder}: {found}"


def page_differs():
    """Whether docs/RULES.md has the kinds that there are, in their order."""
    with open(os.path.join(TOP, "docs", "RULES.md"), encoding="utf-8") as file:
        told = re.findall(r"(?m)^\| ([a-z ]+) \|", file.read().partition("\n| kind |")[2])
    from advice.kinds import CASES, KINDS

    return None if told == KINDS == list(dict.fromkeys(kind for kind, _ in CASES)) else f"docs/RULES.md has the kinds {told}"


def main():
    tasks = [(differs, (word,)) for word in advice_cases.CASES] + [(station_differs, ("station", "wheelchair", STATION))]
    tasks += [(station_differs, ("station", "walk", STATION)), (station_differs, ("nolift", "wheelchair", NOLIFT))]
    tasks += [(arcade_differs, ("wheelchair", ARCADE_WHEELCHAIR)), (arcade_differs, ("walk", ARCADE_WALK)), (page_differs, ()), (mended_differs, ())]
    tasks += [(walls_differ, its) for its in itertools.product(("ell", "ell_room", "concourse"), ("wheelchair", "walk"))]
    tasks += [(broken_differs, (word,)) for word in advice_broken.CASES]
    tasks += [(advice_search.differ, (PROGRAM, first, min(VENUES, first + 20))) for first in range(0, VENUES, 20)]
    if len(sys.argv) < 2:
        subprocess.run([os.path.join(TOP, "venue"), "build"], check=True)
    with multiprocessing.Pool(4) as pool:
        wrong = [it for it in [task.get() for task in [pool.apply_async(*task) for task in tasks]] if it]
    for line in wrong:
        print(line, file=sys.stderr)
    print(f"advise: {len(advice_cases.CASES)} cases and as many mended, {len(advice_broken.CASES)} broken folders, {VENUES} made venues, {len(wrong)} differences")
    return 1 if wrong else 0


if __name__ == "__main__":
    sys.exit(main())
