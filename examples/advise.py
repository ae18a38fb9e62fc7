#!/usr/bin/env python3
"""Tells what no rule forbids and an operator should know of the venue's folder BASE/FOLDER, which it changes in nothing: a line each, with the
kind of advice, the feature by file, place, identifier and name, what is amiss, and what to do. docs/RULES.md has the kinds. Of a folder
that `check` rejects it tells each finding in words.

usage: advise.py BASE FOLDER [PROFILE] [--json]
       advise.py --scale LATITUDE
Ways are those of the profile, `wheelchair` where none is named. The second form prints kx and ky for the settings of a venue at a
latitude in degrees. The program is that of the variable VENUE, else the launcher ./venue.
Status 0 without advice, 1 with some, 2 where the folder is rejected or the words, the settings or a file stop it.
"""
import gc
import json
import os
import subprocess
import sys
import time
import tomllib

sys.dont_write_bytecode = True  # so that a clone stays as it is

from advice import drawn, findings, plain
from advice.folder import Folder, flags_of
from advice.kinds import KINDS
from advice.led import Led, Visitors
from advice.scale import lines
from advice.table import tables_of

HERE = os.path.dirname(os.path.abspath(__file__))
PROGRAM = os.environ.get("VENUE") or os.path.join(HERE, "..", "venue")
# So many lines of one kind are printed; --json has all.
MOST_LINES = 100


def progress(what, started=time.monotonic()):
    """Who waits at a terminal is told what is being done."""
    if sys.stderr.isatty():
        print(f"advise: {time.monotonic() - started:5.1f} s, {what}", file=sys.stderr)


def all_of(program, base, name, profile):
    """All advice on an accepted folder."""
    return advice_of(program, Folder(base, name), profile)


def touching_of(folder, table):
    """The units that each opening touches, as the table has them for who may go everywhere."""
    found = {}
    for unit, members in table.areas.items():
        for member in members:
            it = folder.get(table.nodes[member])
            if it.kind == "opening":
                found.setdefault(it.id, []).append(unit)
    return found


def advice_of(program, folder, profile):
    """All advice, in the order of the kinds, then of the files."""
    progress("asking for the links")
    table, whole = tables_of(program, folder, profile)
    touching = touching_of(folder, whole)
    progress("looking at what is drawn")
    drawing = drawn.Drawing(folder)
    doors = list(drawn.entrances(drawing, touching))
    far = list(drawn.far_openings(drawing, touching))
    rides = plain.Rides(folder, touching)
    found = [*plain.across_levels(folder, rides), *plain.lifts_without_ride(folder, rides), *plain.scale(folder), *far, *drawn.thin(drawing)]
    found += [*plain.dates(folder, time.strftime("%Y-%m-%d")), *plain.unnamed(folder, doors)]
    progress(f"following the ways for {profile}")
    led = Led(folder, profile, table, touching, doors)
    found += [*led.unreachable({it.feature.id for it in far}), *led.one_way(), *Visitors(led).advice(), *led.closings()]
    progress(f"{len(found)} lines")
    return sorted(found, key=lambda it: (KINDS.index(it.kind), it.feature.kind, it.feature.index))


def told(folder, it):
    name = folder.named(it.feature)
    return f'{it.kind}: {it.feature.file} {it.feature.index} {it.feature.id}{f" {json.dumps(name, ensure_ascii=False)}" if name else ""}: {it.says}. What to do: {it.mend}.'


def row(folder, feature):
    return {"file": feature.file, "index": feature.index, "id": feature.id, "name": folder.named(feature)}


def as_text(folder, found):
    out, counts = [f"advice {len(found)}"], dict.fromkeys(KINDS, 0)
    for it in found:
        counts[it.kind] += 1
        out += [told(folder, it)] if counts[it.kind] <= MOST_LINES else []
    out += [f"{kind}: {count - MOST_LINES} more, which --json prints too" for kind, count in counts.items() if count > MOST_LINES]
    return "\n".join(out)


def as_json(folder, profile, found):
    rows = [
        {"kind": it.kind, "case": it.case, **row(folder, it.feature), "says": it.says, "mend": it.mend, "others": [row(folder, o) for o in it.others]}
        for it in found
    ]
    return json.dumps({"profile": profile, "advice": rows}, ensure_ascii=False, indent=1)


def advise(base, name, profile, is_json):
    """What is printed, and the status."""
    progress("asking for a check")
    done = subprocess.run([PROGRAM, "check", base, name], stdout=subprocess.PIPE)
    lines = done.stdout.decode().splitlines()
    if done.returncode != 0 or not lines:
        report = findings.Report(base, name, lines, done.returncode)
        return report.as_json() if is_json else report.as_text(), 2
    progress("reading the folder")
    folder = Folder(base, name)
    if flags_of(folder.settings, profile) is None:
        names = ["walk", "wheelchair"] + [it["name"] for it in folder.settings.get("profile", [])]
        why = f"no such profile {profile}; there are: {' '.join(names)}"
        return json.dumps({"stopped": why}) if is_json else why, 2
    found = advice_of(PROGRAM, folder, profile)
    return (as_json(folder, profile, found) if is_json else as_text(folder, found)), 1 if found else 0


def scale(words):
    try:
        latitude = float(words[0]) if len(words) == 1 else 91
    except ValueError:
        latitude = 91
    if not abs(latitude) <= 90:
        print("venue: a latitude is a number of degrees from -90 to 90, as `./venue scale 48.14`", file=sys.stderr)
        return 2
    print(lines(latitude), end="")
    return 0


def main(words):
    if words[:1] == ["--scale"]:
        return scale(words[1:])
    is_json = "--json" in words
    words = [word for word in words if word != "--json"]
    if len(words) not in (2, 3) or any(word.startswith("--") for word in words):
        print(__doc__, file=sys.stderr)
        return 2
    try:
        text, status = advise(words[0], words[1], words[2] if len(words) == 3 else "wheelchair", is_json)
    except (OSError, tomllib.TOMLDecodeError) as error:
        print(f"venue: {error}", file=sys.stderr)
        return 2
    sys.stdout.buffer.write(text.encode() + b"\n")
    return status


if __name__ == "__main__":
    # What is read stays until the end, so nothing is gained by looking for what could be let go: it took two thirds of the time.
    gc.disable()
    sys.exit(main(sys.argv[1:]))
