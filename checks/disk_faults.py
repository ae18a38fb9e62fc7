#!/usr/bin/env python3
"""Has cut.py and killed.py try the program over disks of which each has one of the faults below (disk_calls.c), which they must find within as
many images and kills as in the gate. A disk that leaves out a call, or makes calls in another order, is what a program would be that does so.

usage: disk_faults.py   (the program is the one that VENUE names, or else the one that the launcher ./venue runs, which builds it if need be)
It prints a line for each fault that isn't found and one at the end, and ends with status 1 where there is one. Where there is no C compiler it says
so, and ends with status 0.
"""
import os
import re
import shutil
import subprocess
import sys

HERE = os.path.dirname(os.path.abspath(__file__))
# The longest that a try takes on a busy machine, in seconds.
WAIT = 300
# What is said where a change is lost, where what is closed is none of what may be, and where the file is no journal, or one of no history.
LOST = r"version (\d+) was answered, and \d+ stands"
OTHER = r"cut behind call .* due is one of"
DAMAGED = r"cut behind call .* prints b'(damaged|unfit) \d+"
SPOILT = r"it doesn't listen, and prints '(damaged|unfit) \d+"
# What tries it, the fault's name and what it is, and what must be said of it.
FAULTS = [
    ("cut", "no_first_sync", "the sync behind a record is left out", f"{DAMAGED}|{OTHER}"),
    ("cut", "no_second_sync", "the sync behind a gate that was opened is left out", OTHER),
    ("cut", "no_shut_gate", "the gate in front of a record isn't closed first", f"{DAMAGED}|{OTHER}"),
    ("cut", "no_next_gate", "the gate behind a record isn't written with it", DAMAGED),
    ("cut", "gate_first", "the gate is opened before its record is written", f"{DAMAGED}|{OTHER}"),
    ("cut", "lost_last", "the last write in front of a sync is lost", f"{DAMAGED}|{OTHER}"),
    ("cut", "late_gates", "a change is answered before its gate is opened", OTHER),
    ("killed", "late_gates", "a change is answered before its gate is opened", LOST),
    ("killed", "lost_gates", "a gate now and then isn't opened", LOST),
    ("killed", "lost_writes", "a write now and then isn't made", f"{SPOILT}|{LOST}"),
    ("killed", "other_profiles", "a closing now and then is kept for other profiles", f"{SPOILT}|closed is .* due is one of"),
]


def tried(script, wrong):
    """What comes of a script over a disk that is wrong so."""
    words = [sys.executable, os.path.join(HERE, f"{script}.py"), "--wrong", wrong]
    return subprocess.run(words, capture_output=True, text=True, timeout=WAIT, check=False)


def main():
    if not shutil.which("cc"):
        print("disk_faults: skipped, since there is no cc")
        return 0
    differ = 0
    for script, wrong, name, said in FAULTS:
        ran = tried(script, wrong)
        if ran.returncode != 1 or not re.search(said, ran.stdout):
            differ += 1
            print(f"{script}.py, {name}: status {ran.returncode}, {ran.stdout}{ran.stderr}", file=sys.stderr)
    print(f"disk_faults: {len(FAULTS)} faults planted, {differ} differences")
    return 1 if differ else 0


sys.exit(main())
