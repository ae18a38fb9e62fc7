#!/usr/bin/env python3
"""Has refused_memory.py try stand-ins for the program (stand_in.c), one without a fault and one with each of those below, which it must find.

usage: refused_faults.py
It prints one line, and ends with status 1 where a fault isn't found, or one is where there is none. Where there is no C compiler it says so.
"""
import os
import re
import shutil
import subprocess
import sys
import tempfile

HERE = os.path.dirname(os.path.abspath(__file__))
# What a stand-in does wrong, and what must be said of it.
FAULTS = [
    ("nothing", ""),
    ("a change is made before there is memory for it, and answered 503", "^session, REFUSE=.* due is "),
    ("an accepted change whose reply finds no memory is answered 503", "^session, REFUSE=.* due is "),
    ("want of memory for the words ends with status 2", "^price, REFUSE=1: status 2"),
    ("a reply is cut short, and the session goes on", "^session, REFUSE=.* replies there is b'HTTP"),
    ("want of memory ends by a signal", "^session, REFUSE=.*status -6"),
    ("the closing line counts a change that wasn't made", "^refused_memory: .*changes 1"),
    ("a session ends at a question for which there is nothing to read", r"^session, REFUSE=.*: status 4 behind \d+ replies, in place of"),
    ("a change that is answered 503 is kept in the journal", r"^session over a journal, REFUSE=.*: behind \d+ replies and status 0 the next start "),
    ("a journal is written though memory runs out before anything is served", "^session over a journal, REFUSE=.*: before anything was served "),
]


def main():
    if not shutil.which("cc"):
        print("refused_faults: skipped, since there is no cc")
        return 0
    differ = 0
    with tempfile.TemporaryDirectory() as folder:
        program = os.path.join(folder, "stand_in")
        for number, (name, said) in enumerate(FAULTS):
            subprocess.run(["cc", "-O2", f"-DFAULT={number}", "-o", program, os.path.join(HERE, "stand_in.c")], check=True)
            ran = subprocess.run(
                [sys.executable, os.path.join(HERE, "refused_memory.py")], capture_output=True, text=True, env=dict(os.environ, VENUE=program)
            )
            if ran.returncode != (1 if said else 0) or not re.search(said, ran.stderr, re.M):
                differ += 1
                print(f"{name}: status {ran.returncode}, {ran.stdout}{ran.stderr}", file=sys.stderr)
    print(f"refused_faults: {len(FAULTS) - 1} faults planted, {differ} differences")
    return 1 if differ else 0


sys.exit(main())
