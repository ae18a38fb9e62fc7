"""Prints what `check` of a folder takes beside `wc` of its bytes, by time and by memory, and what it found.

usage: time_hostile.py PROGRAM BASE TITLE   (the folder is BASE/folder; TITLE says what it is)
Both run in turns, three times, or once where that takes a minute. `check` has 300 seconds and 6 GiB of addresses; where it is stopped there, the
time and the memory of then are told, and what stopped it.
"""
import os
import shlex
import sys

from measure import run
from table import row

SECONDS, ADDRESSES = 300, 6 << 30
ROUNDS, LONG = 3, 60
STOPS = {124: f"> {SECONDS} s", 4: f"> {ADDRESSES >> 30} GiB"}


def main(program, base, title):
    folder, told = os.path.join(base, "folder"), os.path.join(base, "told")
    size = sum(os.path.getsize(os.path.join(folder, name)) for name in os.listdir(folder))
    limits = f"timeout {SECONDS} prlimit --as={ADDRESSES}"
    check = f"{limits} {shlex.quote(program)} check {shlex.quote(base)} folder >{shlex.quote(told)}"
    count = f"cat {shlex.quote(folder)}/* | wc"
    ours, theirs = [], []
    while len(ours) < ROUNDS and sum(it[1] for it in ours) < LONG:
        ours.append(run(check))
        theirs.append(run(count))
    statuses = {it[0] for it in ours}
    if statuses - {0, 1} - set(STOPS) or {it[0] for it in theirs} != {0}:
        sys.exit(f"{title}: statuses {statuses}")
    (_, clock, _, busy), (_, wc_clock, _, wc_busy) = ([min(column) for column in zip(*runs)] for runs in (ours, theirs))
    peak = max(it[2] for it in ours) * 1024**2
    with open(told, encoding="utf-8") as file:
        lines = [line.rstrip("\n") for line in file][:2]
    found = "; ".join([STOPS[status] for status in sorted(statuses) if status in STOPS] or lines)
    time_ratio, of_busy, memory_ratio = clock / wc_clock, busy / wc_busy, peak / size
    print(f"{title}: {size} bytes, check {clock:.2f} s, wc {wc_clock:.3f} s, ratio {time_ratio:.1f}", end=", ")
    print(f"processor {busy:.2f} s and {wc_busy:.3f} s, {of_busy:.1f}", end=", ")
    print(f"peak {peak / 1024**2:.0f} MiB, {memory_ratio:.1f} times the bytes; {found}", flush=True)
    row(f"check, {title}", f"{clock:.2f} s", f"wc {wc_clock:.3f} s", time_ratio, "at most 10")
    row("its memory", f"{peak / 1024**2:.0f} MiB", f"bytes {size / 1024**2:.0f} MiB", memory_ratio, "at most 6")


main(*sys.argv[1:])
