"""Prints how many questions a second readers beside each other ask, the most of each kind, and what becomes of it where more ask.

usage: sum_readers.py FILE   (lines of what hall.sh writes: copies or lock, readers, what is asked, questions, seconds)
"""
import sys

from table import row

WANTED = {"version": ("at least 2.5", "at least 3"), "route": ("at least 3", "")}
best = {}
for line in open(sys.argv[1], encoding="utf-8"):
    kind, readers, what, questions, seconds = line.split()
    key = kind, what, int(readers)
    best[key] = max(best.get(key, 0), int(questions) / float(seconds))
for (kind, what, readers), rate in sorted(best.items()):
    print(f"{kind} {what}, {readers} at once: {rate:,.0f} a second")
for what, wanted in WANTED.items():
    one, four, lock = best["copies", what, 1], best["copies", what, 4], best["lock", what, 4]
    print(f"{what}: 4 to 1 {four / one:.2f}, copies to lock at 4 {four / lock:.2f}")
    row(f"{what}, 4 readers", f"{four:,.0f} a second", f"1 reader {one:,.0f}", four / one, wanted[0])
    row("the same", f"{four:,.0f} a second", f"one lock {lock:,.0f}", four / lock, wanted[1])
