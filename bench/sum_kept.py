"""Prints how many changes a second seats of a hall make that keeps a journal, beside the rows of SQLite, and how many questions are asked beside
changes with a journal and without, the most of each.

usage: sum_kept.py FILE   (lines of what kept_hall.sh writes: turn or ask, kept or free, seats, changes, refused changes, questions, seconds, bytes
that the journal got longer; and rows, threads, rows, seconds)
"""
import sys

from table import row

# The bytes of a closure or a reopening in a journal.
RECORD = 21
changes, rows, questions, beside = {}, {}, {}, {}


def keep(best, key, rate):
    best[key] = max(best.get(key, 0), rate)


for line in open(sys.argv[1], encoding="utf-8"):
    what, *words = line.split()
    if what == "rows":
        threads, count, seconds = words
        keep(rows, int(threads), int(count) / float(seconds))
        continue
    kind, seats, made, refused, asked, seconds, grown = words
    assert int(made) > 0 and int(refused) == 0 and int(grown) == (RECORD * int(made) if kind == "kept" else 0), line
    if what == "turn":
        keep(changes, int(seats), int(made) / float(seconds))
    else:
        keep(questions, (kind, int(seats) - 1), int(asked) / float(seconds))
        keep(beside, (kind, int(seats) - 1), int(made) / float(seconds))
for seats, ours in sorted(changes.items()):
    theirs = rows[seats]
    print(f"{seats} at once: {ours:,.0f} changes a second, SQLite {theirs:,.0f} rows, ratio {ours / theirs:.2f}")
    row(f"kept changes, {seats} seats", f"{ours:,.0f} a second", f"SQLite {theirs:,.0f}", ours / theirs, "at least 0.75")
for asking in sorted({asking for _, asking in questions}):
    kept, free = questions["kept", asking], questions["free", asking]
    most = f"{beside['kept', asking]:,.0f} changes a second, without a journal {beside['free', asking]:,.0f}"
    print(f"{asking} asking: {kept:,.0f} questions a second beside kept changes, {free:,.0f} without a journal, ratio {kept / free:.2f}; at most {most}")
    row(f"version beside kept changes, {asking} asking", f"{kept:,.0f} a second", f"without a journal {free:,.0f}", kept / free, "at least 0.95")
