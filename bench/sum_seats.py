"""Prints how many changes a second seats of one hall make, the most of each, and the longest waits of questions beside publications.

usage: sum_seats.py FILE   (lines of what shared_hall.sh writes: turn, lock, publish or rest, seats, changes, seconds, questions, longest, late)
"""
import sys

from table import row

rates, asked = {}, {}
for line in open(sys.argv[1], encoding="utf-8"):
    kind, seats, made, seconds, questions, longest, late = line.split()
    key = kind, int(seats)
    if kind in ("turn", "lock"):
        assert int(made) == 200_000 * int(seats), line
        rates[key] = max(rates.get(key, 0), int(made) / float(seconds))
    else:
        assert (int(made) > 0) == (kind == "publish"), line
        asked.setdefault(key, []).append((int(made), int(questions), int(longest) / 1e3, int(late)))
for seats in 1, 2, 4:
    hall, lock = rates["turn", seats], rates["lock", seats]
    print(f"{seats} at once: {hall:,.0f} changes a second, marks under a lock {lock:,.0f}, ratio {hall / lock:.2f}")
    row(f"changes, {seats} seats", f"{hall:,.0f} a second", f"marks under a lock {lock:,.0f}", hall / lock, "at least 0.5")
for (kind, seats), runs in sorted(asked.items()):
    made, questions, longest, late = zip(*runs)
    waits = ", ".join(f"{wait:.2f}" for wait in longest)
    print(f"{kind}, {seats - 1} asking: {sum(made)} published, {sum(questions):,} questions, longest {waits} ms, {sum(late)} above 5 ms")
    found = f"{max(longest):.2f} ms, {sum(late)} of {sum(questions):,} above 5 ms"
    row(f"the longest wait, {seats - 1} asking, {kind}", found, wanted="none above 5 ms" if kind == "publish" else "")
