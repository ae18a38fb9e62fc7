#!/usr/bin/env bash
# `links` over the venue of `levels.py`, 200 levels where no number is given, for `walk`: processor time and peak memory, less the time of
# `check` over the same folder; beside a C++ program that makes the same text from rows of members, lengths computed. Both texts are
# compared. Wants the kit (rt), python3 and g++. The first build proves some twenty crates and takes a while.
. "$(dirname "$0")/begin.sh"
. bench/venue_calls.sh
need rt python3 g++
need_program
levels=${1:-200}
python3 bench/levels.py "$levels" "$work/base"
g++ -O3 -DNDEBUG -std=c++17 -o "$work/write_links" bench/write_links.cpp
build_calls
"$built" "$work/base/levels" >"$work/rows"

"$program" links "$work/base" levels walk >"$work/ours"
"$work/write_links" "$work/rows" >"$work/theirs" 2>/dev/null
cmp "$work/ours" "$work/theirs"
echo "$(grep -c '^link' "$work/ours") links, $(stat -c %s "$work/ours") bytes"
python3 bench/measure.py 5 links "$program links $work/base levels walk" check "$program check $work/base levels" >"$work/told"
cat "$work/told"
theirs=$(for _ in 1 2 3 4 5; do "$work/write_links" "$work/rows" 2>&1 >/dev/null; done | sort -n | head -n 1)
echo "milliseconds of the program in C++, from rows to text: $theirs"
read -r ours ratio < <(awk -v theirs="$theirs" '{ sub(":", "", $1); busy[$1] = $(NF - 1) }
    END { ours = (busy["links"] - busy["check"]) * 1000; printf "%.0f %.2f\n", ours, ours / theirs }' "$work/told")
row "links less check, $levels levels" "$ours ms" "C++ $theirs ms" "$ratio" 'at most 2'
