#!/usr/bin/env bash
# `restore` over a journal of a million closures and reopenings in turn behind the venue of `levels.py` with 200 levels, beside a program in C++ that reads
# the same bytes into a hash map; over 20 publications of the folder of `folder.py`, beside 20 times `check` of that folder; and the peak memory of these
# beside that of one. Wants the kit (rt), g++ and python3.
. "$(dirname "$0")/begin.sh"
. bench/lay_out.sh
need rt g++ python3
need_program
program=$(realpath "$program")
python3 bench/levels.py 200 "$work/base"
python3 bench/folder.py "$work/large"
lift=$(grep -o '"id":"[^"]*"[^{]*"feature_type":"unit".*"elevator"' "$work/base/levels/unit.geojson" | head -n 1 | cut -d '"' -f 4)
mkdir "$work/journals"
python3 bench/make_journal.py "$work/base/levels" "$work/journals/closures.journal" closures 1000000 "$lift"
python3 bench/make_journal.py "$work/base/levels" "$work/journals/opening.journal" closures 0 "$lift"
python3 bench/make_journal.py "$work/large/sound" "$work/journals/many.journal" publications 20
python3 bench/make_journal.py "$work/large/sound" "$work/journals/one.journal" publications 1
g++ -O3 -o "$work/read_journal" bench/read_journal.cpp

lay_out time_restore journal_restore test_station venue_ports
build_program "$work/journals" opening
# The least of three times: of the closures what is left of restoring them and their venue once the venue alone is taken off.
for _ in 1 2 3; do
    for name in closures opening; do echo "$name $("$built" "$work/journals" $name)"; done
    for name in closures opening; do echo "read_$name $("$work/read_journal" "$work/journals/$name.journal")"; done
done >"$work/times"
awk '{ if (!($1 in a) || $2 < a[$1]) a[$1] = $2 }
    END { ours = a["closures"] - a["opening"]; theirs = a["read_closures"] - a["read_opening"]; printf "%.3f %.3f %.2f\n", ours, theirs, ours / theirs }' \
    "$work/times" >"$work/told"
read -r ours theirs ratio <"$work/told"
echo "a million closures $ours s, a hash map $theirs s, ratio $ratio"
row 'restore of a million closures' "$ours s" "a hash map in C++ $theirs s" "$ratio" 'at most 3, under 2 s'
python3 bench/measure.py 3 --row 'restore of 20 publications' 'at most 1.1' \
    '20 publications' "$built $work/journals many" '20 checks' "sh -c 'for i in 1 2 3 4 5 6 7 8 9 10 11 12 13 14 15 16 17 18 19 20; do $program check $work/large sound; done'"
python3 bench/measure.py 1 '20 publications' "$built $work/journals many" 'one' "$built $work/journals one" >"$work/told"
cat "$work/told"
{ read -r many; read -r one; } < <(sed -n 's/.* peak \([0-9]* MiB\).*/\1/p' "$work/told")
row 'peak of 20 publications' "$many" "one $one" '' 'at most 1.5'
