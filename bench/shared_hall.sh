#!/usr/bin/env bash
# `shared_hall` over the venue of `levels.py` with 50 levels: 1, 2 and 4 seats at once, each of which closes a lift of its own and opens it
# again a hundred thousand times; beside it the same of plain marks under a lock, copied at each change, without a history. Then the longest
# wait of a question for the version at 1 and at 3 seats while one more seat publishes the folder of `folder.py` again and again for five
# seconds, and while it rests. Wants the kit (rt), python3, and four processors with nothing else to do. The first build proves some thirty
# crates and takes a while.
. "$(dirname "$0")/begin.sh"
. bench/lay_out.sh
need rt python3
python3 bench/levels.py 50 "$work/base"
python3 bench/folder.py "$work/large"

# A repository of its own, with a program that changes and asks.
lay_out time_hall shared_hall test_station left_right logbook crossbeam_utils atomic_table core
add_part opening
first=00000000-0000-4000-8000-00000000
lifts="${first}5350 ${first}5453 ${first}5556 ${first}5659"
folder="$work/base/levels"
build_program "$folder" turn 1 1 $lifts
for turn in 1 2 3; do
    for seats in 1 2 4; do
        for kind in turn lock; do
            echo "$kind $seats $("$built" "$folder" $kind $seats 100000 $lifts)"
        done
    done
    for seats in 2 4; do
        for kind in publish rest; do
            echo "$kind $seats $("$built" "$folder" $kind $seats 5 "$work/large" sound)"
        done
    done
done >"$work/times"
python3 bench/sum_seats.py "$work/times"
