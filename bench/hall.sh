#!/usr/bin/env bash
# `board_copies` over the venue of `levels.py` with 50 levels: 1, 2 and 4 readers that ask two million times for the version each, then two
# thousand times for the way from the lowest level to the highest, while a writer closes and reopens a lift a hundred times a second;
# beside it the same over one lock. Then the peak memory of 10 and of 1,000 publications. Wants the kit (rt), python3, and four processors
# with nothing else to do. The first build proves some thirty crates and takes a while.
. "$(dirname "$0")/begin.sh"
. bench/lay_out.sh
need rt python3
python3 bench/levels.py 50 "$work/base"

# A repository of its own, with a program that asks.
lay_out time_copies board_copies test_station left_right logbook crossbeam_utils atomic_table core
add_part opening
lift=00000000-0000-4000-8000-000000005350
ways="00000000-0000-4000-8000-000000005250 00000000-0000-4000-8000-000000010346"
folder="$work/base/levels"
build_program "$folder" turn 1 $lift
for kind in copies lock; do
    for readers in 1 2 4; do
        for turn in 1 2 3; do
            echo "$kind $readers version $("$built" "$folder" $kind $readers 2000000 $lift)"
            echo "$kind $readers route $("$built" "$folder" $kind $readers 2000 $lift $ways)"
        done
    done
done >"$work/times"
python3 bench/sum_readers.py "$work/times"
python3 bench/measure.py 1 "10 publications" "$built $folder turn 10 $lift" "1,000 publications" "$built $folder turn 1000 $lift" >"$work/told"
cat "$work/told"
{ read -r few; read -r many; } < <(sed -n 's/.* peak \([0-9]* MiB\).*/\1/p' "$work/told")
row 'peak of 1,000 publications' "$many" "10 publications $few" '' 'at most 8 MiB more'
