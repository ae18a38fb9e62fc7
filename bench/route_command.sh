#!/usr/bin/env bash
# `route` from the first room of the lowest level to the last of the highest, over the venue of `levels.py` with 200 levels where no number
# is given, beside `check` of the same folder, for both profiles: the first ratio less 1 is what a route costs beyond the reading, as a part
# of `check`. Each answer is verified over the table that `links` prints. Wants python3.
. "$(dirname "$0")/begin.sh"
need python3
need_program
levels=${1:-200}
base=$work/base
python3 bench/levels.py "$levels" "$base"
# A level has 102 openings and 103 units, of which those from 1 to 100 are rooms.
unit=$((levels + 1 + levels * 102 + 2 * (levels - 1)))
from=$(printf '00000000-0000-4000-8000-%012d' $((unit + 1)))
to=$(printf '00000000-0000-4000-8000-%012d' $((unit + (levels - 1) * 103 + 100)))
for profile in walk wheelchair; do
    desk=$work/$profile
    mkdir "$desk"
    "$program" links "$base" levels "$profile" >"$desk/links.txt"
    "$program" route "$base" levels "$profile" "$from" "$to" >"$desk/answer.txt"
    echo "$profile: $(grep '^route' "$desk/answer.txt"), $(grep -c '^step' "$desk/answer.txt") steps, $("$program" verify "$desk")"
    python3 bench/measure.py 5 --row "route, $levels levels, $profile" 'at most 1.2' \
        route "$program route $base levels $profile $from $to" check "$program check $base levels"
done
