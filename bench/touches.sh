#!/usr/bin/env bash
# `opening_match::touches` over the rows of three folders: the 100,000 features of `folder.py`, and the grid and the hall of `doors.py`;
# beside Boost.Geometry's R-tree over the same rows. Processor times of a call, from runs with one call and with twenty more, the least
# of three in turns; what else the program does is reading the folder. Wants the kit (rt), python3, g++ and Debian's libboost-dev. The
# first build proves some twenty crates and takes a while.
. "$(dirname "$0")/begin.sh"
. bench/lay_out.sh
need rt python3 g++ /usr/include/boost/geometry.hpp:libboost-dev
python3 bench/folder.py "$work/venue"
python3 bench/doors.py "$work/venue"
g++ -O3 -DNDEBUG -std=c++17 -o "$work/touches" bench/touches.cpp

# A repository of its own, with a program that times the call.
lay_out time_touches opening_match venue_folder venue_ports test_station imdf_read ring_rules
add_part sound_reading
build_program "$work/venue/grid" 1

# The tolerance is what the program's settings have.
for name in sound grid hall; do
    python3 bench/ground_rows.py "$work/venue/$name" >"$work/$name.rows"
    told=$(python3 bench/time_calls.py 20 "$built $work/venue/$name" "$work/touches $work/$name.rows 1000")
    echo "$name: $told"
    read -r _ ours _ _ theirs _ _ ratio _ <<<"$told"
    case $name in hall) wanted='at most 4' ;; *) wanted='at most 1.5' ;; esac
    row "touches, $name" "$ours ms" "Boost $theirs ms" "${ratio%;}" "$wanted"
done
