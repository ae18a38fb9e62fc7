#!/usr/bin/env bash
# `unit_sight::Sights::of` over rooms made by arithmetic: from shape and places to the pairs that are joined; and `next` of what is made.
# Beside it in C++ the same trees and the same exact test, all pairs by all edges, and where GEOS is installed (Debian's libgeos-dev) a
# prepared polygon that is asked of segments whether it covers them. Wants the kit (rt), python3 and g++; the first build proves six crates.
. "$(dirname "$0")/begin.sh"
. bench/lay_out.sh
need rt python3 g++
mkdir "$work/rooms"
python3 bench/make_rooms.py "$work/rooms"
geos=()
[ -e /usr/include/geos_c.h ] && geos=(-DWITH_GEOS -lgeos_c)
g++ -O3 -DNDEBUG -std=c++17 -o "$work/sight" bench/sight.cpp "${geos[@]}"
[ -n "${geos-}" ] || echo 'GEOS: skipped, since there is no /usr/include/geos_c.h, which Debian'\''s libgeos-dev has'

# A repository of its own, with a program that makes the values.
lay_out time_sight unit_sight test_figures
build_program "$work/rooms/serpentine" of 1

# The processor milliseconds that a program takes for so many values less those for none, which are those of reading the room. What it
# prints behind the first word goes to a file. usage: busy OUT ROUNDS PROGRAM ROOM WORD
busy() {
    local TIMEFORMAT='%3U %3S' out=$1 rounds=$2
    shift 2
    { time "$@" 0 >/dev/null; } 2>"$work/none"
    { time "$@" "$rounds" >"$work/said"; } 2>"$work/all"
    cut -d ' ' -f 2- "$work/said" >"$work/$out"
    awk -v rounds="$rounds" '{ n[FILENAME] = $1 + $2 } END { print 1000 * (n[ARGV[2]] - n[ARGV[1]]) / rounds }' "$work/none" "$work/all"
}

least() {
    sort -n | head -n 1
}

same() { # NAME OUT OUT
    cmp -s "$work/$2" "$work/$3" || { echo "$1: the answers differ: $(cat "$work/$2"); $(cat "$work/$3")"; exit 1; }
}

over() {
    awk -v ours="$1" -v theirs="$2" 'BEGIN { printf "%.2f", ours / theirs }'
}

# usage: room NAME ROUNDS TITLE WANTED-OF-TREES WANTED-OF-EDGES
room() {
    local file=$work/rooms/$1 turn ours theirs ratio
    : >"$work/ours"
    : >"$work/theirs"
    for turn in 1 2 3; do
        busy our_told "$2" "$built" "$file" of >>"$work/ours"
        busy their_told "$2" "$work/sight" "$file" trees >>"$work/theirs"
        same "$1" our_told their_told
    done
    ours=$(least <"$work/ours")
    theirs=$(least <"$work/theirs")
    ratio=$(over "$ours" "$theirs")
    echo "$1: ours $ours ms, trees in C++ $theirs ms, ratio $ratio"
    row "sight, $3" "$ours ms" "C++ $theirs ms" "$ratio" "at most $4"
    theirs=$(busy their_told 1 "$work/sight" "$file" edges)
    same "$1, all edges" our_told their_told
    ratio=$(over "$ours" "$theirs")
    echo "$1: all edges in C++ $theirs ms, ratio $ratio"
    row "sight, $3, all edges" "$ours ms" "C++ $theirs ms" "$ratio" "${5:+at most $5}"
    if [ -n "${geos-}" ]; then
        # Of each room at most 20,000 pairs are asked, spread over all, and the time is scaled.
        theirs=$("$work/sight" "$file" geos 20000 | cut -d ' ' -f 1)
        ratio=$(over "$ours" "$theirs")
        echo "$1: GEOS $theirs ms, ratio $ratio"
        row "sight, $3, covered" "$ours ms" "GEOS $theirs ms" "$ratio" 'at most 1'
    fi
    # The least of so many times by the clock, each far shorter than a slice of the processor.
    "$built" "$file" next 150 >"$work/our_walks"
    "$work/sight" "$file" next 150 >"$work/their_walks"
    cut -d ' ' -f 2- "$work/our_walks" >"$work/our_told"
    cut -d ' ' -f 2- "$work/their_walks" >"$work/their_told"
    same "$1, next" our_told their_told
    ours=$(awk '{ printf "%.1f", $1 / $2 }' "$work/our_walks")
    theirs=$(awk '{ printf "%.1f", $1 / $2 }' "$work/their_walks")
    ratio=$(over "$ours" "$theirs")
    echo "$1: next $ours ns, C++ $theirs ns, ratio $ratio"
    row "next, $3" "$ours ns" "C++ $theirs ns" "$ratio" ''
}

room rough_hall 1 'rough hall' 1.5 0.3
room columns 1 'hall with 20 columns' 1.5 0.5
room comb_29 1 'comb of 29 bays' 1.5 0.7
room serpentine 5 serpentine 1.5 0.1
room comb_499 1 'comb of 499 bays' 1.5 0.15
room comb_turned 1 'comb turned by 22.5 degrees' '1.5, and 5 s' ''
room rooms 1 '25,000 rooms' 1.5 ''
uptime
