#!/usr/bin/env bash
# `stop_order::best` over a thousand tables of eight stops, beside plain Rust: the same table of sums, one from the front, and all 40,320 orders.
# Prints microseconds a table, the least of three times in turns. Then tours of eight stops over 200 levels, asked of the program, beside nine searches
# that reach every node. Wants the kit (rt), python3 and rustc 1.82 or later.
. "$(dirname "$0")/begin.sh"
. bench/lay_out.sh
need rt python3 rustc
need_program
rustc --edition 2021 -O -C codegen-units=1 -o "$work/time_tours" bench/time_tours.rs

# A repository of its own, with a program that times the call.
lay_out time_tours stop_order test_order
build_program

for _ in 1 2 3; do
    "$built" >>"$work/ours"
    "$work/time_tours" >"$work/theirs"
    for yardstick in table front orders; do
        read -r line
        echo "$line" >>"$work/$yardstick"
    done <"$work/theirs"
done
[ "$(cut -d' ' -f2 "$work/ours" "$work/table" "$work/front" | sort -u | wc -l)" = 1 ] || { echo "tour.sh: the sums differ" >&2; exit 1; }
first() { sort -n "$1" | head -n 1 | cut -d' ' -f1; }
told() { # YARDSTICK WORDS WANTED
    local told ours theirs ratio
    told=$(awk -v ours="$(first "$work/ours")" -v theirs="$(first "$work/$1")" 'BEGIN { printf "%.2f %.2f %.3g", ours, theirs, ours / theirs }')
    read -r ours theirs ratio <<<"$told"
    echo "best of eight stops $ours µs, $2 $theirs µs, ratio $ratio"
    row 'the best order of eight stops' "$ours µs" "$2 $theirs µs" "$ratio" "$3"
}
told table 'the same table in plain Rust' 'at most 1.5'
told front 'a table from the front' ''
told orders 'all orders' ''

python3 bench/levels.py 200 "$work/base"
echo 'staff_keys = ["desk-key-1"]' >>"$work/base/venue.toml"
python3 bench/tour_requests.py "$program" "$work/base" 200
