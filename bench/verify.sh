#!/usr/bin/env bash
# `verify` over 41,000 nodes and 2,000,000 links with a true certificate, beside a plain loop over the same rows in C++.
# The time after reading is that of `verify` less that of `price` with a walk of one step, and that of the yardstick less
# that of its reading alone. Wants g++ and python3.
. "$(dirname "$0")/begin.sh"
need g++ python3
need_program
g++ -O2 -std=c++17 -o "$work/make_table" bench/make_table.cpp
g++ -O2 -std=c++17 -o "$work/check_answer" bench/check_answer.cpp
mkdir "$work/base"
"$work/make_table" "$work/base" 41000 2000000 1
"$work/check_answer" make "$work/base" 20500
wanted=$("$work/check_answer" check "$work/base")
found=$("$program" verify "$work/base")
[ "$wanted" = "$found" ] || { echo "the answers differ: $wanted, $found"; exit 1; }
echo "$found, $(grep -c '^at ' "$work/base/answer.txt") potentials; wanted: a ratio after reading of at most 2"
python3 bench/measure.py 5 verify "$program verify $work/base" check "$work/check_answer check $work/base" \
    price "$program price $work/base" read "$work/check_answer read $work/base" array "$work/check_answer array $work/base" |
    awk '{ print; sub(":", "", $1); time[$1] = $2 }
         END {
             ours = time["verify"] - time["price"]; searched = time["check"] - time["read"]; indexed = time["array"] - time["read"]
             printf "after reading: verify %.3f s, check %.3f s, ratio %.2f\n", ours, searched, ours / searched
             printf "an array of potentials takes %.3f s after reading\n", (indexed > 0) ? indexed : 0
         }' | tee "$work/told"
row 'verify after reading, 2,000,000 links' "$(awk '/^after/ { print $4 " s" }' "$work/told")" "C++ $(awk '/^after/ { print $7 " s" }' "$work/told")" \
    "$(awk '/^after/ { print $10 }' "$work/told")" 'at most 2'
