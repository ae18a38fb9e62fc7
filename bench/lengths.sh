#!/usr/bin/env bash
# `plane_exact::length_cm` over a million pairs of places within 200 metres, beside plain Rust with a division of 128 bits and
# `u64::isqrt`. Wants the kit (rt) and rustc 1.84 or later. Prints nanoseconds a length, the least of three times in turns.
. "$(dirname "$0")/begin.sh"
. bench/lay_out.sh
need rt rustc
rustc --edition 2021 -O -C codegen-units=1 -o "$work/time_lengths" bench/time_lengths.rs

# A repository of its own, with a program that times the call.
lay_out time_lengths plane_exact test_figures
build_program

for _ in 1 2 3; do
    "$built" >>"$work/ours"
    "$work/time_lengths" >>"$work/theirs"
done
[ "$(cut -d' ' -f2 "$work/ours" "$work/theirs" | sort -u | wc -l)" = 1 ] || { echo "lengths.sh: the sums differ" >&2; exit 1; }
first() { sort -n "$1" | head -n 1 | cut -d' ' -f1; }
told=$(awk -v ours="$(first "$work/ours")" -v theirs="$(first "$work/theirs")" \
    'BEGIN { printf "length_cm %.1f ns, plain Rust %.1f ns, ratio %.2f\n", ours, theirs, ours / theirs }')
echo "$told"
read -r _ ours _ _ _ theirs _ _ ratio <<<"$told"
row 'a length' "$ours ns" "plain Rust $theirs ns" "$ratio" ''
