#!/usr/bin/env bash
# `price` over 400,000 nodes, 4,000,000 links and 100,000 steps, beside plain readers of the same form in C++ and in Rust.
# Wants g++, rustc 1.80 or later and python3.
. "$(dirname "$0")/begin.sh"
need g++ rustc python3
need_program
g++ -O2 -std=c++17 -o "$work/make_table" bench/make_table.cpp
g++ -O2 -std=c++17 -o "$work/read_table" bench/read_table.cpp
rustc --edition 2021 -C opt-level=3 -C codegen-units=1 -o "$work/read_table_rust" bench/read_table.rs
mkdir "$work/base"
"$work/make_table" "$work/base" 400000 4000000 100000
wanted=$("$work/read_table" "$work/base")
in_rust=$("$work/read_table_rust" "$work/base")
found=$("$program" price "$work/base")
[ "$wanted" = "$found" ] && [ "$in_rust" = "$found" ] || { echo "the answers differ: $wanted, $in_rust, $found"; exit 1; }
bytes=$(stat -c %s "$work/base/links.txt")
echo "links.txt: $((bytes / 1048576)) MiB; wanted: a ratio of at most 1.5, a peak of at most $(((bytes + 4000000 * 32 + 400000 * 16) / 1048576 + 64)) MiB"
python3 bench/measure.py 3 --row 'price, 4,000,000 links' 'at most 1.5' venue "$program price $work/base" yardstick "$work/read_table $work/base"
echo "the time of the reader in Rust to that of price; wanted: a ratio of at least 0.95"
python3 bench/measure.py 3 --row 'reader in Rust beside price' 'at least 0.95' rust "$work/read_table_rust $work/base" venue "$program price $work/base"
