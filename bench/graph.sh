#!/usr/bin/env bash
# `link_graph::Graph::build` over the venue of `levels.py`, 200 levels where no number is given, beside plain Rust that makes stored rows
# of the printed table, with the reading of the table from memory and without it: the least milliseconds of five builds in each of three
# turns, and the most bytes held while one is made, without what it is made of. Wants the kit (rt), python3, rustc and gcc. The first build
# proves some twenty crates and takes a while.
. "$(dirname "$0")/begin.sh"
. bench/lay_out.sh
need rt python3 rustc gcc
levels=${1:-200}
python3 bench/levels.py "$levels" "$work/base"
rustc --edition 2021 -O -C codegen-units=1 -o "$work/time_rows" bench/time_rows.rs
gcc -O2 -shared -fPIC -o "$work/count_bytes.so" bench/count_bytes.c

# A repository of its own, with a program that times the call.
lay_out time_graph link_graph venue_folder venue_ports test_station imdf_read imdf_refs ring_rules opening_match
add_part sound_reading
build_program "$work/base/levels" 1

# The table of its links, and what each program tells at its marks: before all, after the graph; before all, after the reading,
# after the rows.
LD_PRELOAD=$work/count_bytes.so "$built" "$work/base/levels" 0 >"$work/table" 2>"$work/our_bytes"
LD_PRELOAD=$work/count_bytes.so "$work/time_rows" "$work/table" 0 >/dev/null 2>"$work/their_bytes"
for _ in 1 2 3; do
    "$built" "$work/base/levels" 5 >>"$work/our_times"
    "$work/time_rows" "$work/table" 5 >>"$work/their_times"
done

# usage: least FILE COLUMN
least() { cut -d ' ' -f "$2" "$1" | sort -g | head -n 1; }
# usage: ratio OURS THEIRS
ratio() { python3 -c "print(round($1 / $2, 2))"; }

ours=$(least "$work/our_times" 1) both=$(least "$work/their_times" 1) alone=$(least "$work/their_times" 2)
read -r _ most _ kept < <(sed -n 2p "$work/our_bytes")
read -r _ read_most _ read_kept < <(sed -n 2p "$work/their_bytes")
read -r _ rows_most _ < <(sed -n 3p "$work/their_bytes")
# The rows are made while what was read is still held.
both_most=$((read_most > read_kept + rows_most ? read_most : read_kept + rows_most))
echo "$levels levels: $(least "$work/our_times" 2) nodes, $(least "$work/their_times" 3) links"
echo "graph: $ours ms, $most bytes at most, $kept of them kept"
wanted="(wanted: at most 1 and 0.25)"
echo "rows with the reading: $both ms, $both_most bytes; ratios $(ratio "$ours" "$both") and $(ratio "$most" "$both_most") $wanted"
echo "rows alone: $alone ms, $rows_most bytes; ratios $(ratio "$ours" "$alone") and $(ratio "$most" "$rows_most") $wanted"
row "a graph, $levels levels, time" "$ours ms" "rows with the reading $both ms" "$(ratio "$ours" "$both")" 'at most 1'
row "the same, memory" "$most bytes" "rows with the reading $both_most bytes" "$(ratio "$most" "$both_most")" 'at most 0.25'
row "the same, time" "$ours ms" "rows alone $alone ms" "$(ratio "$ours" "$alone")" 'at most 1'
row "the same, memory" "$most bytes" "rows alone $rows_most bytes" "$(ratio "$most" "$rows_most")" 'at most 0.25'
