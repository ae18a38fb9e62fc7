#!/usr/bin/env bash
# `imdf_write::write_folder` over the folder of `folder.py`, 100,000 features with 1,000,000 positions; beside Rust's `serde_json`, which writes
# the same values, their numbers as tokens, into one vector that has room for all, and, where jq is there, `jq -c .` over the written files.
# Processor times of a writing, from runs with one and with twenty more, the least of three in turns; and the most bytes held while one is
# made, for each byte that is written. Wants the kit (rt), python3, rustc, gcc and Debian's librust-serde-json-dev. The first build proves
# some fifteen crates and takes a while.
. "$(dirname "$0")/begin.sh"
. bench/lay_out.sh
need rt python3 rustc gcc '/usr/share/cargo/registry/serde?json-1*:librust-serde-json-dev'
python3 bench/folder.py "$work/venue"
gcc -O2 -shared -fPIC -o "$work/count_bytes.so" bench/count_bytes.c

. bench/rust_crates.sh
rust_serde_json 'feature="raw_value"'
rust_program bench/time_write.rs
mv "$work/time_write" "$work/theirs"

# A repository of its own, with a program that times the call. It writes the files that the yardstick reads, and tells the bytes that it
# held at its marks.
lay_out time_write imdf_write imdf_read venue_folder venue_ports venue_types
mkdir "$work/written"
build_program "$work/venue/sound" "$work/written" 1
LD_PRELOAD=$work/count_bytes.so "$built" "$work/venue/sound" "$work/written" 0 >"$work/told" 2>"$work/held"
read -r _ bytes <"$work/told"
read -r _ most _ < <(sed -n 2p "$work/held")

told=$(python3 bench/time_calls.py 20 "$built $work/venue/sound $work/written" "$work/theirs $work/written")
read -r _ ours _ _ theirs _ <<<"$told"
speed() { awk -v bytes="$bytes" -v time="$1" 'BEGIN { printf "%.0f MB/s", bytes / time / 1000 }'; } # MILLISECONDS
ratio() { awk -v a="$1" -v b="$2" 'BEGIN { printf "%.2f", a / b }'; }                               # A B
echo "$bytes bytes: write_folder $ours ms, $(speed "$ours"); serde_json $theirs ms, $(speed "$theirs"); speed $(ratio "$theirs" "$ours") times (wanted: at least 1, and 400 MB/s)"
echo "held at most $most bytes, $(ratio "$most" "$bytes") for each that is written (wanted: at most 1.00)"
row 'writing a folder' "$(speed "$ours")" "serde_json $(speed "$theirs")" "$(ratio "$theirs" "$ours")" 'at least 1, 400 MB/s'
row 'the same, memory' "$most bytes" "the files' $bytes bytes" "$(ratio "$most" "$bytes")" 'at most 1.00'

command -v jq >/dev/null || { echo 'jq is not there'; exit 0; }
TIMEFORMAT='%U %S'
jq_time=$({ time jq -c . "$work"/written/* >/dev/null; } 2>&1 | awk '{ print 1000 * ($1 + $2) }')
echo "jq -c .: $jq_time ms, $(speed "$jq_time"), which reads the files too; speed $(ratio "$jq_time" "$ours") times"
row 'writing a folder, beside jq' "$(speed "$ours")" "jq -c ., which reads too, $(speed "$jq_time")" "$(ratio "$jq_time" "$ours")"
