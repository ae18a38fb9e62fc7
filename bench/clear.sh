#!/usr/bin/env bash
# `route_search::least`, with its certificate, where ways go round walls, over the three venues of `clear_folders.py` for `walk`, beside plain Rust
# over stored rows of the printed table (`searches.sh`). What walls add to `check` is in `check.sh`. Wants the kit (rt), python3 and rustc.
. "$(dirname "$0")/begin.sh"
. bench/searches.sh
need python3
python3 bench/clear_folders.py "$work/base" >"$work/ends"
begin_searches

while read -r name from to; do
    case $name in hall) wanted='at most 0.1' ;; levels) wanted='at most 0.6' ;; *) wanted='at most 1' ;; esac
    judge "$name" walk "$from" "$to" 30 "$wanted" clear
done <"$work/ends"
