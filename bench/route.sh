#!/usr/bin/env bash
# `route_search::least`, with its certificate, over the venue of `levels.py` for `walk` and `wheelchair`, and over the three of
# `search_folders.py` for `walk`, beside plain Rust over stored rows of the printed table (`searches.sh`). Wants the kit (rt), python3 and
# rustc.
. "$(dirname "$0")/begin.sh"
. bench/searches.sh
need python3
python3 bench/levels.py 200 "$work/base"
python3 bench/search_folders.py "$work/base" >"$work/ends"
begin_searches

judge levels walk 20401 40997 30 'at most 0.6'
judge levels wheelchair 20401 40997 30 ''
while read -r name from to; do
    case $name in corridors) wanted='at most 0.6' ;; hall) wanted='at most 0.1' ;; strip) wanted='at most 2' ;; *) wanted= ;; esac
    judge "$name" walk "$from" "$to" 30 "$wanted"
done <"$work/ends"
