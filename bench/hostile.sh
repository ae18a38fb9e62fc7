#!/usr/bin/env bash
# `check` over folders within every limit that were made to be judged slowly, each beside `wc` of its bytes. Wanted of each: at most 10 times its time,
# and at most 6 times its bytes of memory.
#
# usage: hostile.sh [NAME ..]   (names of hostile_folders.py; without one all)
# It wants python3 and up to 6 GiB of memory, past which `check` is stopped, as it is after 300 s.
. "$(dirname "$0")/begin.sh"
need python3 prlimit timeout
need_program
python3 bench/hostile_folders.py | while read -r name title; do
    [ $# = 0 ] || [[ " $* " = *" $name "* ]] || continue
    python3 bench/hostile_folders.py "$work/$name" "$name"
    python3 bench/time_hostile.py "$program" "$work/$name" "$title" </dev/null
    rm -r "${work:?}/$name"
done
uptime
