#!/usr/bin/env bash
# How long staff's changes take while a folder within every limit that was made to be judged slowly is published again and again, each folder beside
# the same changes while nobody publishes. Wanted of each: at most 50 ms at the ninety-ninth of a hundred, where those count too that fell due while one waited.
#
# usage: changes.sh [NAME ..]   (names of hostile_folders.py; without one all)
# It wants python3, and up to 6 GiB of memory, past which the service has none. A folder takes up to two minutes.
. "$(dirname "$0")/begin.sh"
need python3 prlimit
need_program
python3 bench/hostile_folders.py | while read -r name title; do
    [ $# = 0 ] || [[ " $* " = *" $name "* ]] || continue
    python3 bench/hostile_folders.py "$work/$name" "$name"
    python3 bench/time_changes.py "$program" "$work/$name" "$name" "$title" </dev/null
    rm -r "${work:?}/$name"
done
uptime
