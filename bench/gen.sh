#!/usr/bin/env bash
# `gen 50` and `gen 200` whole, with peak memory, beside `check` of the same building read from files; then the shares of `gen 200`: making the
# text, reading and judging it up to the graph, and the four acts (a way, a closing, two ways); and the text's megabytes a second. Wanted:
# `gen 200` under two seconds and 400 MiB, at least 200 MB of text a second. Wants the kit (rt) and python3.
. "$(dirname "$0")/begin.sh"
. bench/lay_out.sh
need rt python3
need_program
for levels in 50 200; do
    python3 bench/levels.py "$levels" "$work/$levels"
    case $levels in 200) wanted='2 s, 400 MiB' ;; *) wanted= ;; esac
    python3 bench/measure.py 5 --row "gen $levels" "$wanted" "gen $levels" "$program gen $levels" "check" "$program check $work/$levels levels"
done

# A repository of its own, with a program that tells the times of the parts.
lay_out time_parts venue_commands test_station
build_program
for _ in 1 2 3 4 5; do "$built"; done | sort -k3 -n | head -n 1 | {
    read -r text judged whole bytes
    python3 bench/shares.py "$text" "$judged" "$whole" "$bytes"
}
