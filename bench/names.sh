#!/usr/bin/env bash
# `check` over a folder whose `unit.geojson` is at its limit by one `name` of 1,100,000 tags, each first a number and then a
# text, beside the same bytes with texts alone. Wanted: at most 3 times the time. Wants python3.
. "$(dirname "$0")/begin.sh"
need python3
need_program
tags=${1:-1100000}
cp examples/venue.toml "$work/venue.toml"
python3 bench/make_names.py "$work" "$tags"
for folder in numbers texts; do
    found=$("$program" check "$work" "$folder" | head -n 1)
    case $found in accepted*) ;; *) echo "the folder $folder gives $found"; exit 1 ;; esac
done
echo "$(wc -c <"$work/numbers/unit.geojson") bytes of unit.geojson; wanted: a ratio of at most 3"
python3 bench/measure.py 3 --row "check, a name of $tags tags" 'at most 3' numbers "$program check $work numbers" texts "$program check $work texts"
uptime
