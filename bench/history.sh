#!/usr/bin/env bash
# `history` over a journal of one publication of the station and a million closures and reopenings of its openings and units in turn; beside
# sha256sum and a loop in Python that takes the same bytes 21 at a time. Wants python3 and sha256sum.
. "$(dirname "$0")/begin.sh"
need python3 sha256sum
mapfile -t features < <(grep -ho '"id":"[^"]*","feature_type":"\(opening\|unit\)"' examples/station/{opening,unit}.geojson | cut -d '"' -f 4)
mkdir "$work/base"
cp examples/venue.toml "$work/base"
python3 bench/make_journal.py examples/station "$work/base/log.journal" closures 1000000 "${features[@]}"
cat >"$work/take.py" <<'TEXT'
import sys
with open(sys.argv[1], "rb") as file:
    data = file.read()
for at in range(0, len(data), 21):
    record = data[at:at + 21]
TEXT
python3 bench/measure.py 5 --row 'history of a million closures' 'at most 5' \
    history "examples/serve/history.py $work/base log" \
    'sha256sum and a loop' "sh -c 'sha256sum $work/base/log.journal; python3 $work/take.py $work/base/log.journal'"
