#!/usr/bin/env bash
# `canon` of the largest file of a sound folder of 100,000 features, which makes the folder's venue and writes that file, beside `check` of the
# folder in the same run. Wants python3.
. "$(dirname "$0")/begin.sh"
need python3
need_program
base=$work/base
python3 bench/folder.py "$base"
python3 bench/measure.py 5 --row 'canon of the largest file, 100,000 features' 'at most 1.1' \
    canon "$program canon $base sound unit.geojson" check "$program check $base sound"
