#!/usr/bin/env bash
# `exact_json` over 32 MiB of many small features and of few large rings, beside the kit's `json` and RapidJSON. Wanted: on small features at
# least 1.4 times RapidJSON's speed and 1.8 times the kit's, with at most 3 bytes of tree a byte; on large rings 1.2, 1.3 and 3.5.
# Wants the kit (rt), python3, g++ and Debian's rapidjson-dev. The first build proves the crate and takes some minutes.
. "$(dirname "$0")/begin.sh"
. bench/lay_out.sh
need rt python3 g++ /usr/include/rapidjson/document.h:rapidjson-dev
python3 bench/make_json.py "$work/features.json" "$work/rings.json"
g++ -O3 -DNDEBUG -std=c++17 -o "$work/read_rapidjson" bench/read_rapidjson.cpp

# A repository of its own, with a program that times both readers of Rattle.
lay_out read_json exact_json json
build_program load "$work/features.json"
python3 bench/time_readers.py 5 "$built" "$work/read_rapidjson" "$work/features.json" "$work/rings.json"
