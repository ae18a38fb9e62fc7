#!/bin/bash
# Serves a base with folders whose `unit.geojson` is no regular file, a pipe that nobody writes, a folder, and a device without end behind a link, and
# publishes each: that it can't be read is answered within two seconds, and a closing beside it goes through as soon. Then a whole folder is published,
# and one whose file is a link to a regular file outside of the base; and one that takes seconds to be judged, beside which changes are made at once.
#
# usage: serve_hostile.sh [PROGRAM]   (without PROGRAM the launcher ./venue, which builds the program if need be)
# It prints a line for each difference and one at the end, and ends with status 1 at a difference.
program=${1-$(dirname "$0")/../venue}
. "$(dirname "$0")/serving.sh"
need curl mkfifo python3

base=$work/base
mkdir "$base" && cp -R "$here/examples/venue.toml" "$here/examples/station" "$base" || exit 1
for folder in pipe folder device linked; do
    cp -R "$here/examples/station" "$base/$folder" && rm "$base/$folder/unit.geojson" || exit 1
done
mkfifo "$base/pipe/unit.geojson" || exit 1
mkdir "$base/folder/unit.geojson" || exit 1
ln -s /dev/zero "$base/device/unit.geojson" || exit 1
ln -s "$here/examples/station/unit.geojson" "$base/linked/unit.geojson" || exit 1

# A folder that breaks no rule and takes seconds to be judged: eight rooms more, whose border goes to and fro between a short column and a long one.
cp -R "$here/examples/station" "$base/slow" && python3 - "$base/slow/unit.geojson" <<'PYTHON' || exit 1
import copy
import json
import sys

COUNT = 9_997  # of ways to and fro: 19,999 positions a ring


def position(x, y):
    return [round(10 + (700_000 + x) / 10**9, 9), round(50 + (10_000 + y) / 10**9, 9)]


def fan():
    ring = [it for k in range(COUNT) for it in ((0, k), (100_000, 20 * k))]
    ring += [(100_000, 20 * COUNT), (-1000, 20 * COUNT), (-1000, 0), (-500, 0), (0, 0)]
    return [position(*it) for it in ring]


with open(sys.argv[1], encoding="utf-8") as file:
    collection = json.load(file)
room = next(it for it in collection["features"] if it["id"].endswith("0305"))
for number in range(8):
    more = copy.deepcopy(room)
    more["id"] = f"00000000-0000-4000-b000-{number:012x}"
    more["geometry"]["coordinates"] = [fan()]
    collection["features"].append(more)
with open(sys.argv[1], "w", encoding="utf-8") as file:
    json.dump(collection, file)
PYTHON

# What staff are answered, and the status.
change() { # seconds, path, body
    curl -s --max-time "$1" -w ' %{http_code}' -H "$key" -d "$3" "http://127.0.0.1:$port/v1/$2"
}

serve 2 14
version=1
closed=true
for folder in pipe folder device; do
    change 2 publish '{"folder":"'$folder'"}' >"$work/published" &
    publication=$!
    version=$((version + 1))
    compare "a change beside $folder" "$(change 2 closures '{"feature":"'$lift'","closed":'$closed'}')" \
        '{"changed":true,"closed":'$closed',"feature":"'$lift'","version":'$version'} 200'
    wait $publication
    compare "the publication of $folder" "$(cat "$work/published")" '{"error":"folder_fault"} 502'
    [ $closed = true ] && closed=false || closed=true
done
compare 'a whole folder' "$(change 20 publish '{"folder":"station"}')" '{"dropped":\[\],"version":5} 200'
compare 'a link out of the base' "$(change 20 publish '{"folder":"linked"}')" '{"dropped":\[\],"version":6} 200'
change 50 publish '{"folder":"slow"}' >"$work/published" &
publication=$!
sleep 0.5
for closed in false true false true; do
    compare "a change beside a folder that is judged" "$(change 2 closures '{"feature":"'$lift'","closed":'$closed'}')" '{"changed":true,*} 200'
done
kill -0 $publication 2>/dev/null || echo "$name: the folder was judged before the changes were made, so they show nothing"
wait $publication
compare 'the publication of a folder that takes long' "$(cat "$work/published")" '{"dropped":\[\],"version":*} 200'
compare 'the version' "$(curl -s --max-time 20 "http://127.0.0.1:$port/v1/version")" '{"closed":1,"places":*,"version":11}'
wait $server
compare 'the status' $? 0
compare 'what was printed' "$(cat "$work/printed")" "listening 127.0.0.1:$port
workers 2 sessions 14 versions 11 changes 10"
finish
