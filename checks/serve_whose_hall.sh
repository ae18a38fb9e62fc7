#!/bin/bash
# Serves a base whose one staff key no example has, beside another base with folders of the same names, and compares what staff get: the
# examples' key changes nothing, and what is published is the folder of the base that is served.
#
# usage: serve_whose_hall.sh [PROGRAM]   (without PROGRAM the launcher ./venue, which builds the program if need be)
# It prints a line for each difference and one at the end, and ends with status 1 at a difference.
program=${1-$(dirname "$0")/../venue}
. "$(dirname "$0")/serving.sh"
need curl

# In the base that is served `next` is the station without its lift; in the other one it isn't even a folder that can be published.
for base in "$work/other" "$work/served"; do
    mkdir "$base"
    cp -r "$here/examples/station" "$base/station"
    cp -r "$here/examples/nolift" "$base/next"
    cp "$here/examples/venue.toml" "$base/venue.toml"
done
rm "$work/other/next/unit.geojson"
sed -i 's/desk-key-1/night-watch-7/' "$work/served/venue.toml"

serve 2 4
at=http://127.0.0.1:$port/v1
right='x-staff-key: night-watch-7'
compare 'the key of the examples' "$(curl -s --max-time 20 -H "$key" -d "$closing" $at/closures)" '{"error":"not_staff"}'
compare 'the key of the base' "$(curl -s --max-time 20 -H "$right" -d "$closing" $at/closures)" '{"changed":true,"closed":true,"feature":"'$lift'","version":2}'
compare 'the folder of the base' "$(curl -s --max-time 20 -H "$right" -d '{"folder":"next"}' $at/publish)" '{"dropped":\["'$lift'"\],"version":3}'
compare version "$(curl -s --max-time 20 $at/version)" '{"closed":0,"places":*,"version":3}'
wait $server
compare 'the status' $? 0
compare 'what was printed' "$(cat "$work/printed")" "listening 127.0.0.1:$port
workers * sessions 4 versions 3 changes 2"
finish
