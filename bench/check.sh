#!/usr/bin/env bash
# `check` over a sound folder of 100,000 features and 1,000,000 judged positions, beside `ogrinfo -al -so` over its sixteen
# feature files in one run, which a virtual source lists; then the same over six folders at limits of the rules on the plane.
# The time of a phase of rules is taken from folders with one fault each, after which the check stops: a feature of a wrong type
# (phase 1), an identifier twice (phase 2), a ring that crosses itself (phase 4). What walls in rooms add is taken from a folder of eight
# buildings and one of 1,000 rooms of 300 corners, ways being straight or going round them. Wants python3 and `ogrinfo` of Debian's gdal-bin.
. "$(dirname "$0")/begin.sh"
need python3 ogrinfo
need_program

# Beside the folder NAME of BASE three with one fault each, and a virtual source of its feature files. usage: variants BASE NAME
variants() {
    cp -rl "$1/$2" "$1/$2-mistyped"
    sed -i 's/"feature_type":"venue"/"feature_type":"unit"/' "$1/$2-mistyped/venue.geojson"
    cp -rl "$1/$2" "$1/$2-repeated"
    ids=($(grep -o '"id":"[^"]*"' "$1/$2/section.geojson" | head -n 2))
    sed -i "s/${ids[1]}/${ids[0]}/" "$1/$2-repeated/section.geojson"
    cp -rl "$1/$2" "$1/$2-crossed"
    sed -i -E 's/\[\[(\[[^]]*\]),(\[[^]]*\]),(\[[^]]*\])/[[\1,\3,\2/' "$1/$2-crossed/venue.geojson"
    {
        echo '<OGRVRTDataSource>'
        for file in "$1/$2"/*.geojson; do
            layer=$(basename "$file" .geojson)
            echo "<OGRVRTLayer name=\"$layer\"><SrcDataSource>$file</SrcDataSource><SrcLayer>$layer</SrcLayer></OGRVRTLayer>"
        done
        echo '</OGRVRTDataSource>'
    } >"$1/$2.vrt"
}

# usage: expect BASE FOLDER TEXT
expect() {
    found=$("$program" check "$1" "$2" | tr '\n' ' ') || true
    [[ "$found" = $3* ]] || { echo "the folder $2 gives ${found:0:200}, not $3"; exit 1; }
}

# usage: counted BASE NAME COUNT
counted() {
    sum=$(ogrinfo -al -so "$1/$2.vrt" | awk '/^Feature Count:/ { sum += $3 } END { print sum }')
    [ "$sum" = "$3" ] || { echo "ogrinfo counts $sum features in $2"; exit 1; }
    expect "$1" "$2" "accepted $3 "
    expect "$1" "$2-mistyped" "rejected 1 finding C4 venue.geojson 0 0 "
    expect "$1" "$2-repeated" "rejected 1 finding C7 section.geojson 1 0 "
    expect "$1" "$2-crossed" "rejected 2 finding G3 venue.geojson 0 0 finding G5 venue.geojson 0 0 "
}

# What measure.py prints of the folder NAME of BASE and of those beside it. usage: measured BASE NAME TITLE WANTED
measured() {
    python3 bench/measure.py 3 --row "check, $3" "$4" check "$program check $1 $2" ogrinfo "ogrinfo -al -so $1/$2.vrt" \
        mistyped "$program check $1 $2-mistyped" repeated "$program check $1 $2-repeated" crossed "$program check $1 $2-crossed"
}

base=$work/base
python3 bench/folder.py "$base"
variants "$base" sound
counted "$base" sound 100000
expect "$base" sound "accepted 100000 notes 0 "

bytes=$(cat "$base"/sound/* | wc -c)
echo "$((bytes / 1048576)) MiB in 17 files; wanted: a ratio of at most 0.33, phases 3 and 4 no longer than reading"
measured "$base" sound '100,000 features' 'at most 0.33' |
    awk '{ print; sub(":", "", $1); time[$1] = $2; busy[$1] = $(NF - 1) }
         function phases(name, kept) {
             plane = kept["crossed"] - kept["repeated"]
             printf "%s: reading with phase 1 %.3f s, phase 2 %.3f s, ", name, kept["mistyped"], kept["repeated"] - kept["mistyped"]
             printf "phases 3 and 4 %.3f s (%.2f of reading), ", plane, plane / kept["mistyped"]
             printf "what follows %.3f s\n", kept["check"] - kept["crossed"]
         }
         END { phases("phases", time); phases("phases, processor", busy) }' | tee "$work/told"
row 'phases 3 and 4, 100,000 features' "$(sed -n 's/^phases:.*phases 3 and 4 \([0-9.]* s\) .*/\1/p' "$work/told")" \
    "reading $(sed -n 's/^phases: reading with phase 1 \([0-9.]* s\).*/\1/p' "$work/told")" "$(sed -n 's/^phases:.*(\([0-9.]*\) of reading).*/\1/p' "$work/told")" 'at most 1'

# What a folder at a limit takes, in processor time. usage: limit BASE NAME COUNT TITLE
limit() {
    variants "$1" "$2"
    counted "$1" "$2" "$3"
    measured "$1" "$2" "$4" '' |
        awk -v title="$4" '{ sub(":", "", $1); busy[$1] = $(NF - 1) }
             END {
                 reading = busy["mistyped"]; plane = busy["crossed"] - busy["repeated"]
                 printf "%s: check %.3f s, ogrinfo %.3f s, reading %.3f s, ", title, busy["check"], busy["ogrinfo"], reading
                 printf "phases 3 and 4 %.3f s (%.2f of reading)\n", plane, plane / reading
             }'
}

echo "folders at limits, processor times; wanted: phases 3 and 4 no longer than reading, but for the turned comb"
python3 bench/folder.py "$work/outlines" 10 500
limit "$work/outlines" sound 100000 "outlines of 500 corners"
python3 bench/limits.py "$work/limits"
cp "$base/venue.toml" "$work/limits"
limit "$work/limits" five_rings 10 "five rings of 20,000 positions"
limit "$work/limits" staircases 45 "forty staircases"
limit "$work/limits" comb 4881 "a comb, and 980,000 vertices in it"
limit "$work/limits" all_rings 54 "49 rings of 20,000 positions"
limit "$work/limits" comb_turned 106 "a comb turned by 22.5 degrees, and 20,000 vertices in it"

# What walls add to `check`, in processor time: corners, and who sees whom. usage: with_walls BASE NAME TITLE STRAIGHT CLEAR, the last two being how what is printed begins
with_walls() {
    variants "$1" "$2"
    mkdir "$1-clear"
    { echo 'inside = "clear"'; cat "$1/venue.toml"; } >"$1-clear/venue.toml"
    cp -rl "$1/$2" "$1-clear"
    expect "$1" "$2" "$4"
    expect "$1-clear" "$2" "$5"
    python3 bench/measure.py 3 clear "$program check $1-clear $2" straight "$program check $1 $2" mistyped "$program check $1 $2-mistyped" |
        awk '{ sub(":", "", $1); busy[$1] = $(NF - 1) } END { printf "%.3f %.3f %.3f %.2f\n", busy["clear"] - busy["straight"], busy["mistyped"], busy["straight"], (busy["clear"] - busy["straight"]) / busy["mistyped"] }' >"$work/added"
    read -r added reading straight ratio <"$work/added"
    echo "$3: straight $straight s, walls add $added s, $ratio of reading"
    row "walls, $3" "$added s" "reading $reading s" "$ratio" "$6"
    rm -r "$1-clear"
}

echo "rooms with walls; wanted: half of a straight check where their members are looked through, a tenth of reading where corners are only counted"
python3 bench/folder.py "$work/eight" 8
with_walls "$work/eight" sound "eight buildings" "accepted " "accepted " 'at most half of a straight check'
with_walls "$work/limits" stairs "1,000 rooms of 300 corners" "accepted 1006 " "rejected 1 finding S6 unit.geojson 0 0 " 'at most 0.10'
uptime
