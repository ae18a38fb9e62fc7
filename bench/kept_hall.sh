#!/usr/bin/env bash
# A hall that keeps a journal on a real file, over the venue of `levels.py` with 50 levels. How many changes a second 1 and 4 seats make, each of
# which closes a lift of its own and opens it again for three seconds, beside as many threads that insert a row each time into SQLite (WAL,
# synchronous=FULL), in the same folder and run. How often a second 1 and 3 seats ask for the version beside one more that makes such changes,
# beside the same at a hall without a journal. And the peak memory of a hundred publications of a tenth of the folder of `folder.py` that a full
# disk refuses, beside that of two. The disk is full by a limit on the size of files (RLIMIT_FSIZE, with SIGXFSZ ignored), which leaves room for
# half a publication: what is written past it fails with EFBIG.
# usage: kept_hall.sh [FOLDER]   (on the disk to be measured, else a folder of its own here). Wants the kit (rt), cc, python3, Debian's
# `libsqlite3-dev`, and four processors with nothing else to do. The first build proves some thirty crates and takes a while.
. "$(dirname "$0")/begin.sh"
. bench/lay_out.sh
need rt cc python3 /usr/include/sqlite3.h:libsqlite3-dev
folder=$(mktemp -d -p "${1:-$PWD}")
trap 'rm -rf "$work" "$folder"' EXIT
cc -O2 -o "$work/kept_sqlite" bench/kept_sqlite.c -lsqlite3 -lpthread
python3 bench/levels.py 50 "$work/base"
python3 bench/folder.py "$work/large" 1
first=00000000-0000-4000-8000-00000000
lifts="${first}5350 ${first}5453 ${first}5556 ${first}5659"
python3 bench/make_journal.py "$work/base/levels" "$work/opening.journal" closures 0 "${first}5350"
opening=$(stat -c %s "$work/opening.journal")

# A repository of its own, with a program that changes and asks.
lay_out time_kept_hall shared_hall journal_restore test_station left_right logbook crossbeam_utils atomic_table core

# What seats of a hall do whose journal has the opening alone, and how many bytes longer that is then. usage: at_hall (kept | free) DEED SEATS WORD..
at_hall() {
    cp "$work/opening.journal" "$folder/log.journal"
    echo "$2 $1 $3 $("$built" "$folder" log "$@") $(($(stat -c %s "$folder/log.journal") - opening))"
}

cp "$work/opening.journal" "$folder/log.journal"
build_program "$folder" log free turn 1 1 $lifts
for turn in 1 2 3; do
    for count in 1 4; do
        at_hall kept turn $count 3 $lifts
        echo "rows $count $("$work/kept_sqlite" "$folder/rows.db" $count 3)"
        rm -f "$folder"/rows.db*
    done
    for count in 2 4; do
        at_hall kept ask $count 3 $lifts
        at_hall free ask $count 3 $lifts
    done
done >"$work/times"
python3 bench/sum_kept.py "$work/times"

# A command that publishes so many times over a journal that can't grow by more than half a publication.
most=$(((opening + $(cat "$work"/large/sound/* | wc -c) / 2) / 1024))
publish() { # TIMES
    echo "bash -c \"trap '' XFSZ; ulimit -f $most; exec $built $folder log kept publish 1 $1 $work/large sound >>$work/refused\""
}
cp "$work/opening.journal" "$folder/log.journal"
python3 bench/measure.py 1 '2 refused publications' "$(publish 2)" '100' "$(publish 100)" >"$work/told"
cat "$work/told"
[ "$(cut -d ' ' -f 1-3 "$work/refused" | tr '\n' ,)" = '0 2 0,0 100 0,' ] || { echo 'kept_hall.sh: not each publication was refused' >&2; exit 1; }
{ read -r few; read -r many; } < <(sed -n 's/.* peak \([0-9]*\) MiB.*/\1/p' "$work/told")
ratio=$(awk -v few="$few" -v many="$many" 'BEGIN { printf "%.2f", many / few }')
echo "peak of 100 to that of 2: $ratio"
row 'peak of 100 publications refused by a full disk' "$many MiB" "2 of them $few MiB" "$ratio" 'at most 1.1'
