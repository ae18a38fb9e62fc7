#!/usr/bin/env bash
# A journal on a real file: a thousand closures, ten publications of 32 MiB, and a byte with a sync, which is what a sync takes; beside
# SQLite's inserts, a transaction each (WAL, synchronous=FULL), and copies of a file with a sync each, in the same folder and run.
# usage: journal.sh [FOLDER]   (on the disk to be measured, else a folder of its own here). Wants the kit (rt), python3 with sqlite3.
. "$(dirname "$0")/begin.sh"
. bench/lay_out.sh
need rt python3
python3 -c 'import sqlite3' 2>/dev/null || { echo "journal.sh: skipped, since this python3 has no sqlite3"; exit 0; }
folder=$(mktemp -d -p "${1:-$PWD}")
trap 'rm -rf "$work" "$folder"' EXIT

lay_out time_journal change_journal

# The parts one after the other, each kind of run in an empty folder. usage: once KIND
once() {
    rm -rf "${folder:?}"/*
    case $1 in
        journal) : >"$folder/log.journal"; "$built" "$folder" log ;;
        inserts) python3 bench/time_inserts.py "$folder" ;;
    esac
}

: >"$folder/log.journal"
build_program "$folder" log
for _ in 1 2 3 4 5; do
    once journal >>"$work/journal.txt"
    once inserts >>"$work/inserts.txt"
done
# The least of five times of each part, in milliseconds.
awk '{ if (FILENAME == ARGV[1]) { if (!($1 in a) || $2 < a[$1]) a[$1] = $2; if (FNR <= 3) order[FNR] = $1 } else if (!($1 in b) || $2 < b[$1]) b[$1] = $2 }
    END { for (i = 1; i <= 2; i++) { p = order[i]; printf "%s journal %.3f yardstick %.3f ratio %.2f\n", p, a[p] * 1000, b[p] * 1000, a[p] / b[p] }
        printf "a sync takes %.3f\n", a["sync"] * 1000 }' "$work/journal.txt" "$work/inserts.txt" | tee "$work/told"
while read -r part _ ours _ theirs _ ratio; do
    case $part in
        closure) row 'a journal, closure' "$ours ms" "SQLite $theirs ms" "$ratio" 'at most 1.3' ;;
        publication) row 'a journal, publication of 32 MiB' "$ours ms" "a copy with a sync $theirs ms" "$ratio" 'at most 1.2' ;;
    esac
done <"$work/told"
