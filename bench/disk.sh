#!/usr/bin/env bash
# A real file as a disk: 21 bytes at the end with a sync, a million times 21 bytes with one sync, 32 MiB in one piece with a
# sync, reads of 64 KiB, and a byte with a sync, which is what a sync takes; beside the same by system calls in C, in the same
# folder and run. usage: disk.sh [FOLDER]   (on the disk to be measured, else a folder of its own here). Wants the kit (rt), cc.
. "$(dirname "$0")/begin.sh"
. bench/lay_out.sh
need rt cc
folder=$(mktemp -d -p "${1:-$PWD}")
trap 'rm -rf "$work" "$folder"' EXIT
cc -O2 -o "$work/disk" bench/disk.c

lay_out time_disk venue_ports

# The parts one after the other, each kind of run on a file of its own. usage: once KIND
once() {
    rm -f "$folder/log.journal"
    : >"$folder/log.journal"
    case $1 in
        disk) "$built" "$folder" log ;;
        calls) "$work/disk" "$folder/log.journal" ;;
    esac
}

: >"$folder/log.journal"
build_program "$folder" log
for _ in 1 2 3 4 5; do
    once disk >>"$work/disk.txt"
    once calls >>"$work/calls.txt"
done
# The least of five times of each part, in milliseconds.
awk '{ if (FILENAME == ARGV[1]) { if (!($1 in a) || $2 < a[$1]) a[$1] = $2 } else if (!($1 in b) || $2 < b[$1]) b[$1] = $2; order[FNR] = $1 }
    END { for (i = 1; i <= 5; i++) { p = order[i]; printf "%s disk %.3f calls %.3f ratio %.2f\n", p, a[p] * 1000, b[p] * 1000, a[p] / b[p] } }' \
    "$work/disk.txt" "$work/calls.txt" | tee "$work/told"
while read -r part _ ours _ theirs _ ratio; do
    row "a disk, $part" "$ours ms" "calls $theirs ms" "$ratio" 'at most 1.05'
done <"$work/told"
