#!/usr/bin/env bash
# `nearest_place::nearest`, with its certificate, over the four venues of `route.sh` with a thousand restrooms spread over each, for `walk`: one
# restroom, ten, and an `atm` where no way leads; the least milliseconds of so many calls in three turns, beside plain Rust over stored rows of
# the printed table with the heap of the standard library, which stops where the search does. In the same run the search for a way to that
# `atm`, which reaches as many nodes. How many rows there are, the sum of their costs, and how many potentials and reached nodes there are, are
# compared. Wants the kit (rt), python3 and rustc. The first build proves some twenty crates and takes a while.
. "$(dirname "$0")/begin.sh"
. bench/lay_out.sh
need rt python3 rustc
need_program
restrooms=1000
python3 bench/levels.py 200 "$work/base"
python3 bench/search_folders.py "$work/base" >"$work/ends"
rustc --edition 2021 -O -C codegen-units=1 -o "$work/time_nearest" bench/time_nearest.rs

# A repository of its own, with a program that times the calls. Without words it ends with a status of its own.
lay_out time_nearest nearest_place route_search link_graph venue_build venue_folder venue_ports venue_types walk_laws test_station
build_program 2>/dev/null || [ -x "$built" ] || { tail -n 20 "$work/build.log" >&2; exit 1; }

# The line of the least time, of those of this name.
least() { # FILE NAME
    grep "^$2 " "$work/$1" | sort -g -k 2,2 | head -n 1
}
ratio() { python3 -c "print(f'{$1 / $2:.3g}')"; }
told() { # FIGURE OURS YARDSTICK THEIRS WANTED
    local ratio
    ratio=$(ratio "$2" "$4")
    echo "$1: $2 ms, $3 $4 ms, ratio $ratio${5:+, wanted $5}"
    row "$1" "$2 ms" "$3 $4 ms" "$ratio" "$5"
}

judge() { # FOLDER FROM ROUNDS
    local from question ours our_answer theirs their_answer search reached words wanted
    from=$(python3 bench/spread_restrooms.py "$work/base" "$1" "$2")
    "$program" links "$work/base" "$1" walk >"$work/table"
    rm -f "$work/ours" "$work/theirs"
    for _ in 1 2 3; do
        "$built" "$work/base/$1" walk "$from" "$3" >>"$work/ours"
        "$work/time_nearest" "$work/table" "$from" "$restrooms" "$3" >>"$work/theirs"
    done
    echo "$1: $(grep -c '^link' "$work/table") links"
    read -r _ search _ _ _ reached < <(least ours search)
    for question in one ten none; do
        read -r _ ours our_answer < <(least ours "$question")
        read -r _ theirs their_answer < <(least theirs "$question")
        [ "$our_answer" = "$their_answer" ] || { echo "$1, $question: answers $our_answer and $their_answer" >&2; exit 1; }
        case $question in
            one) words='one nearest' wanted='at most 1' ;;
            ten) words='ten nearest' wanted='at most 1' ;;
            none) words='none reached' wanted='' ;;
        esac
        told "$words, $1" "$ours" 'stored rows' "$theirs" "$wanted"
        case $question in
            one) told "$words, $1" "$ours" 'a search that reaches none' "$search" 'at most 0.25' ;;
            none)
                [ "${our_answer##* }" = "$reached" ] || { echo "$1: ${our_answer##* } and $reached nodes reached" >&2; exit 1; }
                told "$words, $1" "$ours" 'a search that reaches none' "$search" 'at most 1.1'
                ;;
        esac
    done
}
judge levels 20401 30
while read -r name from _; do
    judge "$name" "$from" 30
done <"$work/ends"
