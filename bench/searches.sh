# Sourced by benchmarks, after `begin.sh`: `begin_searches` builds what times `route_search::least`, and plain Rust over stored rows of a printed
# table with the heap of the standard library; `judge FOLDER PROFILE FROM TO ROUNDS WANTED [clear]` times both over a folder of $work/base, each by the
# least milliseconds of so many calls in three turns, and compares costs. Wants the kit (rt) and rustc. The first build proves some twenty
# crates and takes a while.
. bench/venue_calls.sh

begin_searches() {
    need rt rustc
    need_program
    rustc --edition 2021 -O -C codegen-units=1 -o "$work/time_search" bench/time_search.rs
    build_calls
}

# Of lines of a time, a cost and a count that of the least time.
least() { sort -n | head -n 1; }

judge() { # FOLDER PROFILE FROM TO ROUNDS WANTED [clear]
    "$program" links "$work/base" "$1" "$2" >"$work/table"
    for _ in 1 2 3; do
        "$built" "$work/base/$1" "$2" "$3" "$4" "$5" ${7-} >>"$work/ours"
        "$work/time_search" "$work/table" "$3" "$4" "$5" >>"$work/theirs"
    done
    read -r ours cost count < <(least <"$work/ours")
    read -r theirs their_cost their_count < <(least <"$work/theirs")
    [ "$cost" = "$their_cost" ] || { echo "$1: costs $cost and $their_cost"; exit 1; }
    ratio=$(python3 -c "print(round($ours / $theirs, 2))")
    echo "$1 $2: $(grep -c '^link' "$work/table") links, cost $cost, ours $ours ms, theirs $theirs ms, ratio $ratio"
    row "a search, $1 $2" "$ours ms" "stored rows $theirs ms" "$ratio" "$6"
    rm "$work/ours" "$work/theirs"
}
