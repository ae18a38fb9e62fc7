# For the scripts beside it, which serve the example station: they source it with the program in `program`.
here=$(cd "$(dirname "$0")/.." && pwd) || exit 1
name=$(basename "$0" .sh)
work=$(mktemp -d) || exit 1
key='x-staff-key: desk-key-1'
lift=00000000-0000-4000-8000-000000000301
closing='{"feature":"'$lift'","closed":true}'
asked=0
differences=0
processes=()
"$program" check "$here/examples" station >/dev/null # the launcher's first call builds
trap 'kill "${processes[@]}" 2>/dev/null; wait; rm -rf "$work"' EXIT

# Ends the script where a program that it needs isn't there.
need() { # programs
    for needed; do
        command -v "$needed" >/dev/null || { echo "$name: skipped, since there is no $needed"; exit 0; }
    done
}

# Starts a server that ends within a minute, over the base in `base` or the examples, and waits until it listens: `server` is its process,
# and $work/printed what it prints.
serve_at() { # port, workers, connections, a journal where there is one
    : >"$work/printed"
    timeout 60 "$program" serve "${base-$here/examples}" station "127.0.0.1:$1" "${@:2}" >>"$work/printed" &
    server=$!
    processes+=($server)
    for _ in $(seq 300); do
        grep -q '^listening ' "$work/printed" && return
        kill -0 $server 2>/dev/null || return 1
        sleep 0.1
    done
    return 1
}

# The same at a port that is free, which is then in `port`.
serve() { # workers, connections, a journal where there is one
    for _ in 1 2 3 4 5 6 7 8 9; do
        port=$((20000 + RANDOM % 10000))
        serve_at $port "$@" && return
    done
    echo "$name: the program printed: $(cat "$work/printed")"
    exit 1
}

# Compares what was found with a pattern of the shell.
compare() { # of what, found, wanted
    asked=$((asked + 1))
    case $2 in
        $3) return ;;
    esac
    differences=$((differences + 1))
    echo "$name: $1: $2"
}

finish() {
    echo "$name: $asked answers, $differences differences"
    [ $differences = 0 ]
}
