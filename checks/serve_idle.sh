#!/bin/bash
# Serves while crowds of clients hold connections open that say nothing, or less than a request, or read nothing, and compares what comes of those
# who ask beside them. It measures no time: it shows that who asks is answered before the crowd goes.
#
# usage: serve_idle.sh [PROGRAM]   (without PROGRAM the launcher ./venue, which builds the program if need be)
# It prints a line for each difference and one at the end, and ends with status 1 at a difference.
program=${1-$(dirname "$0")/../venue}
. "$(dirname "$0")/serving.sh"
need python3

# A crowd is as many as the limit on files lets both sides hold, at most a thousand. The soft limit is raised as far as it goes.
hard=$(ulimit -H -n)
[ "$hard" != unlimited ] && [ "$hard" -lt 4096 ] || hard=4096
ulimit -S -n "$hard"
crowd=$((hard - 100 < 1000 ? hard - 100 : 1000))

clients() { # row, how many
    timeout 30 python3 "$here/checks/idle_clients.py" "$1" "$port" "$2"
}

# A row of its own server, which is ended behind it.
row() { # row, how many, workers, wanted
    serve "$3" 100000
    compare "$1" "$(clients "$1" "$2")" "$4"
    kill $server
    wait $server 2>/dev/null
}

row silent $crowd 1 "200, $crowd open"
row heads $crowd 1 "200, $crowd open, 200"
row bodies $crowd 1 "200, $crowd open"
row stays 1 1 '200, 200, end'
row pauses 1 2 '200, 200, True'
row closes 1 1 '200, 200, end'
row sends_on 1 1 '413, end'
row sends_half 1 1 '200, end'

# The venue of fifty equal levels, whose places are more than a client's system keeps for it.
base=$work/base
python3 "$here/bench/levels.py" 50 "$base" && mv "$base/levels" "$base/station"
row reads_nothing 1 1 200
unset base

# Those who closed in front of a first byte count for nothing; who closed within a head counts.
serve 1 2 2>"$work/told"
compare opens_and_closes "$(clients opens_and_closes 0)" 200
wait $server
compare 'what was printed' "$(cat "$work/printed")" "listening 127.0.0.1:$port
workers 1 sessions 2 versions 1 changes 0"
compare 'what was told of no want' "$(cat "$work/told")" ''

# A server that may open 64 files tells of it once, however many connections it is refused.
ulimit -S -n 64
serve 1 100000 2>"$work/told"
ulimit -S -n "$hard"
compare too_many "$(clients too_many 200)" '200, the longest silent closed'
compare 'what was told of too many' "$(cat "$work/told")" \
    'venue: the system has no file or no memory for another connection, so those that have waited longest are closed'
finish
