#!/usr/bin/env bash
# `serve` beside nginx with a fixed answer of the same bytes, and beside `blocking.cpp`, the least that a server with a thread a connection
# can do: `bench/serve.sh [PART..] [WORKERS..]`, by default all parts (version, station, routes, places, staff, anew, memory, idle) with 1, 2 and
# 4 workers. Requests a second, times, processor time a request and memory: for the version, a place and a route of the station, for routes
# over the venue of `levels.py` with 50 and 200 levels and all places of the latter, while staff close a lift or publish the folder of
# `folder.py`, with a connection a request, and beside crowds that hold connections open. The load is Debian's `wrk`, and `load.cpp`. Takes
# eight minutes and wants four processors with nothing else to do, g++, python3, nginx and wrk; the latter two are left out where they are
# not there. VENUE=PROGRAM measures that program, and BEFORE=PROGRAM another one in the same turns, for the parts version and anew.
. "$(dirname "$0")/begin.sh"
need g++ python3
need_program
[ -x "$program" ] || { echo "$program can't be run" >&2; exit 1; }
g++ -O2 -std=c++17 -pthread -o "$work/load" bench/load.cpp
g++ -O2 -std=c++17 -pthread -o "$work/blocking" bench/blocking.cpp
ulimit -S -n "$(ulimit -H -n)"
base=$work/base
python3 bench/folder.py "$base"
cp -r examples/station examples/venue.toml "$base"
for levels in 50 200; do
    python3 bench/levels.py "$levels" "$work/$levels"
    mv "$work/$levels/levels" "$base/levels$levels"
done
python3 bench/time_serve.py "$program" "$base" "$work" "$@"
