# Sourced by benchmarks, after `begin.sh`: `build_calls` builds the program `venue_calls` in $work, with the crates below the search, and leaves
# it at $built. Wants the kit (rt). The first build proves some twenty crates and takes a while.
. bench/lay_out.sh

build_calls() {
    lay_out venue_calls route_search venue_build venue_folder venue_ports test_station
    # Without words it ends with a status of its own.
    build_program 2>/dev/null || [ -x "$built" ] || { tail -n 20 "$work/build.log" >&2; return 1; }
}
