# Sourced by each benchmark before all else: goes to the top of the repository, and makes the folder $work, which goes when the script ends.
set -e
cd "$(dirname "$0")/.."
work=$(mktemp -d)
trap 'rm -rf "$work"' EXIT

# Ends the script where something that it wants isn't here: a command, or a file, a pattern of the shell, with the Debian package that has it
# after a colon.
need() { # COMMAND or FILE:PACKAGE ..
    local wanted missing=
    for wanted; do
        case $wanted in
            *:*) compgen -G "${wanted%:*}" >/dev/null || missing="${wanted%:*}, which Debian's ${wanted##*:} has" ;;
            *) command -v "$wanted" >/dev/null || missing=$wanted ;;
        esac
        [ -z "$missing" ] || { echo "$(basename "$0"): skipped, since there is no $missing"; exit 0; }
    done
}

# The built program, or that of VENUE, in `program`.
need_program() {
    program=${VENUE:-crates/venue_cli/out/venue_cli}
    [ -n "${VENUE-}" ] || ./venue build
}

# A row of the table with which bench/run ends: what was measured, the figure, the yardstick's, their ratio, and what is wanted of it.
row() {
    local IFS=$'\t'
    [ -z "${BENCH_ROWS-}" ] || echo "$*" >>"$BENCH_ROWS"
}
