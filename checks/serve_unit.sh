#!/bin/bash
# Has systemd read examples/serve/venue.service, with the launcher in the place of the program, and wants that nothing is said of it; and that the
# one file that it may write is the journal of its command.
#
# usage: serve_unit.sh
# It prints what is said and a line at the end, and ends with status 1 where something is said, or another file may be written.
here=$(cd "$(dirname "$0")/.." && pwd) || exit 1
unit=$here/examples/serve/venue.service
read -r _ _ base _ _ _ _ journal <<<"$(sed -n 's/^ExecStart=//p' "$unit")"
written=$(sed -n 's/^ReadWritePaths=//p' "$unit")
[ "$written" = "$base/$journal.journal" ] || { echo "serve_unit: the unit keeps $base/$journal.journal, and may write $written"; exit 1; }
command -v systemd-analyze >/dev/null || { echo "serve_unit: skipped, since there is no systemd-analyze"; exit 0; }
work=$(mktemp -d) || exit 1
trap 'rm -rf "$work"' EXIT

sed "s#/opt/fergoljin/venue_cli#$here/venue#" "$unit" >"$work/venue.service"
systemd-analyze verify "$work/venue.service" 2>&1 | grep venue.service
[ "${PIPESTATUS[1]}" = 1 ] && echo 'serve_unit: nothing is said of the unit'
