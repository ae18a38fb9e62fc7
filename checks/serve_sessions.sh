#!/bin/sh
# Serves each story of examples/sessions by `venue session`, over a copy of the example folders, and compares reply and status byte
# by byte. A story is a folder: `request`, the bytes that come; `reply`, the bytes that must be written; `status`; `about`, a line on
# what happens; where it has a file `folder`, that names a base of examples and the folder in it that is served, else that is the station; and
# where it has a folder `base`, its files take the place of those of the copy.
# Each is served without a journal; with an empty one; and with another empty one in two runs, of which the second goes on with what the first
# has left: both together have to write the same reply, and to leave the same journal as the one run. The first run gets the story up to its middle
# message, counted among those that are answered and leave the connection open. So what ends it, and what stands behind that, is for the second.
# Stories of the station are served once more where ways go round walls: its rooms have no corners, so no byte changes.
#
# usage: serve_sessions.sh [PROGRAM]   (without PROGRAM the launcher ./venue, which builds the program if need be)
# It prints a line for each difference and one at the end, and ends with status 1 at a difference.
here=$(cd "$(dirname "$0")/../examples" && pwd) || exit 1
program=${1-$here/../venue}
# In memory where there is such a folder, since a journal is synced at each change.
work=$(TMPDIR=/dev/shm mktemp -d 2>/dev/null || mktemp -d) || exit 1
trap 'rm -rf "$work"' EXIT

# Where each story is cut: behind how many bytes of its request, a line each.
cuts() { # stories' folders
    python3 - "$@" <<'PYTHON'
import re
import sys

for story in sys.argv[1:]:
    with open(story + "/request", "rb") as request, open(story + "/reply", "rb") as reply:
        request, heads = request.read(), re.findall(rb"HTTP/1\.1 \d{3} .*?\r\n\r\n", reply.read(), re.S)
    at, answered = 0, sum(b"\r\nconnection: close\r\n" not in head for head in heads)
    for _ in range((answered + 1) // 2):
        head = re.compile(rb"(?:\r?\n)*.+?\n\r?\n", re.S).match(request, at)
        length = re.search(rb"(?im)^content-length:[ \t]*(\d+)", head[0])
        at = head.end() + (int(length[1]) if length else 0)
    print(at)
PYTHON
}

# Serves what comes over the story's base, with a journal where one is named.
run() { # a journal
    timeout 20 "$program" session "$base" "$folder" "$@"
}

# Compares what was written, and the status, with the story's.
judge() { # a story's folder, how it was served, status, the status that is wanted
    differ=$(cmp "$base.reply" "$1/reply" 2>&1) && [ "$3" = "$4" ] && return
    echo "${1##*/}, $2: status $3, and wanted is $4: $(cat "$1/about") $differ"
}

serve() { # a story's folder, where it is cut
    base=$work/${1##*/}
    wanted=$(cat "$1/status")
    mkdir "$base" || exit 1
    if [ -f "$1/folder" ]; then
        read -r from folder <"$1/folder" && cp -R "$here/$from/." "$base" || exit 1
    else
        folder=station
        cp -R "$here/venue.toml" "$here/station" "$here/tall" "$here/nolift" "$base" || exit 1
    fi
    [ ! -d "$1/base" ] || cp -R "$1/base/." "$base" || exit 1
    : >"$base/whole.journal" >"$base/cut.journal"
    run <"$1/request" >"$base.reply"
    judge "$1" 'without a journal' $? "$wanted"
    run whole <"$1/request" >"$base.reply"
    judge "$1" 'with a journal' $? "$wanted"
    if [ -n "$2" ]; then
        head -c "$2" "$1/request" | run cut >"$base.reply"
        first=$?
        tail -c "+$(($2 + 1))" "$1/request" | run cut >>"$base.reply"
        judge "$1" "cut behind $2 bytes" "$first and $?" "0 and $wanted"
        cmp "$base/whole.journal" "$base/cut.journal"
    fi
    [ ! -f "$1/folder" ] || return
    sed -i '1i inside = "clear"' "$base/venue.toml"
    run <"$1/request" >"$base.reply"
    judge "$1" 'round walls' $? "$wanted"
}

"$program" check "$here" station >/dev/null # the launcher's first call builds
if command -v python3 >/dev/null; then
    cut_at=$(cuts "$here"/sessions/*)
else
    cut_at=
    echo 'serve_sessions: no story is cut, since there is no python3'
fi
stories=0
set -- $cut_at
for story in "$here"/sessions/*; do
    stories=$((stories + 1))
    serve "$story" "${1-}" >"$work/$stories.said" 2>&1 &
    [ $# = 0 ] || shift
done
wait
cat "$work"/*.said
differences=$(cat "$work"/*.said | wc -l)
echo "serve_sessions: $stories stories, $differences differences"
[ "$stories" -gt 0 ] && [ "$differences" = 0 ]
