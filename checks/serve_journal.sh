#!/bin/bash
# Serves the example station with a journal, an empty file at first, closes the lift by curl, ends the server and starts it again with the same
# words: the lift is closed still, at the same version, also where the folder isn't there any more. Then what stops such a start: no such file, one
# that a running server has, and bytes that are damaged; and the byte 1 alone, which is a journal without records. checks/rows has the other stops.
#
# usage: serve_journal.sh [PROGRAM]   (without PROGRAM the launcher ./venue, which builds the program if need be)
# It prints a line for each difference and one at the end, and ends with status 1 at a difference.
program=${1-$(dirname "$0")/../venue}
. "$(dirname "$0")/serving.sh"
need curl cmp
base=$work/base
mkdir "$base" && cp -R "$here/examples/station" "$here/examples/venue.toml" "$base" || exit 1

# What the server answers.
ask() { # path, words for curl
    curl -s --max-time 20 "${@:2}" "http://127.0.0.1:$port/v1/$1"
}

# Ends the server as a unit does.
end() {
    kill $server
    wait $server 2>/dev/null
}

# What a session with a journal prints that is asked for the version, and its status.
session() { # journal
    printf 'GET /v1/version HTTP/1.0\r\n\r\n' | timeout 20 "$program" session "$base" station "$1"
    echo "status $?"
}

# How many bytes a journal has.
bytes() { # journal
    wc -c <"$base/$1.journal" | tr -d ' '
}

: >"$base/log.journal"
serve 2 1000 log
begun=$(bytes log)
compare 'a history begins' "$(ask version)" '{"closed":0,"places":33,"version":1}'
compare 'the lift is closed' "$(ask closures -H "$key" -d "$closing")" '{"changed":true,"closed":true,"feature":"'$lift'","version":2}'
compare 'what the closing added' $(($(bytes log) - begun)) 21
compare 'a second server' "$(timeout 20 "$program" serve "$base" station 127.0.0.1:$port 1 1 log; echo "status $?")" 'fault disk
status 3'
compare 'a session beside the server' "$(session log)" 'fault disk
status 3'
end
cp "$base/log.journal" "$work/kept"
serve 1 1 log 2>&-
compare 'the version without standard error' "$(ask version)" '{"closed":1,"places":33,"version":2}'
wait $server
compare 'the status without standard error' $? 0
compare 'the journal without standard error' "$(cmp "$base/log.journal" "$work/kept" 2>&1)" ''
timeout 20 "$program" serve "$base" station 127.0.0.1:$port 1 1 log >&-
compare 'the status where nothing can be printed' $? 3
compare 'the journal where nothing can be printed' "$(cmp "$base/log.journal" "$work/kept" 2>&1)" ''

serve 2 1000 log
compare 'the version after a restart' "$(ask version)" '{"closed":1,"places":33,"version":2}'
compare 'what is closed after a restart' "$(ask closures)" '{"closures":\["'$lift'"\],"version":2}'
compare 'a version of before' "$(ask 'version?since=2')" '{"closed":1,"places":33,"version":2}'
compare 'the lift is closed again' "$(ask closures -H "$key" -d "$closing")" '{"changed":false,"closed":true,"feature":"'$lift'","version":2}'
compare 'the lift is opened' "$(ask closures -H "$key" -d "${closing/true/false}")" '{"changed":true,"closed":false,"feature":"'$lift'","version":3}'
end

# Of a journal that has records the folder isn't read.
mv "$base/station" "$base/elsewhere"
serve 2 2 log
compare 'the version without the folder' "$(ask version)" '{"closed":0,"places":33,"version":3}'
compare 'the lift is closed' "$(ask closures -H "$key" -d "$closing")" '{"changed":true,*,"version":4}'
wait $server
compare 'the status' $? 0
compare 'what was printed' "$(cat "$work/printed")" "listening 127.0.0.1:$port
workers 2 sessions 2 versions 4 changes 1"
compare 'what three changes added' $(($(bytes log) - begun)) 63
compare 'a session goes on' "$(session log)" 'HTTP/1.1 200 OK*"version":4}status 0'

compare 'no such journal' "$(session none)" 'fault disk
status 3'
compare 'no journal is made' "$(ls "$base")" 'elsewhere
log.journal
venue.toml'
mv "$base/elsewhere" "$base/station"
printf '\1\11' >"$base/some.journal"
compare 'damaged bytes' "$(session some)" 'damaged 0
status 2'
compare 'what is left of them' "$(bytes some)" 2
printf '\1' >"$base/some.journal"
compare 'the byte 1 alone' "$(session some)" 'HTTP/1.1 200 OK*"version":1}status 0'
compare 'what it became' "$(bytes some)" "$begun"
finish
