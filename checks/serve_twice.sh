#!/bin/bash
# Serves the example station by `venue serve` with two workers for six connections by curl, one that asks for the version, one that closes
# the lift, one that closes the stairs for walkers, one that names a profile of nobody, one that asks what is closed, and one that sends a HEAD, and
# compares the replies, both lines that are printed, and the status. Then a story of examples/sessions, which `session` serves by a hall of its own,
# over a seat of the hall that two workers share.
#
# usage: serve_twice.sh [PROGRAM]   (without PROGRAM the launcher ./venue, which builds the program if need be)
# It prints a line for each difference and one at the end, and ends with status 1 at a difference.
program=${1-$(dirname "$0")/../venue}
. "$(dirname "$0")/serving.sh"
need curl

stairs=00000000-0000-4000-8000-000000000022
serve 2 6
at=http://127.0.0.1:$port/v1
compare version "$(curl -s --max-time 20 $at/version)" '{"closed":0,"places":33,"version":1}'
compare closing "$(curl -s --max-time 20 -H "$key" -d "$closing" $at/closures)" '{"changed":true,"closed":true,"feature":"'$lift'","version":2}'
some='{"feature":"'$stairs'","closed":true,"profiles":["walk"]}'
compare 'a closing for some' "$(curl -s --max-time 20 -H "$key" -d "$some" $at/closures)" '{"changed":true,"closed":true,"feature":"'$stairs'","profiles":\["walk"\],"version":3}'
compare 'a profile of nobody' "$(curl -s --max-time 20 -H "$key" -d "${some/walk/bicycle}" $at/closures)" '{"error":"no_such_profile"}'
compare 'what is closed' "$(curl -s --max-time 20 $at/closures)" '{"closures":\[{"feature":"'$stairs'","profiles":\["walk"\]},"'$lift'"\],"version":3}'
compare 'a HEAD' "$(curl -sI --max-time 20 -w '%{size_download}' $at/version | tr -d '\r')" 'HTTP/1.1 405 Method Not Allowed
content-type: application/json
content-length: 18
allow: GET
connection: close

0'
wait $server
compare 'the status' $? 0
compare 'what was printed' "$(cat "$work/printed")" "listening 127.0.0.1:$port
workers 2 sessions 6 versions 3 changes 2"

story=$here/examples/sessions/closed_for_some
serve 2 1
exec 3<>"/dev/tcp/127.0.0.1/$port"
cat "$story/request" >&3
compare 'the story of closures for some' "$(timeout 20 head -c "$(wc -c <"$story/reply")" <&3 | cmp - "$story/reply" 2>&1)" ''
exec 3>&-
wait $server
compare 'the status after the story' $? 0
compare 'what was printed then' "$(cat "$work/printed")" "listening 127.0.0.1:$port
workers 2 sessions 1 versions 5 changes 4"
finish
