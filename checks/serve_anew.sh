#!/bin/bash
# Begins the history of a server over the example station anew by examples/serve/anew.sh, where to stop is to end the process and to start is to
# start another one with the words of examples/serve/venue.service. It compares what is closed before and after, for all and for some, the old
# journal, the new one's owner and rights, and the folder with which the history begins. Nothing is stopped without a key, by wrong words,
# or where nobody listens; the old history goes on, byte for byte, where the new start fails, or staff change something meanwhile.
#
# usage: serve_anew.sh [PROGRAM]   (without PROGRAM the launcher ./venue, which builds the program if need be)
# It prints a line for each difference and one at the end, and ends with status 1 at a difference. What needs examples/serve/history.py or
# python3 is skipped where they are missing.
program=${1-$(dirname "$0")/../venue}
. "$(dirname "$0")/serving.sh"
need curl
script=$here/examples/serve/anew.sh
unit=$here/examples/serve/venue.service
folder_file=$work/etc/folder.conf
ramp=00000000-0000-4000-8000-000000000024
stairs=00000000-0000-4000-8000-000000000022
room=00000000-0000-4000-8000-000000000305
day=2026-12-01
# A base with two profiles more, one of them with a name as long as names may be.
base=$work/base
pram=pram-or_a-cart-of-32_characters_
mkdir "$base" && cp -R "$here/examples/station" "$here/examples/nolift" "$here/examples/tall" "$here/examples/venue.toml" "$base" || exit 1
printf '[[profile]]\nname = "%s"\nramp = true\n' 36 "$pram" >>"$base/venue.toml"

# What the server answers.
ask() { # path, words for curl
    curl -s --max-time 20 "${@:2}" "http://127.0.0.1:$port/v1/$1"
}

# Closes a feature, for these profiles.
close() { # feature, names in quotation marks
    ask closures -H "$key" -d "{\"feature\":\"$1\",\"closed\":true${2:+,\"profiles\":[$2]}}"
}

# Runs the script, and prints what is said and the status. Its day is always the same, and its words for curl are written down.
begin() { # key, words behind BASE
    AT=http://127.0.0.1:$port STAFF_KEY=$1 STOP=${stop-$work/stop} START=${start-$work/start} FOLDER_FILE=$folder_file \
        PATH=$work/bin:$PATH "$script" "$base" "${@:2}" 2>&1
    echo "status $?"
}

# What is there: the names in the base, the journal's bytes, the folder of the next start, and the version that stands.
state() {
    ls "$base"
    cksum <"$base/log.journal"
    cat "$folder_file" 2>&1
    ask version
}

# The same with the process that serves, which is another one behind a stop.
whole_state() {
    cat "$work/process"
    state
}

# An executable script of this name.
write_script() { # path
    { echo '#!/bin/bash'; cat; } >"$1" && chmod +x "$1"
}

: >"$base/log.journal"
# The first server finds a port that is free, and ends with its one connection.
serve 1 1 log
ask version >/dev/null
wait $server
words=$(sed -n "s#/srv/venue#$base#; s#127.0.0.1:7070#127.0.0.1:$port#; s#^ExecStart=[^ ]* ##p" "$unit")
write_script "$work/start" <<TEXT
env >>'$work/words'
$(sed -n 's/^Environment=//p' "$unit")
[ ! -e '$folder_file' ] || . '$folder_file'
: >'$work/process'
{
    timeout 300 '$program' $words &
    echo \$! >'$work/process'
    wait
    rm -f '$work/process'
} >>'$work/printed' 2>&1 &
TEXT
write_script "$work/stop" <<TEXT
for _ in {1..300}; do
    [ -e '$work/process' ] || exit 0
    kill -- -\$(cat '$work/process') # Its group, since timeout may not know yet what it has begun.
    sleep 0.1
done 2>/dev/null
exit 1
TEXT
mkdir "$work/bin"
write_script "$work/bin/curl" <<TEXT
echo "\$*" >>'$work/words'
exec '$(command -v curl)' "\$@"
TEXT
write_script "$work/bin/date" <<<"echo $day"
trap '"$work/stop"; wait; rm -rf "$work"' EXIT

# Starts the server as the unit would, and waits until it answers.
start_anyhow() {
    "$work/start"
    ask version -o /dev/null --retry 60 --retry-delay 1 --retry-connrefused
}

# A command that starts the server with this folder, and with no other.
start_with() { # a folder's name
    echo "grep -qx 'FOLDER=$1' '$folder_file' && '$work/start'"
}

chmod 664 "$base/log.journal"
chown 1:1 "$base/log.journal" 2>/dev/null # Root alone may do this.
rights=$(stat -c '%u %g %a' "$base/log.journal")
start_anyhow

compare 'the lift is closed' "$(close $lift)" '{"changed":true,*'
compare 'the ramp is closed' "$(close $ramp)" '{"changed":true,*'
compare 'the lift is opened' "$(ask closures -H "$key" -d "${closing/true/false}")" '{"changed":true,*'
compare 'the lift is closed' "$(close $lift)" '{"changed":true,*'
before=$(whole_state)
refused='anew: the staff key is refused, so nothing was stopped
status 1'
compare 'no key' "$(begin '' log station)" "$refused"
compare 'a key of nobody' "$(begin desk-key-2 log station)" "$refused"
compare 'no words' "$(begin desk-key-1)" 'anew: usage: *
status 1'
compare 'no such journal' "$(begin desk-key-1 none station)" "anew: there is no journal $base/none.journal, so nothing was stopped
status 1"
mkdir "$base/folder.journal"
compare 'a journal that is a folder' "$(begin desk-key-1 folder station)" 'anew: there is no journal *
status 1'
rmdir "$base/folder.journal"
ln -s log.journal "$base/link.journal"
compare 'a journal that is a link' "$(begin desk-key-1 link station)" 'anew: there is no journal *
status 1'
rm "$base/link.journal"
compare 'a journal of another form' "$(begin desk-key-1 ../base/log station)" 'anew: there is no journal *
status 1'
long=a$(printf '%063d' 0)
: >"$base/$long.journal"
compare 'a name that leaves no room' "$(begin desk-key-1 $long station)" "anew: $long-$day is too long for a journal's name, so nothing was stopped
status 1"
rm "$base/$long.journal"
compare 'a folder that is not there' "$(begin desk-key-1 log nowhere)" "anew: there is no folder $base/nowhere, so nothing was stopped
status 1"
compare 'a folder of another form' "$(begin desk-key-1 log ../base/station)" 'anew: there is no folder *
status 1'
compare 'a folder without a name' "$(begin desk-key-1 log '')" 'anew: there is no folder *
status 1'
mkdir "$base/empty"
compare 'a folder without a manifest' "$(begin desk-key-1 log empty)" 'anew: there is no folder *
status 1'
rmdir "$base/empty"
mkdir "$work/alone" && cp "$script" "$work/alone"
compare 'no script that writes the folder' "$(script=$work/alone/anew.sh begin desk-key-1 log)" "*
anew: the folder that stands couldn't be written out of $base/log.journal, so nothing was stopped
status 1"
compare 'what is there after all these' "$(whole_state)" "$before"

cp "$base/log.journal" "$work/first"
compare 'a new history' "$(begin desk-key-1 log station)" "anew: closed before: $ramp $lift
anew: begun with station, and the old journal is log-$day
anew: $ramp: {\"changed\":true,*,\"version\":2} 200
anew: $lift: {\"changed\":true,*,\"version\":3} 200
status 0"
compare 'what is closed then' "$(ask closures)" '{"closures":\["'$ramp'","'$lift'"\],"version":3}'
compare 'a version of before' "$(ask 'version?since=5')" '{"error":"version_ahead","since":5,"version":3}'
compare 'the old journal' "$(cmp "$work/first" "$base/log-$day.journal" 2>&1)" ''
compare 'the rights of the old journal' "$(stat -c '%u %g %a' "$base/log-$day.journal")" "$rights"
compare 'the rights of the new journal' "$(stat -c '%u %g %a' "$base/log.journal")" "$rights"
compare 'the folder of the next start' "$(cat "$folder_file")" FOLDER=station
compare 'what is in the base' "$(ls "$base")" "log-$day.journal
log.journal
nolift
station
tall
venue.toml"
compare 'what the old journal keeps' "$(printf 'GET /v1/closures HTTP/1.0\r\n\r\n' | timeout 60 "$program" session "$base" station "log-$day")" \
    '*{"closures":\["'$ramp'","'$lift'"\],"version":5}'
cp "$base/log.journal" "$work/second"
compare 'a folder without the lift, on the same day' "$(begin desk-key-1 log nolift)" "anew: closed before: $ramp $lift
anew: begun with nolift, and the old journal is log-$day-2
anew: $ramp: {\"changed\":true,*,\"version\":2} 200
anew: $lift: {\"error\":\"no_such_feature\"} 404
status 1"
compare 'what is closed then' "$(ask closures)" '{"closures":\["'$ramp'"\],"version":2}'
compare 'the journal before the last' "$(cmp "$work/first" "$base/log-$day.journal" 2>&1)" ''
compare 'the last journal' "$(cmp "$work/second" "$base/log-$day-2.journal" 2>&1)" ''
compare 'the folder of the next start' "$(cat "$folder_file")" FOLDER=nolift

# For some beside those for all: a row for one, for several, and for all whom the settings have, which is the identifier again.
compare 'the stairs are closed for one' "$(close $stairs '"walk"')" '{"changed":true,*"profiles":\["walk"\],*'
compare 'a room is closed for some' "$(close $room "\"$pram\",\"wheelchair\",\"36\"")" '{"changed":true,*"profiles":\["wheelchair","36","'$pram'"\],*'
compare 'the ramp is opened' "$(ask closures -H "$key" -d "{\"feature\":\"$ramp\",\"closed\":false}")" '{"changed":true,*'
compare 'the ramp is closed for all by name' "$(close $ramp "\"walk\",\"wheelchair\",\"36\",\"$pram\"")" '{"changed":true,*'
some='{"feature":"'$stairs'","profiles":\["walk"\]},"'$ramp'",{"feature":"'$room'","profiles":\["wheelchair","36","'$pram'"\]}'
compare 'before' "$(ask closures)" "{\"closures\":\\[$some\\],\"version\":6}"
compare 'closures for some' "$(begin desk-key-1 log nolift)" "anew: closed before: $stairs for walk $ramp $room for wheelchair,36,$pram
anew: begun with nolift, and the old journal is log-$day-3
anew: $stairs for walk: {\"changed\":true,*\"profiles\":\[\"walk\"\],\"version\":2} 200
anew: $ramp: {\"changed\":true,\"closed\":true,\"feature\":\"$ramp\",\"version\":3} 200
anew: $room for wheelchair,36,$pram: {\"changed\":true,*,\"version\":4} 200
status 0"
compare 'what is closed then' "$(ask closures)" "{\"closures\":\\[$some\\],\"version\":4}"
sed -i 's/"36"/"37"/' "$base/venue.toml"
compare 'a profile that is gone' "$(begin desk-key-1 log nolift)" "anew: closed before: $stairs for walk $ramp $room for wheelchair,36,$pram
anew: begun with nolift, and the old journal is log-$day-4
anew: $stairs for walk: * 200
anew: $ramp: * 200
anew: $room for wheelchair,36,$pram: {\"error\":\"no_such_profile\"} 404
status 1"
compare 'what is closed then' "$(ask closures)" '{"closures":\[{"feature":"'$stairs'","profiles":\["walk"\]},"'$ramp'"\],"version":3}'

# Behind the stop: what fails there puts the old journal back, and the old history goes on.
before=$(state)
goes_on="anew: closed before: $stairs for walk $ramp
anew: WHY, so the old history goes on
status 1"
compare 'a folder that is rejected' "$(PATIENCE=20 begin desk-key-1 log tall)" "${goes_on/WHY/the server doesn\'t answer with tall}"
compare 'what is there then' "$(state)" "$before"
compare 'a start that fails' "$(start=$(start_with nolift) begin desk-key-1 log station)" "${goes_on/WHY/the server doesn\'t answer with station}"
compare 'what is there then' "$(state)" "$before"
compare 'a stop that fails' "$(stop=false start=true begin desk-key-1 log station)" "${goes_on/WHY/the stop failed}"
compare 'a stop that stops nothing' "$(stop=true start=true begin desk-key-1 log station)" "${goes_on/WHY/the server answers behind the stop}"
compare 'what is there then' "$(state)" "$before"
: >"$base/other.journal"
compare 'a journal that the server does not keep' "$(begin desk-key-1 other station)" "${goes_on/WHY/the server doesn\'t keep $base\/other.journal}"
rm "$base/other.journal"
compare 'what is there then' "$(state)" "$before"
rm "$folder_file"
before=$(state)
not_told="[ ! -e '$folder_file' ] && '$work/start'"
compare 'a start that fails, where no folder was told before' "$(start=$not_told begin desk-key-1 log station)" \
    "${goes_on/WHY/the server doesn\'t answer with station}"
compare 'what is there then' "$(state)" "$before"

# Staff who change something between the reading and the stop lose nothing: this stands in the place of a command, and does so.
write_change() { # path of a script, path, body
    write_script "$1" <<<"'$(command -v curl)' -s -o /dev/null --max-time 20 -H '$key' -d '$3' http://127.0.0.1:$port/v1/$2"
}

write_change "$work/change" closures '{"feature":"'$room'","closed":true}'
change_and_stop="'$work/change'; '$work/stop'"
compare 'a closing in the stop' "$(stop=$change_and_stop begin desk-key-1 log station)" "${goes_on/WHY/staff changed something before the stop}"
compare 'what is closed then' "$(ask closures)" '{"closures":\[{"feature":"'$stairs'","profiles":\["walk"\]},"'$ramp'","'$room'"\],"version":4}'

# A signal to the script, whose process is the parent of what it starts: what was begun is carried on.
signalling="kill \$PPID; '$work/start'"
compare 'a signal behind the stop' "$(start=$signalling begin desk-key-1 log station)" "anew: closed before: $stairs for walk $ramp $room
anew: begun with station, and the old journal is log-$day-5
anew: $stairs for walk: * 200
anew: $ramp: * 200
anew: $room: * 200
status 0"
before=$(whole_state)
mkdir "$work/interrupting"
write_script "$work/interrupting/python3" <<<'mkdir "${!#}"; kill $PPID'
compare 'a signal in front of it' "$(PATH=$work/interrupting:$PATH begin desk-key-1 log)" 'anew: closed before: *
anew: it was interrupted, so nothing was stopped
status 1'
compare 'what is there then' "$(whole_state)" "$before"
mkdir "$work/changing"
write_change "$work/changing/python3" closures "$closing"
echo 'mkdir "${!#}"' >>"$work/changing/python3"
process=$(cat "$work/process")
compare 'a closing while the folder is written' "$(PATH=$work/changing:$PATH begin desk-key-1 log)" 'anew: closed before: *
anew: staff changed something meanwhile, so nothing was stopped
status 1'
compare 'what is closed then' "$(ask closures)" '{"closures":\[{"feature":"'$stairs'","profiles":\["walk"\]},"'$ramp'","'$lift'","'$room'"\],"version":5}'
compare 'which process serves' "$(cat "$work/process")" "$process"

# The folder that stands, which nobody has any more but the journal.
if [ -e "$here/examples/serve/history.py" ] && command -v python3 >/dev/null; then
    cp -R "$base/station" "$base/later" && sed -i 's/Tickets/Counter/' "$base/later/occupant.geojson"
    compare 'another folder is published' "$(ask publish -H "$key" -d '{"folder":"later"}')" '{"dropped":\[\],"version":6}'
    mv "$base/later" "$work/published"
    closed='{"closures":\[{"feature":"'$stairs'","profiles":\["walk"\]},"'$ramp'","'$lift'","'$room'"\],"version":5}'
    before=$(state)
    compare 'a start that fails without a folder' "$(start=$(start_with station) begin desk-key-1 log)" "anew: closed before: *
anew: the server doesn't answer with anew-$day, so the old history goes on
status 1"
    compare 'what is there then' "$(state)" "$before"
    for again in '' -2; do
        compare 'the folder that stands' "$(umask 077 && begin desk-key-1 log)" "anew: closed before: $stairs for walk $ramp $lift $room
anew: begun with anew-$day$again, and the old journal is log-$day-*
status 0"
        compare 'what is closed then' "$(ask closures)" "$closed"
        compare 'its files' "$(diff -r "$work/published" "$base/anew-$day$again" 2>&1)" ''
        compare 'who may not read them' "$(find "$base/anew-$day$again" ! -perm -004)" ''
        compare 'the folder of the next start' "$(cat "$folder_file")" "FOLDER=anew-$day$again"
    done
    write_change "$work/change" publish '{"folder":"nolift"}'
    compare 'a publication in the stop' "$(stop=$change_and_stop begin desk-key-1 log)" 'anew: closed before: *
anew: staff changed something before the stop, so the old history goes on
status 1'
    without_lift='{"closures":\[{"feature":"'$stairs'","profiles":\["walk"\]},"'$ramp'","'$room'"\],"version":6}'
    compare 'what is closed then' "$(ask closures)" "$without_lift"
else
    echo "$name: the folder that stands is skipped, since there is no history.py or no python3"
fi

compare 'a key in the words for curl, or where the server starts' "$(grep -c desk-key "$work/words")" 0
"$work/stop"
compare 'nobody there' "$(begin desk-key-1 log nolift)" "anew: http://127.0.0.1:$port/v1 doesn't answer, so nothing was stopped
status 1"
finish
