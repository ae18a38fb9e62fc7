#!/bin/sh
# Begins the history of a server anew, since a journal never gets shorter: stops the unit, moves its journal aside under the day's name, starts it
# over an empty one, and closes again what was closed, for whom it was. The new history begins with FOLDER, or else with the folder that stands,
# which history.py writes out of the journal into a folder of the base that is named for the day; that alone needs python3.
#
# usage: STAFF_KEY=KEY anew.sh BASE JOURNAL [FOLDER]
# KEY is one of `staff_keys` in BASE/venue.toml, and JOURNAL the last word of the unit's command. The environment may hold AT, where the server
# listens, http://127.0.0.1:7070 if left out; STOP and START, the commands that stop and start it, `systemctl stop venue` and `systemctl start
# venue`; FOLDER_FILE, the file that tells the unit its folder, /etc/venue/folder.conf; and PATIENCE, how many seconds a start may take, 60.
# It prints what it does. Where a word is wrong, the server doesn't answer, the key is none, or the folder can't be written nothing is stopped. Where
# staff change something between the reading and the stop, or a step fails behind the stop, the old history goes on: its journal is put
# back. Each of these ends with status 1, as it does where a feature isn't closed again.
LC_ALL=C # Words are bytes.
export LC_ALL
key=${STAFF_KEY-}
unset STAFF_KEY # What is started doesn't inherit it.
base=${1-}
journal=${2-}
folder=${3-}
at=${AT-http://127.0.0.1:7070}/v1
stop=${STOP-systemctl stop venue}
start=${START-systemctl start venue}
folder_file=${FOLDER_FILE-/etc/venue/folder.conf}
patience=${PATIENCE-60}
file=$base/$journal.journal
written=
is_moved=

fail() {
    echo "anew: $*" >&2
    [ -z "$written" ] || rm -rf "${base:?}/$written"
    exit 1
}

# Whether a word is of the form of a folder's and a journal's names.
is_word() { # a word
    case $1 in '' | *[!a-z0-9_-]*) return 1 ;; esac
    [ "${#1}" -le 64 ]
}

# The first name of this day that nothing in the base has: NAME-2026-12-01, then NAME-2026-12-01-2, NAME-2026-12-01-3 ..
free_name() { # name, what stands behind it
    first=$1-$(date +%Y-%m-%d)
    free=$first
    count=1
    while [ -e "$base/$free$2" ]; do
        count=$((count + 1))
        free=$first-$count
    done
    printf '%s\n' "$free"
}

# Judges the words, and names what will be the old journal.
check_words() { # all words
    [ $# = 2 ] || [ $# = 3 ] || fail 'usage: STAFF_KEY=KEY anew.sh BASE JOURNAL [FOLDER]'
    is_word "$journal" && [ -f "$file" ] && [ ! -L "$file" ] || fail "there is no journal $file, so nothing was stopped"
    [ $# = 2 ] || { is_word "$folder" && [ -f "$base/$folder/manifest.json" ]; } || fail "there is no folder $base/$folder, so nothing was stopped"
    aside=$(free_name "$journal" .journal)
    is_word "$aside" || fail "$aside is too long for a journal's name, so nothing was stopped"
}

# The journal's size and time, which change with each write to it.
last_write() {
    stat -c '%s %y' "$file"
}

is_unchanged() {
    [ "$(last_write)" = "$write_before" ]
}

# Sends a body with the staff key, which is kept out of the list of processes, and prints the reply with its status.
post() { # body
    printf 'x-staff-key: %s\n' "$key" | curl -s --max-time 60 -H @- -d "$1" -w ' %{http_code}' "$at/closures"
}

# Bodies as staff read them: the feature, and for whom where that isn't for all.
told() { # bodies
    printf '%s\n' "$*" | sed -e 's/{"feature":"\([^"]*\)","closed":true/\1/g' -e 's/,"profiles":\[\([^]]*\)]/ for \1/g' -e 's/[}"]//g'
}

# What is closed, as the bodies that close it again, and at which version. Each row becomes a body, and no row a space. An identifier has 36
# characters and a profile's name at most 32, so they are told apart; neither has a space or a brace.
read_closed() {
    write_before=$(last_write)
    reply=$(curl -sf --max-time 60 "$at/closures") || fail "$at doesn't answer, so nothing was stopped"
    bodies=$(printf '%s\n' "$reply" | sed -n 's/^{"closures":\[\(.*\)\],"version":[0-9]*}$/\1 /p' |
        sed -e 's/"[0-9a-f-]\{36\}"/{"feature":&,"closed":true}/g' -e 's/{"feature":\({[^}]*\)},"profiles"/\1,"profiles"/g' -e 's/},{/} {/g')
    [ -n "$bodies" ] || fail "$at doesn't tell what is closed, so nothing was stopped"
    version=$(printf '%s\n' "$reply" | sed 's/.*"version":\([0-9]*\)}$/\1/')
}

# A body that asks for nothing tells whether the key is one: 400 where it is, else 403.
try_key() {
    case $(post '{}') in
        *400) ;;
        *) fail 'the staff key is refused, so nothing was stopped' ;;
    esac
}

# Writes the folder that stands out of the journal. Whoever may enter the base may read it.
write_folder() {
    folder=$(free_name anew '')
    written=$folder
    python3 "$(dirname "$0")/history.py" "$base" "$journal" --files "$version" "$base/$folder" >/dev/null && chmod -R a+rX "$base/$folder" ||
        fail "the folder that stands couldn't be written out of $file, so nothing was stopped"
}

clear_away() {
    rm -f "$file.new" "$folder_file.new" "$folder_file.old"
}

# Lays out what the new start needs beside its place: an empty journal with the owner, the group and the rights of the old one, and the folder's name.
lay_out() {
    clear_away
    mkdir -p "$(dirname "$folder_file")" && printf 'FOLDER=%s\n' "$folder" >"$folder_file.new" &&
        { [ ! -e "$folder_file" ] || cp -p "$folder_file" "$folder_file.old"; } &&
        cp -p --attributes-only "$file" "$file.new" || fail "what the new start needs couldn't be laid out, so nothing was stopped"
}

# Puts both in their places. At each moment there is a journal of this name, and the old one has its other name before it loses this one. The names
# are on the disk before a change is kept under them.
exchange() {
    mv -f "$folder_file.new" "$folder_file" && ln "$file" "$base/$aside.journal" && is_moved=1 && mv -f "$file.new" "$file" && sync "$base"
}

is_answered() { # more words for curl
    curl -sf -o /dev/null --max-time 10 "$@" "$at/version"
}

start_server() {
    sh -c "$start" && is_answered --retry "$patience" --retry-delay 1 --retry-connrefused --retry-max-time "$patience"
}

# Starts the server with the old journal, and ends.
go_back() { # why
    sh -c "$stop"
    [ -z "$is_moved" ] || mv -f "$base/$aside.journal" "$file"
    if [ -e "$folder_file.old" ]; then mv -f "$folder_file.old" "$folder_file"; else rm -f "$folder_file"; fi
    start_server || fail "$1; the old journal is in its place, but the server doesn't answer with it either"
    fail "$1, so the old history goes on"
}

check_words "$@"
read_closed
try_key
set -f # A body has brackets, which are no pattern of files.
echo "anew: closed before:" $(told "$bodies")

trap clear_away EXIT
trap 'fail "it was interrupted, so nothing was stopped"' HUP INT TERM
[ -n "$folder" ] || write_folder
lay_out
is_unchanged || fail 'staff changed something meanwhile, so nothing was stopped'

# From here on a signal doesn't end the script.
trap : HUP INT TERM
sh -c "$stop" || go_back 'the stop failed'
! is_answered || go_back 'the server answers behind the stop'
is_unchanged || go_back 'staff changed something before the stop'
exchange || go_back "$file couldn't be moved"
start_server || go_back "the server doesn't answer with $folder"
[ -s "$file" ] || go_back "the server doesn't keep $file"
clear_away
echo "anew: begun with $folder, and the old journal is $aside"

status=0
for body in $bodies; do
    reply=$(post "$body")
    echo "anew: $(told "$body"): $reply"
    case $reply in *200) ;; *) status=1 ;; esac
done
exit $status
