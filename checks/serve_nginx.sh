#!/bin/bash
# Starts nginx by examples/serve/nginx.conf, at ports that are free and with a certificate made for this run, in front of a server over the
# example station and beside the pages, and compares what a visitor and staff are answered. The staff's network is 127.0.0.2 here, and visitors come from 127.0.0.1.
#
# usage: serve_nginx.sh [PROGRAM]   (without PROGRAM the launcher ./venue, which builds the program if need be)
# It prints a line for each difference and one at the end, and ends with status 1 at a difference.
program=${1-$(dirname "$0")/../venue}
. "$(dirname "$0")/serving.sh"
PATH=$PATH:/usr/sbin
need nginx openssl curl python3

# Starts nginx at the port that follows the server's.
proxy() {
    openssl req -x509 -newkey rsa:2048 -nodes -days 1 -subj /CN=localhost -keyout "$work/key.pem" -out "$work/certificate.pem" 2>/dev/null || exit 1
    "$here/examples/serve/staff_keys.py" "$here/examples" >"$work/venue-keys.conf" || exit 1
    sed -e "s#127.0.0.1:7070#127.0.0.1:$port#; s#listen 443#listen 127.0.0.1:$((port + 1))#; s#10.0.0.0/8#127.0.0.2#; /^user /d" \
        -e "s#/opt/fergoljin/web#$here/examples/web#; s#/srv/venue-site#$work/site#" \
        -e "s#/etc/ssl/venue/#$work/#; s#/etc/nginx/#$work/#; s#/run/#$work/#; s#/var/log/nginx/#$work/#" \
        -e "s#^http {#&\n$(printf "%s_temp_path $work/%s;" client_body client_body proxy proxy fastcgi fastcgi uwsgi uwsgi scgi scgi)#" \
        "$here/examples/serve/nginx.conf" >"$work/nginx.conf"
    nginx -t -q -e "$work/early.log" -c "$work/nginx.conf" || exit 1
    nginx -e "$work/early.log" -c "$work/nginx.conf" -g 'daemon off;' &
    processes+=($!)
    curl -ks -o /dev/null --max-time 20 --retry 20 --retry-delay 1 --retry-connrefused "$at/version"
}

ask() { # from which address, path, words for curl
    curl -ks --max-time 20 --interface "$1" -w ' %{http_code}' "${@:3}" "$at/$2" | tr -d '\r\n'
}

serve 4 1000
at=https://127.0.0.1:$((port + 1))/v1
visitor=127.0.0.1
staff=127.0.0.2
proxy
compare 'the version' "$(ask $visitor version)" '{"closed":0,"places":33,"version":1} 200'
compare 'a closing by a visitor' "$(ask $visitor closures -H "$key" -d "$closing")" '*403'
compare 'a publication by a visitor' "$(ask $visitor publish -H "$key" -d '{"folder":"station"}')" '*403'
compare 'what is closed' "$(ask $visitor closures)" '{"closures":\[\],"version":1} 200'
compare 'a closing without a key' "$(ask $staff closures -d "$closing")" '{"error":"not_staff"} 403'
compare 'a closing' "$(ask $staff closures -H "$key" -d "$closing")" '{"changed":true,"closed":true,"feature":"'$lift'","version":2} 200'
compare 'a rejected folder' "$(ask $staff publish -H "$key" -d '{"folder":"tall"}')" '{"error":"rejected",*} 422'
compare 'a publication' "$(ask $staff publish -H "$key" -d '{"folder":"station"}')" '{"dropped":\[\],"version":3} 200'
compare 'an opening again' "$(ask $staff closures -H "$key" -d '{ "closed": false, "feature": "'$lift'" }')" '{"changed":true,"closed":false,*} 200'
compare 'another body' "$(ask $staff closures -H 'x-staff-key: none-of-them' -d '{"feature":"","x":1}')" '*403'
compare 'a closing again' "$(ask $staff closures -H "$key" -d "$closing")" '{"changed":true,"closed":true,*} 200'
compare 'what is closed then' "$(ask $visitor 'closures?since=5')" '{"closures":\["'$lift'"\],"version":5} 200'
compare 'a version to come' "$(ask $visitor 'version?since=6')" '{"error":"version_ahead","since":6,"version":5} 409'
compare 'a HEAD' "$(ask $visitor version -I)" '*text/html*405'
compare 'a PUT' "$(ask $staff closures -X PUT -d x)" '<html>*405'
compare 'another path' "$(ask $visitor ../../index.html --path-as-is)" '*400'
compare 'no path of the server' "$(ask $visitor ../other.html)" '*404'
head -c 65536 /dev/zero >"$work/large"
compare 'a body of 65,536 bytes' "$(ask $staff closures -H "$key" --data-binary "@$work/large")" '{"error":"bad_body"} 400'
printf x >>"$work/large"
compare 'a large body' "$(ask $staff closures -H "$key" --data-binary "@$work/large")" '<html>*413'
# Closures for some, in the order of members in which they are told, in the other one, and with names that are none.
stairs='"feature":"00000000-0000-4000-8000-000000000022"'
first=$(grep -c . "$work/venue-changes.log")
compare 'a closing for some' "$(ask $staff closures -H "$key" -d "{$stairs,\"closed\":true,\"profiles\":[\"walk\"]}")" '{"changed":true,*,"profiles":\["walk"\],"version":6} 200'
compare 'an opening for some' "$(ask $staff closures -H "$key" -d "{ \"closed\": false, $stairs, \"profiles\": [ \"wheelchair\" , \"walk\" ] }")" '{"changed":true,*,"profiles":\["walk","wheelchair"\],"version":7} 200'
compare 'a closing for all by null' "$(ask $staff closures -H "$key" -d "{$stairs,\"closed\":true,\"profiles\":null}")" '{"changed":true,*,"version":8} 200'
compare 'a name of nobody' "$(ask $staff closures -H "$key" -d "{$stairs,\"closed\":true,\"profiles\":[\"a\\\"} close\u000a\"]}")" '{"error":"no_such_profile"} 404'
compare 'names that are none' "$(ask $staff closures -H "$key" -d "{$stairs,\"closed\":true,\"profiles\":[]}")" '{"error":"bad_body"} 400'
# Each change so far, as the log tells it: address, key, what was asked and the status. No key stands there.
logged() { # line
    sed -n "$1 s/.*\"address\":\"\([^\"]*\)\",\"key\":\"\([^\"]*\)\".*\"asked\":\"\(.*\)\",\"status\":\([0-9]*\)}/\1 \2 \3 \4/p" "$work/venue-changes.log"
}
compare 'the log of a visitor' "$(logged 1)" "$visitor 0 - 403"
compare 'the log without a key' "$(logged 3)" "$staff - close $lift 403"
compare 'the log of a closing' "$(logged 4)" "$staff 0 close $lift 200"
compare 'the log of a rejected folder' "$(logged 5)" "$staff 0 publish tall 422"
compare 'the log of a publication' "$(logged 6)" "$staff 0 publish station 200"
compare 'the log of an opening' "$(logged 7)" "$staff 0 open $lift 200"
compare 'the log of another body' "$(logged 8)" "$staff - body {*x*:1} 403"
told=${stairs#*:}
told=${told//\"/}
compare 'the log of a closing for some' "$(logged $((first + 1)))" "$staff 0 close $told for *walk* 200"
compare 'the log of an opening for some' "$(logged $((first + 2)))" "$staff 0 open $told for *wheelchair*,*walk* 200"
compare 'the log of a closing by null' "$(logged $((first + 3)))" "$staff 0 close $told 200"
compare 'the log of a name of nobody' "$(logged $((first + 4)))" "$staff 0 body {*profiles*:\\[*a*} close* 404"
compare 'the log of names that are none' "$(logged $((first + 5)))" "$staff 0 body {*profiles*:\\[\\]} 400"
compare 'the lines of the log are JSON' "$(python3 -c 'import json, sys; print(*{json.loads(line)["asked"] for line in sys.stdin}, sep="\n")' <"$work/venue-changes.log" | grep -a ' for ')" "*close $told for \"walk\"*"
compare 'keys in logs and settings' "$(grep -rlF desk-key-1 "$work"/*.log "$work"/*.conf)" ''
# The pages: those of visitors for all, that of staff for their network, and nothing of the base.
mkdir -p "$work/site/folders"
echo '{}' | tee "$work/site/site.json" >"$work/site/folders/folders.json"
chmod a+x "$work" && chmod -R a+rX "$work/site"
kind() { # from which address, path
    curl -ks --max-time 20 --interface "$1" -o /dev/null -w '%{http_code} %{content_type}' "${at%/v1}/$2"
}
for page in '' index.html; do compare "a visitor's page at /$page" "$(kind $visitor "$page")" '200 text/html*'; done
compare 'its script' "$(kind $visitor frame.js)" '200 text/javascript*'
compare 'its settings' "$(kind $visitor site.json)" '200 application/json*'
for page in staff.html staff/page.js folders/folders.json; do
    compare "/$page for a visitor" "$(kind $visitor $page)" '403 *'
    compare "/$page for staff" "$(kind $staff $page)" '200 *'
done
compare 'a script that writes pages' "$(kind $staff staff.py)" '404 *'
compare 'the settings of the base' "$(kind $staff venue.toml)" '404 *'
compare 'what a browser may load' "$(curl -ksI --interface $staff -X GET "${at%/v1}/staff.html" | grep -ci "^content-security-policy: default-src 'none'")" 1
# At a rate of 10 a second with 40 at once, most of three hundred questions are refused.
many=$(printf "$at/version %.0s" {1..300})
statuses() { # addresses
    curl -ks --max-time 20 -w '\n%{http_code}\n' "$@" | grep -x '[0-9]\+' | sort -u | tr '\n' ' '
}
compare 'many questions' "$(statuses $many)" '200 429 '
# A hundred pages that ask what is closed are answered.
compare 'many that watch' "$(statuses $(printf "$at/closures %.0s" {1..100}))" '200 '
finish
