#!/bin/bash
# What the launcher ./venue tells itself: its usage, which names each command that there is and no other, a rule, a name that no rule has, the
# version, and what a misspelt command is told. Each command of the usage is tried once, so that the usage names none that the program lacks;
# what commands print is compared elsewhere. Then, in copies of the launcher over a stand-in for the program, when it takes a ready program, and
# when it says why not.
#
# usage: launcher.sh
# It prints a line for each difference and one at the end, and ends with status 1 at a difference. A program that isn't built is built.
cd "$(dirname "$0")/.." || exit 1
bakery=00000000-0000-4000-8000-000000000051
tickets=00000000-0000-4000-8000-000000000052
asked=0
differences=0

# Runs the launcher with these words, and compares the status and the front of what is printed.
expect() { # status, front, words
    wanted=$1 front=$2
    shift 2
    asked=$((asked + 1))
    found=$(timeout 60 ./venue "$@" </dev/null 2>/dev/null)
    status=$?
    [ "$status" = "$wanted" ] && [ "${found:0:${#front}}" = "$front" ] && return
    differences=$((differences + 1))
    echo "launcher: ./venue $*: status $status, and printed: $found"
}

# The same, where all that is printed is compared.
expect_all() { # status, text, words
    before=$differences
    expect "$@"
    [ "$differences" != "$before" ] || [ "$found" = "$2" ] && return
    differences=$((differences + 1))
    echo "launcher: ./venue ${*:3} printed: $found"
}

./venue build || exit 1
expect 2 'usage:'
usage=$found
expect_all 0 "$usage" --help
expect_all 2 '' --version x
expect_all 2 '' build x
expect 2 'usage:' --try
expect_all 0 'K1, fourth phase: rings, and what lies in what
what it asks: Each vertex of a unit lies on its level.
an example that breaks it: unit #0307 from (60,20) to (62,61), one metre beyond the level
finding: `K1 unit.geojson 7 0`
how to mend it: Move the vertex, widen the level, or correct `level_id`.
a picture: docs/pictures/K1.svg' rule k1
expect_all 2 '' rule K9
expect_all 2 '' rule
# By the radii of curvature of WGS 84: pi / 180 a cos 45 / w and pi / 180 a (1 - e^2) / w^3, w^2 = 1 - e^2 / 2.
expect_all 0 'kx = 7884684
ky = 11113178' scale 45
expect_all 2 '' scale 91
expect_all 2 '' advise examples
expect_all 2 '' history examples
expect_all 2 words odd words
listed=$(./venue odd words 2>&1 >/dev/null)
[ "$(tail -n +2 <<<"$listed" | sed 's/^  //')" = "$(grep '^\./venue' <<<"$usage")" ] || {
    differences=$((differences + 1))
    echo "launcher: of a misspelt command it says: $listed"
}
expect 0 'commit ' --version
case $found in
    "commit $(git rev-parse HEAD 2>/dev/null || echo 'of no git clone')"*$'\n'*rattle*) ;;
    *)
        differences=$((differences + 1))
        echo "launcher: the version is told as: $found"
        ;;
esac

# A command, a status and the front of what it prints, and words for it.
while read -r command wanted front words; do
    tried="$tried$command"$'\n'
    [ "$front" != - ] || front=
    expect "$wanted" "$front" "$command" $words
done <<TEXT
price 0 cost examples/table
verify 0 proved examples/table
check 0 accepted examples station
canon 0 {"created" examples station manifest.json
links 0 imdf-links examples station walk
route 0 imdf-answer examples station walk $bakery $tickets
session 0 - examples station
serve 3 fault examples station nowhere 1 1
gen 0 features 1
rule 0 F1, F1
advise 1 advice examples station
scale 0 kx 50
history 2 - examples none
build 0 -
prove 0 proved
--version 0 commit
TEXT
# --try, of which the usage's head is asked above, would compile for minutes, and the demo goes on until it is ended (curl_lines.py tries it).
named=$(sed -n 's|^\./venue \([a-z-]*\).*|\1|p' <<<"$usage" | grep -vx -e --try -e demo | sort)
[ "$named" = "$(sort <<<"${tried%$'\n'}")" ] || {
    differences=$((differences + 1))
    echo "launcher: the usage names $(tr '\n' ' ' <<<"$named")"
}

# A clone with stand-ins for the kit and for the build, which makes a program that says what it is.
copy=$(mktemp -d) || exit 1
trap 'rm -rf "$copy"' EXIT
mkdir "$copy/kit"
printf '#!/bin/sh\necho "${KIT_LINE-a kit}"\n' >"$copy/kit/rt"
chmod +x "$copy/kit/rt"
cat >"$copy/build.py" <<'TEXT'
import os
program = os.path.join(os.path.dirname(os.path.abspath(__file__)), "crates", "venue_cli", "out", "venue_cli")
os.makedirs(os.path.dirname(program), exist_ok=True)
with open(program, "w") as file:
    file.write("#!/bin/sh\necho built here\n")
os.chmod(program, 0o755)
TEXT
here=$PWD
# Runs the launcher of the clone with that kit, and compares a pattern of the shell with the first line that it prints on either stream.
says() { # of what, pattern, words
    asked=$((asked + 1))
    found=$(cd "$copy/clone" && PATH=${kit_path-$copy/kit:$PATH} ./venue "${@:3}" 2>&1 </dev/null)
    case ${found%%$'\n'*} in
        $2) return ;;
    esac
    differences=$((differences + 1))
    echo "launcher: $1: $found"
}

# Takes away what the launcher of the clone made.
anew() {
    rm -rf "$copy/clone/out" "$copy/clone/crates/venue_cli/out"
}

if ! command -v git >/dev/null || ! git rev-parse -q --verify HEAD >/dev/null; then
    echo 'launcher: no ready program is tried, since this is no git clone'
else
    git clone -q "$here" "$copy/clone" && rm -f "$copy"/clone/release/venue-*.tar.xz || exit 1
    cp venue "$copy/build.py" "$copy/clone" && cp release/ready.py "$copy/clone/release" && cp examples/serve/history.py "$copy/clone/examples/serve" || exit 1
    kit_path=/usr/bin:/bin says 'neither a program nor a kit' 'venue: the kit (rt) is not on the path, *' price x
    : >"$copy/log.journal"
    kit_path=$(dirname "$(command -v python3)"):/usr/bin:/bin says 'a history with neither' 'empty of 0 bytes' history "$copy" log
    printf '#!/bin/sh\necho ready\n' >"$copy/program"
    (cd "$copy/clone" && PATH=$copy/kit:$PATH release/ready.py make 0.0.0 "$copy/program") >/dev/null || exit 1
    says 'the first use of a ready program' 'venue: the ready program 0.0.0 runs, built from commit * with a kit; this machine has neither proved nor compared it: *' price x
    says 'a ready program' ready price x
    kit_path=/usr/bin:/bin says 'a ready program without the kit' ready price x
    anew
    KIT_LINE='another kit' says 'a ready program by another kit' 'venue: the ready program 0.0.0 was built with a kit, and the kit here is another kit, *' price x
    says 'a program that was built' 'built here' price x
    says 'a program of other bytes' 'proved and built on this machine, sha256 *; the ready program 0.0.0 has OTHER BYTES, *' prove
    KIT_LINE='another kit' says 'the same by another kit' 'proved and built on this machine, sha256 *; * has other bytes, and was built with another kit, a kit' prove
    cp "$copy/program" "$copy/clone/crates/venue_cli/out/venue_cli"
    says 'a program of the same bytes' 'proved and built on this machine, sha256 *; the ready program 0.0.0 has the same bytes' prove
    anew
    echo '// another source' >>"$copy/clone/crates/venue_cli/src/main.rt"
    says 'a ready program of other sources' 'venue: the ready program 0.0.0 was built from other sources than those of this clone' price x
    says 'a proof beside other sources' 'proved and built on this machine, sha256 *; * was built from other sources, so there is nothing to compare' prove
    rm "$copy"/clone/release/venue-*
    says 'a proof alone' 'proved and built on this machine, sha256 *; there is no ready program in release/, so there is nothing to compare' prove
fi
echo "launcher: $asked runs, $differences differences"
[ $differences = 0 ]
