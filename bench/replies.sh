#!/usr/bin/env bash
# `wire_replies::reply_bytes` over the reply to a version request, a route of six steps and lists of 33 and of 100,000 places,
# beside Rust's `serde_json`, which builds the same values and writes them after the same head. Wants the kit (rt), rustc and
# Debian's librust-serde-json-dev. Prints the least time of a reply in turns; the bytes of both sides are compared.
. "$(dirname "$0")/begin.sh"
. bench/lay_out.sh
need rt rustc '/usr/share/cargo/registry/serde?json-1*:librust-serde-json-dev'

. bench/rust_crates.sh
rust_serde_json
rust_program bench/time_replies.rs
mv "$work/time_replies" "$work/theirs"

# A repository of its own, with a program that times the call.
lay_out time_replies wire_replies
build_program version "$work/version" 1 1

least() { sort -n "$1" | head -n 1 | awk '{ print $1 / ($2 ? $2 : 1) }'; }
while read -r reply batches times; do
    for _ in 1 2 3 4 5; do
        "$built" "$reply" "$work/ours.reply" "$batches" "$times" >>"$work/ours.$reply"
        "$work/theirs" "$reply" "$work/theirs.reply" "$batches" "$times" >>"$work/theirs.$reply"
    done
    cmp "$work/ours.reply" "$work/theirs.reply"
    told=$(awk -v reply="$reply" -v size="$(wc -c <"$work/ours.reply")" -v ours="$(least "$work/ours.$reply")" -v theirs="$(least "$work/theirs.$reply")" 'BEGIN {
        printf "%s, %d bytes: reply_bytes %.0f ns, %.0f a second, %.0f MB/s; serde_json %.0f ns, %.0f MB/s; speed %.2f times\n",
            reply, size, ours, 1e9 / ours, size * 1e3 / ours, theirs, size * 1e3 / theirs, theirs / ours }')
    echo "$told"
    case $reply in many) wanted='at least 1, 200 MB/s' ;; *) wanted='at least 1' ;; esac
    found=${told#*reply_bytes } theirs=${told#*serde_json }
    row "a reply, $reply" "${found%;*}" "serde_json ${theirs%;*}" "$(sed 's/.*speed \([0-9.]*\) times/\1/' <<<"$told")" "$wanted"
done <<'END'
version 200 1000
route 200 200
few 200 200
many 20 1
END
