#!/usr/bin/env bash
# `venue_wire::take` over a million version requests of 37 bytes, a million routes of 220 and a million closures of 148, beside
# a loop in Rust over `httparse`, `form_urlencoded` and `serde_json` with a `match` on the path. Wants the kit (rt), python3,
# rustc and Debian's librust-httparse-dev, librust-form-urlencoded-dev and librust-serde-json-dev.
. "$(dirname "$0")/begin.sh"
. bench/lay_out.sh
need rt python3 rustc '/usr/share/cargo/registry/httparse-1.8*:librust-httparse-dev' \
    '/usr/share/cargo/registry/form?urlencoded-1*:librust-form-urlencoded-dev' '/usr/share/cargo/registry/serde?json-1*:librust-serde-json-dev'

# As cargo builds them: optimized, with what their build scripts find.
. bench/rust_crates.sh
rust_crate httparse 1.8 'feature="std"' httparse_simd
rust_crate percent_encoding 2 'feature="alloc"'
rust_crate form_urlencoded 1
rust_serde_json
rust_program bench/time_requests.rs

# A repository of its own, with a program that takes the requests.
lay_out time_requests venue_wire
python3 bench/time_requests.py make "$work"
build_program "$work/version" 1 1
python3 bench/time_requests.py time "$work" "$built" "$work/time_requests"
