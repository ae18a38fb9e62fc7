#!/usr/bin/env bash
# `wire_frames::frame` over a million heads of 37, of 300 and of 4,000 bytes, beside Rust's `httparse` 1.8, alone and with a
# search for the empty line before it. Wants the kit (rt), python3, rustc and Debian's librust-httparse-dev.
. "$(dirname "$0")/begin.sh"
. bench/lay_out.sh
need rt python3 rustc /usr/share/cargo/registry/httparse-1.8.0:librust-httparse-dev
crate=/usr/share/cargo/registry/httparse-1.8.0

# As cargo builds it: optimized, with the instructions that it finds at run time.
rustc --edition 2018 --crate-name httparse --crate-type rlib -O -C codegen-units=1 --cap-lints allow --cfg 'feature="std"' \
    --cfg httparse_simd --out-dir "$work" $crate/src/lib.rs
rustc --edition 2021 -O -C codegen-units=1 --extern httparse="$work/libhttparse.rlib" -o "$work/time_httparse" bench/time_httparse.rs

# A repository of its own, with a program that frames them.
lay_out time_frames wire_frames
python3 bench/time_frames.py make "$work"
build_program "$work/37" 1 1
python3 bench/time_frames.py time "$work" "$built" "$work/time_httparse"
