# Builds Debian's Rust crates for the benchmarks into the folder $work, as cargo does; to be read by `.`.
registry=/usr/share/cargo/registry

# rust_crate NAME VERSION CFG..: the library of a crate whose version begins so, with these conditions set.
rust_crate() {
    local name=$1 version=$2 crate edition words=()
    shift 2
    crate=$(echo $registry/${name/_/[_-]}-"$version"*)
    [ -e "$crate/src/lib.rs" ] || { echo "$name $version is not installed: apt-get install librust-${name/_/-}-dev" >&2; exit 1; }
    edition=$(sed -n 's/^edition = "\(.*\)"/\1/p' "$crate/Cargo.toml")
    for word in "$@"; do words+=(--cfg "$word"); done
    rustc --edition "${edition:-2015}" --crate-name "$name" --crate-type rlib -C opt-level=3 -C codegen-units=1 --cap-lints allow \
        "${words[@]}" -L "$work" $(rust_externs) --out-dir "$work" "$crate/src/lib.rs"
}

# The words that name the libraries built so far to rustc.
rust_externs() {
    local file name
    for file in "$work"/lib*.rlib; do
        name=${file##*/lib}
        [ ! -e "$file" ] || echo --extern "${name%.rlib}=$file"
    done
}

# rust_serde_json CFG..: the crate, with these conditions set too, and those that it stands on.
rust_serde_json() {
    rust_crate itoa 1
    rust_crate ryu 1 integer128 must_use_return maybe_uninit
    rust_crate serde 1 'feature="std"'
    rust_crate serde_json 1 'feature="std"' limb_width_64 "$@"
}

# rust_program FILE: the program of that file, over the libraries built so far.
rust_program() {
    local name=${1##*/}
    rustc --edition 2021 -C opt-level=3 -C codegen-units=1 -L "$work" $(rust_externs) -o "$work/${name%.rs}" "$1"
}
