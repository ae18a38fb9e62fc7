# Sourced by benchmarks, after `begin.sh`: `lay_out PROGRAM NAME..` makes a repository of its own in $work, for the program of this name in
# bench/programs, which stands on the crates of these names, on all below them, and on what of the kit is named. The program's files end in
# `.txt`, since the kit takes no other sources than those of crates; laid out they don't. `add_part PART` gives it the files of
# bench/programs/parts/PART too, in which PROGRAM stands for its name. `build_program WORD..` proves, builds and once runs it with these
# words, and leaves it at $built; where that fails, it shows the end of what was said.
lay_out() {
    local line crate part wanted names=()
    laid_out=$1
    shift
    wanted=" $* "
    # A crate stands only on those before it.
    while IFS= read -r line; do
        [[ $wanted = *" ${line%%:*} "* ]] && wanted+="${line#*:} "
    done < <(grep '^[a-z]' crates.txt | tac)
    mkdir -p "$work/crates"
    while IFS= read -r line; do
        crate=${line%%:*}
        [[ $wanted = *" $crate "* ]] || continue
        names+=("$crate")
        mkdir "$work/crates/$crate"
        for part in src specs proofs; do
            [ ! -d "crates/$crate/$part" ] || cp -r "crates/$crate/$part" "$work/crates/$crate"
        done
        # What was built here of the same sources is taken as it is: its stamp is a sum of them.
        [ ! -f "crates/$crate/out/rlib/stamp" ] || { mkdir "$work/crates/$crate/out" && cp -r "crates/$crate/out/rlib" "$work/crates/$crate/out"; }
        echo "$line" >>"$work/crates.txt"
    done < <(grep '^[a-z]' crates.txt)
    for crate in "$@"; do
        [ -d "crates/$crate" ] || names+=("$crate")
    done
    echo "$laid_out: ${names[*]}" >>"$work/crates.txt"
    cp HANDLES "$work"
    copy_sources "$laid_out"
}

copy_sources() { # a folder of bench/programs
    local path target
    while IFS= read -r path; do
        target=$work/crates/$laid_out/${path%.txt}
        mkdir -p "${target%/*}"
        sed "s/PROGRAM/$laid_out/g" "bench/programs/$1/$path" >"$target"
    done < <(cd "bench/programs/$1" && find . -name '*.txt' | sed 's|^\./||')
}

add_part() {
    copy_sources "parts/$1"
}

build_program() {
    built=$work/crates/$laid_out/out/$laid_out
    (cd "$work/crates/$laid_out" && rt run -- "$@") >"$work/build.log" 2>&1 || { tail -n 20 "$work/build.log" >&2; return 1; }
}
