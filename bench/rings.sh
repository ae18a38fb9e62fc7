#!/usr/bin/env bash
# `RingBands` and `ring_crosses` over rings of 20,000 positions, beside the same tree in C++ and, where it is installed, GEOS.
# Wants the kit (rt), python3 and g++; GEOS is Debian's libgeos-dev. The first build proves four crates and takes some minutes.
. "$(dirname "$0")/begin.sh"
. bench/lay_out.sh
need rt python3 g++
python3 bench/make_rings.py "$work/rings.txt"
geos=()
[ -e /usr/include/geos_c.h ] && geos=(-DWITH_GEOS -lgeos_c)
g++ -O3 -DNDEBUG -std=c++17 -o "$work/rings" bench/rings.cpp "${geos[@]}"

# A repository of its own, with a program that times the calls.
lay_out time_rings plane_trees test_figures
build_program "$work/rings.txt"
"$work/rings" "$work/rings.txt" >"$work/told"
"$built" "$work/rings.txt" | sed -E 's/([0-9]+\.[0-9]{2})[0-9]*/\1/g' >>"$work/told"
cat "$work/told"
# Of each ring the making of the tree with 20,000 points asked, beside the same tree in C++.
while read -r name theirs; do
    ours=$(awk -v name="$name" '$1 == name && $2 == "ours" { print $6 }' "$work/told")
    row "a ring and points, $name" "$ours ms" "C++ $theirs ms" "$(python3 -c "print(round($ours / $theirs, 2))")" ''
done < <(awk '$2 == "c++" { print $1, $6 }' "$work/told")
