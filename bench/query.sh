#!/usr/bin/env bash
# Measures `acfg query` on sets of storage files that bench/sets.py writes: of 25,000 and 50,000 flags, and sets of
# about the same size that are built to hurt a check. It prints what each takes in seconds (the fastest of nine runs)
# and, where valgrind is there, in instructions, which don't change on a busy machine; and each as a ratio to the set
# of 50,000 flags. Then it times the check of that set alone, and 200,000 look-ups in it once it is checked, by the
# program of bench/look-ups, which it builds beside a copy of the crates that were proved here; where they weren't,
# that takes as long as proving them.
#
# usage: bench/query.sh PROGRAM     the built program, as README.md names it
set -eu
program=$(realpath "$1")
here=$(dirname "$(realpath "$0")")
folder=$(mktemp -d)
trap 'rm -r "$folder"' EXIT
python3 "$here/sets.py" "$folder/sets"
cd "$folder/sets"

# seconds SET: the fastest of nine runs
seconds() {
    for _ in 1 2 3 4 5 6 7 8 9; do
        begin=$(date +%s%N)
        "$program" query "$1" com.p7 flag_007123 >../said || true
        end=$(date +%s%N)
        echo $((end - begin))
    done | sort -n | head -1 | awk '{ printf "%.4f", $1 / 1000000000 }'
}

# instructions SET: how many one run takes, or 0
instructions() {
    if command -v valgrind >/dev/null; then
        valgrind --tool=callgrind --callgrind-out-file=/dev/null \
            "$program" query "$1" com.p7 flag_007123 2>&1 >/dev/null |
            awk '/Collected/ { print $NF }'
    else
        echo 0
    fi
}

whole=$(seconds lawful)
most=$(instructions lawful)
for set in half lawful unsorted one-bucket crowded one-id least; do
    time=$(seconds "$set")
    count=$(instructions "$set")
    awk -v set="$set" -v time="$time" -v whole="$whole" -v count="$count" -v most="$most" \
        -v said="$(head -1 ../said)" 'BEGIN {
        printf "%-10s %s s, %.2f times the lawful set", set, time, time / whole
        if (most > 0) printf "; %d instructions, %.2f times", count, count / most
        printf ": %s\n", said
    }'
done

# The check alone, and look-ups: a program of a crate of its own, over copies of the crates that it stands on.
command -v rt >/dev/null || exit 0
mkdir -p "$folder/repository/crates/look_ups/src" "$folder/repository/crates/look_ups/proofs/count_found"
cd "$folder/repository"
for crate in acfg_base acfg_text acfg_decls acfg_sip acfg_views acfg_images acfg_lookup; do
    grep "^$crate:" "$here/../crates.txt"
    mkdir "crates/$crate"
    (cd "$here/../crates/$crate" && cp -r src specs proofs "$folder/repository/crates/$crate")
    if [ -d "$here/../crates/$crate/out/rlib" ]; then
        mkdir "crates/$crate/out"
        cp -r "$here/../crates/$crate/out/rlib" "crates/$crate/out"
    fi
done >crates.txt
echo 'look_ups: acfg_images acfg_lookup acfg_views' >>crates.txt
cp "$here/look-ups/main.txt" crates/look_ups/src/main.rt
cp "$here/look-ups/ghosts.txt" crates/look_ups/proofs/count_found/Invariants.antt
cd crates/look_ups
cp "$folder/sets/lawful/"* .
rt run >said 2>built || { tail built; exit 1; }
for _ in 1 2 3 4 5 6 7 8 9; do out/look_ups; done | awk '
    $1 == "checked" { time = $(NF - 1) / $2; if (!check || time < check) check = time; next }
    $2 > 0 { found = $2; if (!there || $4 < there) there = $4; next }
    { if (!absent || $4 < absent) absent = $4 }
    END {
        printf "the check alone: %.4f s\n", check / 1000000
        printf "%d look-ups: %.3f s for flags", found, there / 1000000
        printf ", %.3f s for as many names that no flag has\n", absent / 1000000
    }'
