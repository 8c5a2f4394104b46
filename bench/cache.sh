#!/usr/bin/env bash
# Times `acfg create-cache` and `acfg dump` on 32,767 and 65,535 flags, and `acfg dump` of eight caches of 10,000 and of
# 20,000 flags, and prints the ratios of doubling.
#
# usage: bench/cache.sh PROGRAM     the built program, as README.md names it
set -eu
program=$(realpath "$1")
folder=$(mktemp -d)
trap 'rm -r "$folder"' EXIT
cd "$folder"

# declarations PACKAGE COUNT: so many flags of a package, in no order
declarations() {
    awk -v package="$1" -v count="$2" 'BEGIN {
        print "package: \"" package "\"\ncontainer: \"system\"\n"
        for (i = 0; i < count; i++) {
            n = (i * 7919) % count
            printf "flag {\n    name: \"flag_%d\"\n    namespace: \"bench\"\n", n
            printf "    description: \"A flag.\"\n    bug: \"b/%d\"\n}\n", n
        }
    }'
}

# seconds WORD..: the fastest of nine runs of the program with these words, in seconds
seconds() {
    for _ in 1 2 3 4 5 6 7 8 9; do
        begin=$(date +%s%N)
        "$program" "$@" >said
        end=$(date +%s%N)
        echo $((end - begin))
    done | sort -n | head -1 | awk '{ printf "%.3f", $1 / 1000000000 }'
}

# doubling WHAT HALF WHOLE: the ratio of two times
doubling() {
    awk -v what="$1" -v half="$2" -v whole="$3" \
        'BEGIN { printf "%s: twice the flags take %.2f times as long\n", what, whole / half }'
}

for count in 32767 65535; do
    declarations com.android.bench.flags "$count" >"$count.aconfig"
    created=$(seconds create-cache com.android.bench.flags system "$count.cache" "$count.aconfig")
    dumped=$(seconds dump text all "$count.cache")
    echo "$count flags: a cache of $(wc -c <"$count.cache") bytes in $created s"
    echo "$(wc -l <said) lines dumped in $dumped s"
    last_created=${this_created:-}
    last_dumped=${this_dumped:-}
    this_created=$created
    this_dumped=$dumped
done
doubling create-cache "$last_created" "$this_created"
doubling dump "$last_dumped" "$this_dumped"

for count in 10000 20000; do
    caches=()
    for i in 1 2 3 4 5 6 7 8; do
        declarations "com.android.bench.part$i" "$count" >"part$i.aconfig"
        "$program" create-cache "com.android.bench.part$i" system "$count.$i.cache" "part$i.aconfig" >said
        caches+=("$count.$i.cache")
    done
    merged=$(seconds dump bool all "${caches[@]}")
    echo "eight caches of $count flags: $(wc -l <said) lines dumped in $merged s"
    last_merged=${this_merged:-}
    this_merged=$merged
done
doubling "dump of eight caches" "$last_merged" "$this_merged"
