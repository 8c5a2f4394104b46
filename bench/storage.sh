#!/usr/bin/env bash
# Times `acfg create-storage` on 25,000 and 50,000 flags, in 50 packages of a cache each and in one package of one
# cache, and prints the ratios of doubling. Then it runs `acfg create-all` on 16 jobs of 50,000 flags each, and prints
# its time and its peak of memory beside the bytes of the images and of the caches.
#
# usage: bench/storage.sh PROGRAM     the built program, as README.md names it
set -eu
program=$(realpath "$1")
folder=$(mktemp -d)
trap 'rm -r "$folder"' EXIT
cd "$folder"

# declarations PACKAGE COUNT: so many flags of a package, in no order
declarations() {
    awk -v package="$1" -v count="$2" 'BEGIN {
        print "package: \"" package "\"\ncontainer: \"system\"\n"
        for (i = 0; i < count; i++) {
            n = (i * 7919) % count
            printf "flag {\n    name: \"flag_%d\"\n    namespace: \"bench\"\n", n
            printf "    description: \"A flag.\"\n    bug: \"b/%d\"\n}\n", n
        }
    }'
}

# seconds WORD..: the fastest of nine runs of the program with these words, in seconds
seconds() {
    for _ in 1 2 3 4 5 6 7 8 9; do
        begin=$(date +%s%N)
        "$program" "$@" >said
        end=$(date +%s%N)
        echo $((end - begin))
    done | sort -n | head -1 | awk '{ printf "%.3f", $1 / 1000000000 }'
}

# all JOBS IMAGE CACHE..: `create-all` of so many jobs of these caches, whose image lies in the folder IMAGE
all() {
    jobs=$1
    image=$2
    shift 2
    for ((job = 0; job < jobs; job++)); do
        echo "system all.$job $*"
    done >list
    /usr/bin/time -f '%e %M' "$program" create-all list 2>&1 >said | tail -1 |
        awk -v jobs="$jobs" -v images="$(cat "$image"/* | wc -c)" -v caches="$(cat "$@" | wc -c)" '{
            printf "create-all of %d such jobs: %s s, peak of memory %d kB", jobs, $1, $2
            printf "; images of %d kB, caches of %d kB\n", jobs * images / 1024, jobs * caches / 1024
        }'
}

for packages in 50 1; do
    last=
    for flags in 25000 50000; do
        caches=()
        for ((i = 0; i < packages; i++)); do
            name=com.android.bench.part$i
            declarations "$name" $((flags / packages)) >part.aconfig
            "$program" create-cache "$name" system "$flags.$packages.$i.cache" part.aconfig >said
            caches+=("$flags.$packages.$i.cache")
        done
        stored=$(seconds create-storage system "image.$flags.$packages" "${caches[@]}")
        echo "$packages packages: $(cut -d' ' -f1-6 said), $(cat "image.$flags.$packages"/* | wc -c) bytes in $stored s"
        if [ -n "$last" ]; then
            awk -v half="$last" -v whole="$stored" \
                'BEGIN { printf "twice the flags take %.2f times as long\n", whole / half }'
        fi
        last=$stored
    done
    [ ! -x /usr/bin/time ] || all 16 "image.50000.$packages" "${caches[@]}"
done
