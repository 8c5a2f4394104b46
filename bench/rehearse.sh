#!/usr/bin/env bash
# Times `acfg rehearse SCRIPT` on scripts of 50,000, 100,000 and 200,000 lines over a release of 100 flags, each line
# a request and each answer one write, and prints the ratio of the last doubling. Where rustc is there, it also builds
# bench/plain/rehearse.rs, the same in plain Rust, compares the transcripts and prints the ratio of the times; where
# valgrind is there too, that of the instructions, which a busy machine doesn't change.
#
# usage: bench/rehearse.sh PROGRAM     the built program, as README.md names it
set -eu
program=$(realpath "$1")
plain=$(realpath "$(dirname "$0")/plain/rehearse.rs")
folder=$(mktemp -d)
trap 'rm -r "$folder"' EXIT
cd "$folder"

mkdir release
awk 'BEGIN {
    print "package: \"com.android.bench\"\ncontainer: \"bench\"\n"
    for (i = 0; i < 100; i++)
        printf "flag {\n    name: \"flag_%d\"\n    namespace: \"bench\"\n" \
            "    description: \"A flag.\"\n    bug: \"b/%d\"\n}\n", i, i
}' >release/flags.aconfig

# script COUNT: an update, a boot, and in turn a look-up and an override, by 256 clients
script() {
    awk -v count="$1" 'BEGIN {
        print "0 update bench release\n0 boot"
        for (i = 2; i < count; i++)
            if (i % 2) printf "%d get bench com.android.bench flag_%d\n", i % 256, (i * 31) % 100
            else printf "%d server bench com.android.bench flag_%d %s\n", i % 256, (i * 7) % 100,
                i % 4 ? "true" : "false"
    }'
}

# seconds WORD..: the fastest of nine runs, in seconds
seconds() {
    for _ in 1 2 3 4 5 6 7 8 9; do
        begin=$(date +%s%N)
        "$@" >said
        end=$(date +%s%N)
        echo $((end - begin))
    done | sort -n | head -1 | awk '{ printf "%.3f", $1 / 1000000000 }'
}

for count in 50000 100000 200000; do
    script "$count" >"$count.script"
    time=$(seconds "$program" rehearse "$count.script")
    echo "$count lines, $(wc -c <"$count.script") bytes: $time s, $(wc -l <said) lines said"
    last=${this:-}
    this=$time
done
awk -v half="$last" -v whole="$this" 'BEGIN { printf "twice the lines take %.2f times as long\n", whole / half }'

command -v rustc >/dev/null || exit 0
rustc -O --edition 2024 -o plain "$plain"
digest=$(sha256sum <release/flags.aconfig | cut -d" " -f1)
"$program" rehearse 100000.script >said
./plain 100000.script "$digest" | cmp - said
ours=$(seconds "$program" rehearse 100000.script)
theirs=$(seconds ./plain 100000.script "$digest")
awk -v ours="$ours" -v theirs="$theirs" 'BEGIN {
    printf "100000 lines: %s s, in plain Rust %s s, %.2f times as long\n", ours, theirs, ours / theirs
}'

# instructions WORD..: how many are run
instructions() {
    valgrind --tool=callgrind --callgrind-out-file=counts "$@" 2>&1 >said | awk '/Collected/ { print $NF }'
}

command -v valgrind >/dev/null || exit 0
ours=$(instructions "$program" rehearse 100000.script)
theirs=$(instructions ./plain 100000.script "$digest")
awk -v ours="$ours" -v theirs="$theirs" 'BEGIN {
    printf "instructions a line: %d, in plain Rust %d, %.2f times as many\n",
        ours / 100000, theirs / 100000, ours / theirs
}'
