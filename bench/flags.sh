#!/usr/bin/env bash
# Times `acfg flags FILE` on plain files of 32,767 and 65,535 flags, and prints the ratio of doubling and the peak of
# memory. Then it doubles what must not be quadratic: empty comments, one quoted token, a list, and quoted pieces of one
# value, and prints each ratio.
#
# usage: bench/flags.sh PROGRAM     the built program, as README.md names it
set -eu
program=$(realpath "$1")
folder=$(mktemp -d)
trap 'rm -r "$folder"' EXIT
cd "$folder"

# declarations COUNT: so many flags of one package, in no order
declarations() {
    awk -v count="$1" 'BEGIN {
        print "package: \"com.android.bench.flags\"\ncontainer: \"system\"\n"
        for (i = 0; i < count; i++) {
            n = (i * 7919) % count
            printf "flag {\n    name: \"flag_%d\"\n    namespace: \"bench\"\n", n
            printf "    description: \"A flag.\"\n    bug: \"b/%d\"\n}\n", n
        }
    }'
}

# seconds FILE: the fastest of nine runs, in seconds
seconds() {
    for _ in 1 2 3 4 5 6 7 8 9; do
        begin=$(date +%s%N)
        "$program" flags "$1" >said || :
        end=$(date +%s%N)
        echo $((end - begin))
    done | sort -n | head -1 | awk '{ printf "%.3f", $1 / 1000000000 }'
}

# peak FILE: the most memory of a run, as a multiple of the file
peak() {
    /usr/bin/time -f %M "$program" flags "$1" 2>&1 >said | tail -1 | awk -v bytes="$(wc -c <"$1")" \
        '{ printf "%.1f MB, %.1f times the file", $1 / 1000, $1 * 1024 / bytes }'
}

for count in 32767 65535; do
    declarations "$count" >"$count.aconfig"
    time=$(seconds "$count.aconfig")
    echo "$count flags, $(wc -c <"$count.aconfig") bytes: $time s, $(wc -l <said) lines said"
    last=${this:-}
    this=$time
done
awk -v half="$last" -v whole="$this" 'BEGIN { printf "twice the flags take %.2f times as long\n", whole / half }'
[ ! -x /usr/bin/time ] || echo "peak of memory: $(peak 65535.aconfig)"

# header: what each of the texts below begins with. The list is read whole, and then refused for its number of bugs.
header='package: "com.android.bench" container: "system" flag { name: "one" namespace: "n" description: "A flag." bug:'

# doubled WHAT COUNT: the text WHAT of COUNT and of half as many parts
doubled() {
    for count in $(($2 / 2)) "$2"; do
        "$1" "$count" >text
        time=$(seconds text)
        last=${this:-}
        this=$time
    done
    awk -v half="$last" -v whole="$this" -v what="$1" -v count="$2" \
        'BEGIN { printf "%s, %d: %.3f s, twice as many take %.2f times as long\n", what, count, whole, whole / half }'
}

comments() {
    printf '%s "1" }\n' "$header"
    awk -v count="$1" 'BEGIN { for (i = 0; i < count; i++) print "#" }'
}

quoted() {
    printf '%s "' "$header"
    head -c "$1" /dev/zero | tr '\0' x
    printf '" }\n'
}

list() {
    printf '%s [' "$header"
    awk -v count="$1" 'BEGIN { for (i = 1; i < count; i++) printf "\"1\","; print "\"1\"] }" }'
}

pieces() {
    printf '%s' "$header"
    awk -v count="$1" 'BEGIN { for (i = 0; i < count; i++) printf " \"1\""; print " }" }'
}

doubled comments 4000000
doubled quoted 4000000
doubled list 1000000
doubled pieces 1000000
