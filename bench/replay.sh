#!/usr/bin/env bash
# Times `acfg replay` on device directories in a folder in memory, where there is one:
#
# - 2,000 overrides on a container of 1,000 flags, beside plain writes and syncs of the same bytes, in Python;
# - 10,000 lines that read nothing of a container of 50,000 flags, beyond opening it;
# - an update of 50,000 flags;
# - opening 64 containers of 10,000 flags, beside 64 openings of one.
#
# usage: bench/replay.sh PROGRAM     the built program, as README.md names it
set -eu
program=$(realpath "$1")
if [ -w /dev/shm ]; then
    folder=$(mktemp -d -p /dev/shm)
else
    folder=$(mktemp -d)
fi
trap 'rm -r "$folder"' EXIT
cd "$folder"

# image FOLDER CONTAINER COUNT: storage files of so many flags in packages of at most 1,000
image() {
    local caches=() i
    for ((i = 0; i * 1000 < $3; i++)); do
        awk -v part="$i" -v container="$2" 'BEGIN {
            print "package: \"com.bench.part" part "\"\ncontainer: \"" container "\"\n"
            for (i = 0; i < 1000; i++) {
                printf "flag {\n    name: \"flag_%d\"\n    namespace: \"bench\"\n", i
                printf "    description: \"A flag.\"\n    bug: \"b/%d\"\n}\n", i
            }
        }' >part.aconfig
        "$program" create-cache "com.bench.part$i" "$2" "part$i.cache" part.aconfig >said
        caches+=("part$i.cache")
    done
    "$program" create-storage "$2" "$1" "${caches[@]}" >said
    rm part*.cache
}

# seconds WORD..: how long a command takes, in seconds
seconds() {
    local begin end
    begin=$(date +%s%N)
    "$@" >said
    end=$(date +%s%N)
    awk -v ns=$((end - begin)) 'BEGIN { printf "%.3f", ns / 1000000000 }'
}

less() {
    awk -v whole="$1" -v part="$2" 'BEGIN { printf "%.3f", whole - part }'
}

image small c 1000
image large c 50000

# writes COUNT FILE..: writes files over others and syncs each, renames the last one and syncs the folder, so often; and
# prints how long that takes, in seconds
writes() {
    python3 - "$@" <<'END'
import os, sys, time
files = [open(name, "rb").read() for name in sys.argv[2:]]
begin = time.time()
for _ in range(int(sys.argv[1])):
    for number, held in enumerate(files):
        file = os.open(f"copy.{number}", os.O_WRONLY | os.O_CREAT | os.O_TRUNC)
        os.write(file, held)
        os.fsync(file)
        os.close(file)
    os.rename(f"copy.{len(files) - 1}", "copy.list")
    folder = os.open(".", os.O_RDONLY)
    os.fsync(folder)
    os.close(folder)
print(f"{time.time() - begin:.3f}")
END
}

mkdir one
printf '0 update c small\n0 boot\n' >begin
"$program" replay begin one >said
for ((i = 0; i < 2000; i++)); do
    echo "0 local c com.bench.part0 flag_$((i % 1000)) true"
done >overrides
: >nothing
open=$(seconds "$program" replay nothing one)
took=$(seconds "$program" replay overrides one)
slot=$(ls one/c-o?-local | head -1)
slot=${slot%local}
plain=$(writes 2000 "${slot}flag.val" "${slot}flag.info" "${slot}local" one/records)
echo "2,000 overrides on 1,000 flags: $(less "$took" "$open") s; as many writes and syncs of the same files: $plain s"

mkdir two
echo '0 update c large' >update
echo "update of 50,000 flags: $(seconds "$program" replay update two) s"
printf '0 update c large\n0 boot\n' >begin
"$program" replay begin two >said
for ((i = 0; i < 5000; i++)); do
    echo "0 unset c com.bench.part0 flag_$((i % 1000))"
    echo "0 update d large"
done | head -10000 | sed 's/^0 update d large$/0 server d com.a f true/' >refused
open=$(seconds "$program" replay nothing two)
took=$(seconds "$program" replay refused two)
echo "10,000 refused lines beside 50,000 flags: $(less "$took" "$open") s beyond $open s"

mkdir many single
: >begin
for ((i = 0; i < 64; i++)); do
    image "image$i" "c$i" 10000
    echo "0 update c$i image$i" >>begin
done
"$program" replay begin many >said
echo '0 update c0 image0' >begin
"$program" replay begin single >said
echo "opening 64 containers of 10,000 flags: $(seconds "$program" replay nothing many) s;" \
    "one: $(seconds "$program" replay nothing single) s"
