#!/usr/bin/env bash
# Makes each fault of storage files from a lawful set by one change, and shows what `acfg query` says of it.
#
# usage: examples/faults.sh     with `acfg` on the path
set -eu
work=$(mktemp -d)
trap 'rm -r "$work"' EXIT
cp "$(dirname "$0")/two.aconfig" "$work"
cd "$work"
acfg create-cache com.a c two.cache two.aconfig
acfg create-storage c img two.cache | sed 's/ packages .*/ packages/'
acfg query img com.a f

# changed WORDS COMMAND..: what is said of a copy of the set, in bad/, once the command has changed it so
changed() {
    rm -rf bad
    cp -r img bad
    (cd bad && eval "$2")
    printf '%-52s %s\n' "$1" "$(acfg query bad com.a f || true)"
}

# put FILE PLACE BYTES: the bytes, as printf has them, at a place of a file
put() {
    printf "$3" | dd of="$1" bs=1 seek="$2" conv=notrunc status=none
}

changed 'no flag.info' 'rm flag.info'
changed 'flag.val has 4,194,304 bytes' 'truncate -s 4194304 flag.val'
changed 'flag.val ends within its header' 'truncate -s 12 flag.val'
changed 'version 2' 'put package.map 0 "\2"'
changed 'container C' 'put package.map 8 C'
changed 'the type of flag.info' 'put flag.map 9 "\3"'
changed 'a byte more than the size' 'printf "\0" >>flag.val'
changed 'buckets from the second on' 'put flag.map 18 "\36"'
changed 'a name of 1,000 bytes' 'put flag.map 58 "\350\3"'
changed 'a byte behind the last node, and the size of it' 'printf "\0" >>flag.map; put flag.map 10 "\131"'
changed 'g is renamed to f' 'put flag.map 62 f'
changed 'the bucket of g is empty' 'put flag.map 34 "\0"'
changed 'f is next to itself' 'put flag.map 84 "\107"'
changed 'the value 2' 'put flag.val 23 "\2"'
changed 'an override noted, but not read-write' 'put flag.info 22 "\1"'
changed 'flag.map of the container d' 'put flag.map 8 d'
changed 'the package has the id 1' 'put package.map 63 "\1"'
changed 'a value more, and the size and count of it' \
    'printf "\0" >>flag.val; put flag.val 10 "\31"; put flag.val 14 "\3"'
changed 'f is of package 1' 'put flag.map 71 "\1"'
changed 'f has the index of g' 'put flag.map 82 "\1"'
changed 'f is not read-write, by flag.info' 'put flag.info 22 "\0"'
