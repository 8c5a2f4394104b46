#!/usr/bin/env bash
# Prints what the list of containers of a device directory says: each container, its release slot, its override slot, and
# the digest of its release.
#
# usage: records.sh FILE
set -eu
bytes=$(od -An -v -tx1 "$1" | tr -d ' \n')

# number PLACE: the four bytes at a place, little-endian
number() {
    local at=$(($1 * 2))
    echo $((16#${bytes:at + 6:2}${bytes:at + 4:2}${bytes:at + 2:2}${bytes:at:2}))
}

[ "${bytes:0:16}" = 4143524601000000 ] || {
    echo "$1: no list of containers" >&2
    exit 1
}
count=$(number 8)
at=12
for ((i = 0; i < count; i++)); do
    size=$(number $at)
    name=$(printf '%b' "$(sed 's/../\\x&/g' <<<"${bytes:(at + 4) * 2:size * 2}")")
    at=$((at + 4 + size))
    echo "$name release $((16#${bytes:at * 2:2})) overrides $((16#${bytes:(at + 1) * 2:2})) ${bytes:(at + 2) * 2:64}"
    at=$((at + 34))
done
