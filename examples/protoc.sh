#!/usr/bin/env bash
# Shows a cache as Protocol Buffers' own tool reads it, and tests that what it writes of that is the cache again.
#
# usage: examples/protoc.sh CACHE     needs protoc (Debian's protobuf-compiler)
set -eu
cache=$(realpath "$1")
cd "$(dirname "$0")/../proto"
text=$(mktemp)
trap 'rm "$text"' EXIT
protoc -I. --decode acfg.cache.parsed_flags acfg_cache.proto < "$cache" > "$text"
cat "$text"
protoc -I. --encode acfg.cache.parsed_flags acfg_cache.proto < "$text" | cmp - "$cache"
