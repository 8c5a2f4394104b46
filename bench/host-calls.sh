#!/usr/bin/env bash
# Follows the system calls of a program over the host's device, and fails where bytes or names are left to luck:
# a file that was written and never synced, or renamed before its sync; a folder in which a name changed (a file
# made, renamed or removed, a folder made) and that was never synced. No proof speaks of this: no clause can see
# an fsync of the host.
#
# usage: bench/host-calls.sh PROGRAM WORD..     wants strace; run it in a folder that may be written to
# `create-cache`, `create-storage`, `create-all` and `replay` write files; any program that is built on acfg_hostdev may be given.
set -eu
calls=$(mktemp)
trap 'rm -f "$calls"' EXIT
status=0
traced=open,openat,creat,write,pwrite64,writev,ftruncate,fsync,fdatasync
traced=$traced,rename,renameat,renameat2,unlink,unlinkat,mkdir,mkdirat
strace -f -y -s 0 -o "$calls" -e trace="$traced" "$@" >/dev/null || status=$?
echo "${1##*/} ended with status $status"
# With -s 0 a path is still printed whole; -y gives each descriptor's path.
awk -v here="$(pwd -P)" '
    # a path without . and .. and doubled slashes
    function plain(path,    parts, count, kept, i, n) {
        if (path !~ /^\//) path = here "/" path
        count = split(path, parts, "/"); n = 0
        for (i = 1; i <= count; i++) {
            if (parts[i] == "" || parts[i] == ".") continue
            if (parts[i] == "..") { if (n > 0) n--; continue }
            kept[++n] = parts[i]
        }
        path = ""
        for (i = 1; i <= n; i++) path = path "/" kept[i]
        return path == "" ? "/" : path
    }
    function folder(path) { sub(/\/[^\/]*$/, "", path); return path == "" ? "/" : path }
    function named(which,    rest, i) {           # the which-th quoted word
        rest = $0
        for (i = 1; i < which; i++) sub(/"[^"]*"/, "", rest)
        match(rest, /"[^"]*"/)
        return plain(substr(rest, RSTART + 1, RLENGTH - 2))
    }
    function opened(    rest) { rest = $0; sub(/^.*= [0-9]+</, "", rest); sub(/>[^>]*$/, "", rest); return rest }
    function held(    rest) { rest = $0; sub(/^[^<]*</, "", rest); sub(/>.*$/, "", rest); return rest }
    function wrong(text) { print "WRONG: " text; bad = 1 }
    { sub(/^[0-9]+ +/, "") }
    / = -1 / { next }
    /^(open|openat|creat)\(/ {
        if ($0 !~ /O_WRONLY|O_RDWR|^creat/) next
        path = opened()
        if (path !~ /^\// || path ~ /^\/dev\//) next
        writes[path] = 1
        if ($0 ~ /O_CREAT/) changed[folder(path)] = $0
        if ($0 ~ /O_TRUNC|O_CREAT/) { loose[path] = $0; files[path] = 1 }
    }
    /^(write|pwrite64|writev|ftruncate)\(/ { if (held() in writes) { loose[held()] = $0; files[held()] = 1 } }
    /^(fsync|fdatasync)\(/ { syncs++; delete loose[held()]; delete changed[held()] }
    /^rename/ {
        if (named(1) in loose) wrong(named(1) " was renamed before it was synced")
        delete loose[named(1)]
        changed[folder(named(1))] = $0; changed[folder(named(2))] = $0
    }
    /^unlink/ { delete loose[named(1)]; changed[folder(named(1))] = $0 }
    /^mkdir/ { changed[folder(named(1))] = $0 }
    END {
        for (path in loose) wrong(path " was written and not synced: " loose[path])
        for (path in changed) wrong("names changed in " path ", which was not synced: " changed[path])
        for (path in files) count++
        if (count == 0) { print "WRONG: no file was written, so nothing is shown"; bad = 1 }
        printf "%d files written, %d syncs: %s\n", count, syncs, bad ? "NOT all on the disk" : "all on the disk"
        exit bad
    }' "$calls"
