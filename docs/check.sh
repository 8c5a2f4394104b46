#!/usr/bin/env bash
# Runs every transcript that README.md and the pages of docs show, and compares it byte for byte.
#
# A transcript is a block whose first line is three backquotes, the word `console` and a folder of the repository. In it
# a line `$ COMMAND` is run in that folder, with the program on the path, and the lines below it are what it says to
# both its outputs.
#
# usage: docs/check.sh PROGRAM     the built program, as README.md names it
set -eu
program=$(realpath "$1")
top=$(realpath "$(dirname "$0")/..")
work=$(mktemp -d)
trap 'rm -r "$work"' EXIT
mkdir "$work/bin"
ln -s "$program" "$work/bin/acfg"
PATH=$work/bin:$PATH
cd "$top"
failed=0
ran=0

# compare PAGE: the command in $command, run in $folder, says what is in $work/wanted
compare() {
    [ -n "$command" ] || return 0
    ran=$((ran + 1))
    (cd "$top/$folder" && bash -c "$command") >"$work/said" 2>&1 || true
    if ! diff "$work/wanted" "$work/said" >"$work/differs"; then
        echo "$1: in $folder: $command"
        cat "$work/differs"
        failed=1
    fi
}

for page in README.md docs/*.md; do
    folder=
    command=
    while IFS= read -r line; do
        case $line in
            '```console '*)
                folder=${line#'```console '}
                command=
                ;;
            '```')
                if [ -n "$folder" ]; then
                    compare "$page"
                fi
                folder=
                ;;
            '$ '*)
                if [ -n "$folder" ]; then
                    compare "$page"
                    command=${line#'$ '}
                    : >"$work/wanted"
                fi
                ;;
            *)
                if [ -n "$folder" ]; then
                    printf '%s\n' "$line" >>"$work/wanted"
                fi
                ;;
        esac
    done <"$page"
    if [ -n "$folder" ]; then
        echo "$page: a transcript has no end"
        failed=1
    fi
done

echo "$ran transcripts run"
exit "$failed"
