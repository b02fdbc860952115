#!/bin/bash
# Runs the built program over each example, in a copy of its folder, and compares what it prints and its status.
#   examples/run.sh [PROGRAM] [NAME..]     NAME is a folder of examples/; none: all of them
# With no PROGRAM the repository's own is proved and built first, where something changed.
# A folder's file `words` has what the program is called with, one word a line; without it that is `-jro -f parm`.
set -u
# Folders that wait for their commands: they run where they are named, and otherwise once they aren't listed here.
waiting=''
here=$(cd "$(dirname "$0")" && pwd)
if [ $# -gt 0 ]; then
    program=$1
    shift
else
    program=$here/../crates/vdbench/out/vdbench
    command -v rt >/dev/null && (cd "$here/../crates/vdbench" && rt run) </dev/null >/dev/null
fi
if [ ! -x "$program" ]; then
    echo "examples: skipped, there is no program $program"
    exit 0
fi
program=$(realpath "$program")
names=("$@")
if [ ${#names[@]} -eq 0 ]; then
    mapfile -t names < <(cd "$here" && find . -name parm -printf '%h\n' | sed 's|^\./||' | grep -Ev "${waiting:-^$}" | sort)
fi
work=$(mktemp -d) || exit 1
trap 'rm -rf "$work"' EXIT
wrong=0
for name in "${names[@]}"; do
    rm -rf "$work/case" && cp -r "$here/$name" "$work/case" || exit 1
    rm -f "$work/case/stdout" "$work/case/status"
    words=(-jro -f parm)
    [ ! -f "$here/$name/words" ] || mapfile -t words <"$here/$name/words"
    (cd "$work/case" && "$program" "${words[@]}" </dev/null >"$work/stdout" 2>"$work/stderr")
    status=$?
    if ! diff -u "$here/$name/stdout" "$work/stdout"; then
        echo "examples/$name: the text differs"
        wrong=$((wrong + 1))
    elif [ "$status" != "$(cat "$here/$name/status")" ] || [ -s "$work/stderr" ]; then
        echo "examples/$name: status $status, wanted $(cat "$here/$name/status")"
        cat "$work/stderr"
        wrong=$((wrong + 1))
    elif ! diff -rq -x stdout -x status "$here/$name" "$work/case"; then
        echo "examples/$name: a file was changed"
        wrong=$((wrong + 1))
    fi
done
echo "examples: ${#names[@]} run, $wrong differ"
[ "$wrong" -eq 0 ]
