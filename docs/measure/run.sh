#!/usr/bin/env bash
# Instructions that the audit and the collection take: replay under callgrind, once with each call as the script's last line. The same script
# with `due` as its last line, which does next to nothing, is what is taken off.
set -eu
cd "$(dirname "$0")"
replay=${1:?the program replay}
count() {
    { cat "$work/heap"; echo "$1"; } | valgrind --tool=callgrind --callgrind-out-file=/dev/null "$replay" 2>&1 >/dev/null |
        awk '/Collected/ { print $4 }'
}
work=$(mktemp -d)
trap 'rm -rf "$work"' EXIT
for heap in "6 128 16 3500 10" "6 128 16 3500 50" "6 128 16 3500 100" "8 256 16 28000 10" "8 256 16 28000 50" "8 256 16 28000 100"; do
    python3 heap.py $heap >"$work/heap"
    base=$(count due)
    echo "audit $(($(count audit) - base)) collection $(($(count collect) - base))"
done
