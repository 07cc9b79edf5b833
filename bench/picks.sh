#!/bin/sh
# Times 8,192 and 65,536 operations, issued on so many files in turn, of which those on one file are picked batch by batch: on one file, and on two of
# which the other's stay. Prints both times and their ratio for each. Each time is the least of five runs.
# Usage: bench/picks.sh PROGRAM [FILES]...   (the ec_bench program; `bench/build.sh PROGRAM` builds it)
set -eu
program=${1:?usage: bench/picks.sh PROGRAM [FILES]...}
shift
[ $# -gt 0 ] || set -- 1 2

seconds() {
    for _ in 1 2 3 4 5; do
        start=$(date +%s.%N)
        "$program" picks "$1" "$2" > /dev/null
        end=$(date +%s.%N)
        echo "$start $end"
    done | awk '{ time = $2 - $1; if (NR == 1 || time < least) least = time } END { printf "%.4f", least }'
}

for files in "$@"; do
    small=$(seconds "$files" 8192)
    large=$(seconds "$files" 65536)
    echo "files: $files"
    echo "8192 operations:  $small s"
    echo "65536 operations: $large s"
    echo "$small $large" | awk '{ printf "ratio: %.1f (at most 9)\n", $2 / $1 }'
done
