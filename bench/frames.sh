#!/bin/sh
# Times streams of 8,192 and of 65,536 frames, each taken while as many stand behind it, and prints both times and their ratio.
# Each time is the least of five runs.
# Usage: bench/frames.sh PROGRAM   (the ec_bench program; `bench/build.sh PROGRAM` builds it)
set -eu
program=${1:?usage: bench/frames.sh PROGRAM}
folder=$(mktemp -d)
trap 'rm -rf "$folder"' EXIT

seconds() {
    for run in 1 2 3 4 5; do
        start=$(date +%s.%N)
        "$program" "$folder/empty.img" 0 "$1" > /dev/null
        end=$(date +%s.%N)
        echo "$start $end"
    done | awk '{ time = $2 - $1; if (NR == 1 || time < least) least = time } END { printf "%.4f", least }'
}

small=$(seconds 8192)
large=$(seconds 65536)
echo "8192 frames:  $small s"
echo "65536 frames: $large s"
echo "$small $large" | awk '{ printf "ratio: %.1f (at most 9)\n", $2 / $1 }'
