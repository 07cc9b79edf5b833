#!/bin/sh
# Times calls at a clerk that holds what they need: reads of 4 KiB, each answered in the step that begins it. Prints how many there are a second; the time is the
# least of five runs, less that of a run of none.
# Usage: bench/begins.sh PROGRAM [COUNT]   (the ec_bench program; `bench/build.sh PROGRAM` builds it)
set -eu
program=${1:?usage: bench/begins.sh PROGRAM [COUNT]}
count=${2:-1000000}

seconds() {
    for _ in 1 2 3 4 5; do
        start=$(date +%s.%N)
        "$program" "$1" > /dev/null
        end=$(date +%s.%N)
        echo "$start $end"
    done | awk '{ time = $2 - $1; if (NR == 1 || time < least) least = time } END { printf "%.6f", least }'
}

none=$(seconds 0)
reads=$(seconds "$count")
echo "$count $none $reads" | awk '{ printf "reads begun and answered: %.0f a second (at least 1000000)\n", $1 / ($3 - $2) }'
