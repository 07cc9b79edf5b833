#!/bin/sh
# Times the reading and printing of lines and the coding of messages (decoded, and encoded again), each of two lengths that differ eightfold, over as many bytes
# in all, and prints the rates in MB (10^6 bytes) a second and how many times as long a byte takes in the longer ones.
# Each time is the least of five runs.
# Usage: bench/formats.sh PROGRAM   (the ec_bench program; `bench/build.sh PROGRAM` builds it)
set -eu
program=${1:?usage: bench/formats.sh PROGRAM}

seconds() {
    for _ in 1 2 3 4 5; do
        start=$(date +%s.%N)
        "$program" formats "$1" "$2" "$3"
        end=$(date +%s.%N)
        echo "$start $end"
    done | awk '{ time = $2 - $1; if (NR == 1 || time < least) least = time } END { printf "%.4f", least }'
}

# NAME, the longer length, how often, and the rate that is wanted
rates() {
    short=$(seconds "$1" $(($2 / 8)) $(($3 * 8)))
    long=$(seconds "$1" "$2" "$3")
    echo "$1 $2 $3 $short $long $4" | awk '{
        printf "%s: %.0f MB/s at %d bytes, %.0f MB/s at %d bytes (at least %d); a byte of the longer takes %.2f of the time\n",
            $1, $2 * $3 / $4 / 1e6, $2 / 8, $2 * $3 / $5 / 1e6, $2, $6, $5 / $4
    }'
}

rates read_line 4096 5000 30
rates read 4096 5000 30
rates print 4096 5000 30
rates recode 65536 4000 250
