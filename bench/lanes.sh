#!/bin/sh
# Times calls at a shared clerk over loopback: reads of 4,096 bytes by one lane, alone and while another lane waits for the network, and writes of 64 bytes, so few
# that none needs to be flushed. Prints how many there are a second. They run by turns; each time is the least of its runs, less that of a run of none.
# Usage: bench/lanes.sh PROGRAM [READS] [RUNS]   (the ec_bench program; `bench/build.sh PROGRAM` builds it)
set -eu
program=${1:?usage: bench/lanes.sh PROGRAM [READS] [RUNS]}
reads=${2:-1000000}
runs=${3:-5}
writes=60000

timed() {
    start=$(date +%s.%N)
    "$program" "$1" "$2" > /dev/null
    end=$(date +%s.%N)
    echo "$3 $start $end"
}

for run in $(seq "$runs"); do
    for name in reads beside writes; do
        timed "$name" 0 "none-$name"
    done
    for name in reads beside; do
        timed "$name" "$reads" "$name"
    done
    timed writes "$writes" writes
done | awk -v reads="$reads" -v writes="$writes" '
    { took = $3 - $2 }
    !($1 in least) || took < least[$1] { least[$1] = took }
    function rate(name, count) { return count / (least[name] - least["none-" name]) }
    END {
        printf "reads of 4 KiB by one lane:     %.0f a second (at least 1000000)\n", rate("reads", reads)
        printf "the same beside one that waits: %.0f a second, ratio %.2f (at least 0.50)\n", rate("beside", reads), rate("beside", reads) / rate("reads", reads)
        printf "writes of 64 bytes:             %.0f a second (at least 500000)\n", rate("writes", writes)
    }'
