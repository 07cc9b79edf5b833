#!/bin/sh
# Has a shared server take messages over a link in memory, a third of them batches, and prints the most memory that its process had, for a tenth of the messages and
# for all of them. They are to be equal but for a few pages: what a server keeps doesn't grow.
# Usage: bench/messages.sh PROGRAM [MESSAGES]   (the ec_bench program; `bench/build.sh PROGRAM` builds it)
set -eu
program=${1:?usage: bench/messages.sh PROGRAM [MESSAGES]}
messages=${2:-10000000}

# "MESSAGES KILOBYTES SECONDS" of one run
run() {
    /usr/bin/time -f "$1 %M %e" "$program" messages "$1" 2>&1 > /dev/null
}

{
    run $((messages / 10))
    run "$messages"
} | awk '
    { printf "%d messages: %d KiB, %.0f messages a second\n", $1, $2, $1 / $3 }
    NR == 1 { first = $2 }
    END { printf "ratio: %.2f (at most 1.05)\n", $2 / first }'
