#!/bin/sh
# Times the drill on scripts of several kinds, and prints the times: 8,192 and 65,536 lines of one clerk on files that it holds, with their ratio;
# 16 clerks that share a directory; 2,000 lines of the generator. Each time is the least of five runs, each on a new disk.
# Usage: bench/drill.sh PROGRAM   (the echofs program; `rt run` in crates/echofs builds it)
set -eu
program=$(realpath "${1:?usage: bench/drill.sh PROGRAM}")
folder=$(mktemp -d)
trap 'rm -rf "$folder"' EXIT

# A script of so many lines: one clerk makes files, and then writes and reads those that it holds. The
# lines are short, since a script has at most 16 bytes a line where it has the most lines.
held() {
    awk -v lines="$1" 'BEGIN {
        for (n = 1; n <= lines; n++) {
            file = sprintf("%02d", n % 64)
            if (n <= 64) print "A create /" file
            else if (n % 4096 == 0) print "A sync"
            else if (n % 2 == 0) print "A write /" file " " n % 10 " x"
            else print "A read /" file " 0 9"
        }
    }'
}

# 16 clerks make, write and read files in one directory in turn, so that its token goes round.
shared() {
    awk -v lines="$1" 'BEGIN {
        print "A mkdir /d"
        for (n = 2; n <= lines; n++) {
            clerk = sprintf("%c", 65 + n % 16)
            file = sprintf("/d/%02d", n % 100)
            if (n % 3 == 0) print clerk " create " file
            else if (n % 3 == 1) print clerk " write " file " 0 x"
            else print clerk " read " file " 0 9"
        }
    }'
}

# The least time of five runs of a script, in seconds.
seconds() {
    for _ in 1 2 3 4 5; do
        rm -rf "$folder/run"
        mkdir "$folder/run"
        start=$(date +%s.%N)
        (cd "$folder/run" && "$program" drill < "$1" > "$2")
        end=$(date +%s.%N)
        echo "$start $end"
    done | awk '{ time = $2 - $1; if (NR == 1 || time < least) least = time } END { printf "%.3f", least }'
}

report() {
    name=$1 script=$2
    time=$(seconds "$script" "$folder/out")
    echo "$name: $time s, $(wc -l < "$script") lines in, $(wc -l < "$folder/out") lines out"
}

held 8192 > "$folder/small"
held 65536 > "$folder/large"
shared 2048 > "$folder/shared"
"$program" make 7 > "$folder/made"
report "held files, small" "$folder/small"
small=$time
report "held files, large" "$folder/large"
large=$time
report "16 clerks, one directory" "$folder/shared"
report "generated" "$folder/made"
echo "$small $large" | awk '{ printf "ratio of large to small: %.1f (at most 9)\n", $2 / $1 }'
