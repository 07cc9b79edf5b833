#!/bin/sh
# Times a server over loopback beside C programs that make bare round trips by blocking sockets: a create and an fsync of it by one mount, beside round trips with two
# writes and syncs of a file in each; and, from a want to its grant, an object that a mount has to give back first. Each time is the least of its runs; the
# mount's is less that of a mount of one call.
# Usage: bench/serve.sh PROGRAM [FOLDER] [FILES] [RUNS]   (the echofs program; FOLDER is on the disk to be measured; at most 120 files)
set -eu
program=$(realpath "${1:?usage: bench/serve.sh PROGRAM [FOLDER] [FILES] [RUNS]}")
files=${3:-100}
runs=${4:-5}
here=$(realpath "$(dirname "$0")")
. "$here/loopback.sh"
enter_folder "${2:-.}"
for name in pingpong recall; do
    cc -O2 -o "$name" "$here/$name.c"
done

# "NAME SECONDS" of a mount of this script at a server on a new disk, from the next whole second of the clock: a mount waits for it, so that no two starts are alike
timed() {
    begin_server 4715 1
    start=$(date +%s.%N)
    mount_at 4715 A < "$2" > answers
    end=$(date +%s.%N)
    end_server
    echo "$1 $start $end" | awk '{ printf "%s %.6f\n", $1, $3 - int($2) - 1 }'
}

# "recall SECONDS" of a client that takes a file away from a mount which reads it
recalled() {
    begin_server 4715 3
    printf '1 create /f\n1 write /f 0 x\n' | mount_at 4715 A > answers
    ./recall 4715 200 > median &
    client=$!
    mount_at 4715 A < reads > answers
    wait "$client"
    end_server
    echo "recall $(cat median)"
}

awk -v files="$files" 'BEGIN { for (i = 1; i <= files; i++) printf "1 create /f%d\n1 fsync /f%d\n", i, i }' > script
awk 'BEGIN { for (i = 1; i <= 60000; i++) print "1 read /f 0 1" }' > reads
printf '1 stat /\n' > none
for run in $(seq "$runs"); do
    timed mount script
    timed none none
    echo "synced $(./pingpong "$files" c.img)"
    recalled
    echo "bare $(./pingpong 10000)"
done > times
awk -v files="$files" '
    !($1 in least) || $2 < least[$1] { least[$1] = $2 }
    END {
        bare = least["bare"]
        syncs = least["synced"] - bare
        pair = (least["mount"] - least["none"]) / files
        printf "a bare round trip:                  %.0f us\n", bare * 1e6
        printf "two writes and syncs:               %.0f us\n", syncs * 1e6
        printf "a create and an fsync:              %.0f us, %.2f of three round trips and the syncs (at most 1.00)\n", pair * 1e6, pair / (3 * bare + syncs)
        printf "from a want to its grant, recalled: %.0f us, %.2f round trips (at most 6)\n", least["recall"] * 1e6, least["recall"] / bare
    }' times
