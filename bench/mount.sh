#!/bin/sh
# Has sixteen mounts at one server over loopback create, write, read and remove files at the same time, each in a directory of its own, and then in one directory that
# they share. Prints the seconds that each part took, and fails where a mount fails or has an answer that refuses.
# Usage: bench/mount.sh PROGRAM [FOLDER] [FILES] [SHARED]   (the echofs program; FOLDER is on the disk to be used)
set -eu
program=$(realpath "${1:?usage: bench/mount.sh PROGRAM [FOLDER] [FILES] [SHARED]}")
files=${3:-500}
shared=${4:-50}
clerks="A B C D E F G H I J K L M N O P"
. "$(dirname "$0")/loopback.sh"
enter_folder "${2:-.}"

# The calls on so many files of this clerk in this directory.
calls() {
    awk -v clerk="$1" -v dir="$2" -v count="$3" 'BEGIN {
        for (i = 1; i <= count; i++) {
            path = dir "/" clerk i
            printf "1 create %s\n1 write %s 0 text%d\n1 read %s 0 9\n1 remove %s\n", path, path, i, path, path
        }
    }'
}

# All clerks at the same time, each with its script, timed from the next whole second of the clock, for which each mount waits.
all() {
    start=$(date +%s.%N)
    mounts=""
    for clerk in $clerks; do
        mount_at 4716 "$clerk" < "$1.$clerk" > "$1.$clerk.answers" &
        mounts="$mounts $!"
    done
    for mount in $mounts; do
        wait "$mount"
    done
    end=$(date +%s.%N)
    if grep -l " -> refused" "$1".*.answers; then
        echo "refused" >&2
        exit 1
    fi
    echo "$2 $start $end" | awk '{ printf "16 mounts of %d files, %s: %.2f s, all finished\n", $1, name, $3 - int($2) - 1 }' name="$3"
}

begin_server 4716 33
{
    echo "1 mkdir /s"
    for clerk in $clerks; do
        echo "1 mkdir /d$clerk"
        calls "$clerk" "/d$clerk" "$files" > "own.$clerk"
        calls "$clerk" "/s" "$shared" > "shared.$clerk"
    done
} > directories
mount_at 4716 A < directories > /dev/null
all own "$files" "each in a directory of its own"
all shared "$shared" "in one directory"
end_server
