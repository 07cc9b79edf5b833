#!/bin/sh
# Times, over real files: appends of 2,000 bytes to a journal beside a C program with the same writes and two syncs an append; commits of
# 64 small updates to a store beside that program, beside SQLite (its log written ahead, full syncs) and over a mirror of two files; and the opening of a full volume
# beside a C program that reads the same bytes, from the disk and from memory. It prints rates and ratios. The programs run by turns; each
# time is the least of its runs, of which a busy disk needs more than five. Those of the commits are of the commits alone: what is committed
# stands ready before the clock starts.
# Usage: bench/commit.sh PROGRAM [FOLDER] [RECORDS] [RUNS]   (the ec_bench program; `bench/build.sh PROGRAM` builds it; FOLDER is on the disk to be measured)
set -eu
program=${1:?usage: bench/commit.sh PROGRAM [FOLDER] [RECORDS] [RUNS]}
records=${3:-500}
runs=${4:-5}
updates=64
bytes=12
# A batch's tag, clerk, session, number and count, and for each update its operation, tag, object, place, flag, length and bytes.
body=$((19 + updates * (20 + bytes)))
objects=1009
here=$(dirname "$0")
folder=$(mktemp -d "${2:-.}/commit.XXXXXX")
trap 'rm -rf "$folder"' EXIT
cc -O2 -o "$folder/commit" "$here/commit.c"

# "NAME SECONDS" of one run of the words behind the name
timed() {
    name=$1
    shift
    start=$(date +%s.%N)
    "$@" > /dev/null
    end=$(date +%s.%N)
    echo "$name $start $end" | awk '{ printf "%s %.6f\n", $1, $3 - $2 }'
}

# the file's bytes are no longer in memory
forget() {
    dd of="$1" oflag=nocache conv=notrunc,fdatasync count=0 2> /dev/null
}

"$program" fill "$folder/full.img" > /dev/null
for run in $(seq "$runs"); do
    timed journal "$program" "$folder/journal.img" "$records" 0
    timed c "$folder/commit" "$folder/c.img" "$records"
    echo "store $("$program" commit "$folder/store.img" "$records" "$bytes")"
    echo "mirror $("$program" mirror "$folder/first.img" "$folder/second.img" "$records" "$bytes")"
    echo "two_syncs $("$folder/commit" "$folder/laid.img" "$records" "$body")"
    rm -f "$folder/base.db" "$folder/base.db-wal" "$folder/base.db-shm"
    echo "sqlite $(python3 "$here/commit.py" "$folder/base.db" "$records" "$updates" "$bytes")"
    forget "$folder/full.img"
    timed open "$program" open "$folder/full.img"
    timed open_again "$program" open "$folder/full.img"
    forget "$folder/full.img"
    timed read "$folder/commit" "$folder/full.img" read "$objects"
    timed read_again "$folder/commit" "$folder/full.img" read "$objects"
    forget "$folder/full.img"
    timed keep "$folder/commit" "$folder/full.img" keep "$objects"
    timed keep_again "$folder/commit" "$folder/full.img" keep "$objects"
done > "$folder/times"
cmp -n $((records * 2005)) "$folder/journal.img" "$folder/c.img"
awk -v records="$records" '
    !($1 in least) || $2 < least[$1] { least[$1] = $2 }
    END {
        printf "journal: %.3f s, %.0f appends a second\n", least["journal"], records / least["journal"]
        printf "C:       %.3f s, %.0f appends a second\n", least["c"], records / least["c"]
        printf "ratio: %.2f (at least 0.85)\n", least["c"] / least["journal"]
        printf "store:  %.3f s, %.0f commits a second\n", least["store"], records / least["store"]
        printf "C:      %.3f s, ratio %.2f (at least 0.85)\n", least["two_syncs"], least["two_syncs"] / least["store"]
        printf "mirror: %.3f s, ratio %.2f (at least 0.45)\n", least["mirror"], least["store"] / least["mirror"]
        printf "SQLite: %.3f s, ratio %.2f (at least 2.5)\n", least["sqlite"], least["sqlite"] / least["store"]
        printf "opening from the disk: %.3f s; the bytes read and kept: %.3f s, ratio %.2f (at most 1.5); only read: %.3f s, ratio %.2f\n", least["open"], least["keep"], least["open"] / least["keep"], least["read"], least["open"] / least["read"]
        printf "opening from memory:   %.3f s; the bytes read and kept: %.3f s, ratio %.2f; only read: %.3f s, ratio %.2f\n", least["open_again"], least["keep_again"], least["open_again"] / least["keep_again"], least["read_again"], least["open_again"] / least["read_again"]
    }' "$folder/times"
