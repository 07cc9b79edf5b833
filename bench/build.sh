#!/bin/sh
# Builds the program whose work the benches time. Its sources stand in bench/ec_bench under names that the gate doesn't read: they become a crate of a copy of the
# repository, over the libraries that were proved here, and are proved there, which takes some ten minutes of a processor. Without PROGRAM `rt try` only sees that
# they still compile and do a short work.
# Usage: bench/build.sh [PROGRAM]
set -eu
program=${1:+$(realpath "$1")}
cd "$(dirname "$0")/.."
room=$(mktemp -d)
trap 'rm -rf "$room"' EXIT
trap 'exit 1' HUP INT TERM
docs/copy.sh "$room"
cd "$room"
cp -r bench/ec_bench crates/ec_bench
cat crates/ec_bench/crates_line >> crates.txt
find crates/ec_bench -name '*.txt' | while IFS= read -r file; do
    mv "$file" "${file%.txt}"
done
cd crates/ec_bench
if [ -n "$program" ]; then
    rt run -- picks 1 64 > /dev/null
    cp out/ec_bench "$program"
else
    rt try -- picks 1 64
fi
