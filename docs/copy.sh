#!/bin/sh
# Copies the files of the repository as they stand, and the libraries that were proved here, into a folder.
# Usage: docs/copy.sh FOLDER
set -eu
folder=$(realpath "${1:?usage: docs/copy.sh FOLDER}")
cd "$(dirname "$0")/.."
git ls-files -coz --exclude-standard |
    xargs -0 sh -c 'for file; do [ ! -e "$file" ] || printf "%s\\0" "$file"; done' sh |
    tar -c --null -T - | tar -x -C "$folder"
for library in crates/*/out/rlib; do
    if [ -e "$library/stamp" ]; then
        mkdir -p "$folder/${library%/rlib}"
        cp -al "$library" "$folder/$library" 2> /dev/null || cp -a "$library" "$folder/${library%/rlib}"
    fi
done
