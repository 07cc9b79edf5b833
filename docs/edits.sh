#!/bin/sh
# Tries edits that stand outside the gate: each of crates/NAME/edits/*.edit turns what a function does, and the prover must refuse it. It prints what `rt` says of each,
# and counts them in its last line: those that are refused, those that aren't, and those that say nothing of a contract, since they can't be tried or are refused only
# because a proof file names what they took away.
# `rt ci NAME..` tries them, over a copy: what the gate passed on this machine it keeps, so the crates below, and the crate itself, aren't proved again where their texts are
# those of the gate. What lacks is proved first, which takes long. What an edit came to is kept too.
# Usage: docs/edits.sh [NAME]...   (crates; without a name all that have such edits)
set -eu
cd "$(dirname "$0")/.."
room=$(mktemp -d)
trap 'rm -rf "$room"' EXIT
trap 'exit 1' HUP INT TERM
git ls-files -coz --exclude-standard crates crates.txt HANDLES |
    xargs -0 sh -c 'for file; do [ ! -e "$file" ] || printf "%s\\0" "$file"; done' sh |
    tar -c --null -T - | tar -x -C "$room"
cd "$room"
[ $# -gt 0 ] || set -- $(ls -d crates/*/edits | cut -d / -f 2)
rm -rf crates/*/must-fail
for name in "$@"; do
    mv "crates/$name/edits" "crates/$name/must-fail"
done
{ rt ci "$@" 2>&1 || true; } | tee said | grep --line-buffered "^rt: \|: error" || true
awk '
    /^rt: must-fail .*\(only because a proof file names/ { bad++; next }
    /^rt: must-fail .*: refused/ { refused++ }
    /^rt: must-fail .*: NOT REFUSED/ { kept++ }
    /^rt: must-fail .*: (BAD EDIT|NOT TRIED)/ { bad++ }
    END { printf "%d refused, %d not refused, %d bad\n", refused, kept, bad; exit kept + bad > 0 || !refused }' said
