#!/bin/sh
# Stops the server in each device call of a script in turn, with each choice of what the power cut leaves of the writes since the last sync.
# Usage: examples/stops.sh PROGRAM [mirror]
# With `mirror` each drill has a second disk, an empty one, and both are to be equal from byte 4,096 on at its end.
#
# The script is `ordered.script`. With the stop armed behind its fourth call, and a restart as its last one, the drill ends well, its `fsync` is
# answered, and the transcript is legal. With the stop armed before its first one the drill ends well too, and the transcript is legal; there
# the restart may come too late for the first calls. A round ends with the first number of calls in which nothing stops.
#
# Then the script `stops/script` is drilled, in which three commits follow the `arm` line, with each number of calls and each choice, and the
# transcript is compared with the one that has to come. A commit makes four device calls: it writes and syncs its record, and writes and syncs
# the gate before it. Where the stop is in the last two of these and the choice is `new`, its operation is durable behind the restart; where
# it's `torn`, only if the gate stands at an even place, which the length of the first name decides. Behind the twelfth call nothing stops.
set -u
program=$(realpath "${1:?usage: examples/stops.sh PROGRAM [mirror]}")
mode=${2:-}
cd "$(dirname "$0")" || exit 1
folder=$(mktemp -d)
trap 'rm -rf "$folder"' EXIT
passed=0
failed=0

# A folder for a run, which has the disks.
new_run() {
    rm -rf "$folder/run"
    mkdir "$folder/run"
    [ "$mode" != mirror ] || : > "$folder/run/echofs.disk2"
}

# Whether two disks hold the same content.
alike() {
    [ "$mode" != mirror ] || cmp -s -i 4096 "$folder/run/echofs.disk" "$folder/run/echofs.disk2"
}

# Drills the script with this line added behind so many lines. What is wrong with it is told.
stopped_in() {
    line=$1 behind=$2
    new_run
    { head -n "$behind" ordered.script; echo "$line"; tail -n +"$((behind + 1))" ordered.script; echo restart; } > "$folder/script"
    (cd "$folder/run" && "$program" drill) < "$folder/script" > "$folder/transcript" 2> /dev/null
    status=$?
    verdict=$("$program" check < "$folder/transcript" 2> /dev/null)
    if [ "$status" = 0 ] && [ "$verdict" = legal ] && alike && { [ "$behind" = 1 ] || grep -qx '11 A fsync /b -> ok' "$folder/transcript"; }; then
        passed=$((passed + 1))
    else
        failed=$((failed + 1))
        echo "$line behind line $behind: status $status, $verdict"
    fi
}

for choice in old new torn; do
    for behind in 5 1; do
        calls=1
        stopped_in "arm $calls $choice" "$behind"
        while grep -qx stopped "$folder/transcript" && [ "$calls" -lt 200 ]; do
            calls=$((calls + 1))
            stopped_in "arm $calls $choice" "$behind"
        done
    done
done

# Which transcript has to come where this call stops, with this choice, and the gates stand at such places.
wanted() {
    calls=$1 choice=$2 places=$3
    case $(((calls - 1) / 4)) in
        0) commit=first ;;
        1) commit=second ;;
        2) commit=third ;;
        *) echo none; return ;;
    esac
    case $(((calls - 1) % 4))-$choice-$places in
        [23]-new-* | [23]-torn-even) echo "${commit}_with" ;;
        *) echo "${commit}_without" ;;
    esac
}

# Drills that script with this stop, and compares the transcripts.
told_so() {
    calls=$1 choice=$2 file=$3 places=$4
    new_run
    sed "s|FILE|$file|; s|ARM|arm $calls $choice|" stops/script > "$folder/script"
    sed "s|FILE|$file|" "stops/$(wanted "$calls" "$choice" "$places").expected" > "$folder/expected"
    (cd "$folder/run" && "$program" drill) < "$folder/script" > "$folder/transcript" 2> /dev/null
    status=$?
    if [ "$status" = 0 ] && alike && cmp -s "$folder/transcript" "$folder/expected"; then
        passed=$((passed + 1))
    else
        failed=$((failed + 1))
        echo "arm $calls $choice, gates at $places places: status $status, or another transcript"
    fi
}

for choice in old new torn; do
    for calls in 1 2 3 4 5 6 7 8 9 10 11 12 13; do
        told_so "$calls" "$choice" /ff odd
        told_so "$calls" "$choice" /f even
    done
done

echo "stops: $passed passed, $failed failed"
[ "$failed" = 0 ]
