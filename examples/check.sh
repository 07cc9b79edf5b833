#!/bin/sh
# Runs each example through the program, and compares its bytes and its exit status with the files beside it.
# Usage: examples/check.sh PROGRAM
#
# NAME.script goes to standard input, NAME.expected is the output and NAME.status the exit status that have to come. Each run has a folder
# of its own, since the program keeps its disk in a file there.
# NAME.args has the program's words, one a line; with no such file they are `drill`. Standard error has to say
# something exactly where the status isn't 0. Then a script and a transcript that fail are tried.
set -u
program=$(realpath "${1:?usage: examples/check.sh PROGRAM}")
cd "$(dirname "$0")" || exit 1
folder=$(mktemp -d)
trap 'rm -rf "$folder"' EXIT
passed=0
failed=0

# Notes whether the program that just ran ended with this status, and said why on standard error where it isn't 0.
ended() {
    name=$1 status=$2 wanted=$3
    if [ "$status" != "$wanted" ]; then
        echo "$name: ended with status $status, and not $wanted"
        return 1
    fi
    if [ "$status" = 0 ] && [ -s "$folder/error" ]; then
        echo "$name: standard error isn't empty"
        return 1
    fi
    if [ "$status" != 0 ] && [ ! -s "$folder/error" ]; then
        echo "$name: standard error doesn't say why"
        return 1
    fi
}

count() {
    if [ "$1" = 0 ]; then passed=$((passed + 1)); else failed=$((failed + 1)); fi
}

example() {
    name=$1
    set --
    if [ -f "$name.args" ]; then
        while IFS= read -r word; do set -- "$@" "$word"; done < "$name.args"
    else
        set -- drill
    fi
    rm -rf "$folder/run"
    mkdir "$folder/run"
    (cd "$folder/run" && "$program" "$@") < "$name.script" > "$folder/$name" 2> "$folder/error"
    ended "$name" $? "$(cat "$name.status")" || return 1
    cmp "$folder/$name" "$name.expected"
}

for script in *.script; do
    example "${script%.script}"
    count $?
done

# A folder can't be read, and a full device can't be written.
rm -rf "$folder/run"
mkdir "$folder/run"
(cd "$folder/run" && "$program" drill) < . > "$folder/none" 2> "$folder/error"
ended "a script that can't be read" $? 4 && [ ! -s "$folder/none" ]
count $?
"$program" check < . > "$folder/none" 2> "$folder/error"
ended "a transcript that can't be read" $? 4 && [ ! -s "$folder/none" ]
count $?
(cd "$folder/run" && "$program" drill) < read_back.script > /dev/full 2> "$folder/error"
ended "a transcript that can't be written" $? 5
count $?

# What is no disk is told, and left as it is; a folder in its place can't be opened.
rm -rf "$folder/run"
mkdir "$folder/run"
echo "no disk at all, but a text" > "$folder/run/echofs.disk"
(cd "$folder/run" && "$program" drill) < read_back.script > "$folder/none" 2> "$folder/error"
ended "a file that is no disk" $? 7 && [ "$(cat "$folder/none")" = "disk bad 0" ] && [ "$(cat "$folder/run/echofs.disk")" = "no disk at all, but a text" ]
count $?
rm "$folder/run/echofs.disk"
mkdir "$folder/run/echofs.disk"
(cd "$folder/run" && "$program" drill) < read_back.script > "$folder/none" 2> "$folder/error"
ended "a disk that can't be opened" $? 6 && [ ! -s "$folder/none" ]
count $?

# A script has at most 65,536 lines, a script that is made has 2,000, and where the last id is given out no file is made. The number of the next object
# stands in the table of a new disk.
rm -rf "$folder/run"
mkdir "$folder/run"
head -c 65537 /dev/zero | tr '\0' '\n' > "$folder/lines"
(cd "$folder/run" && "$program" drill) < "$folder/lines" > "$folder/told" 2> "$folder/error"
ended "a script with too many lines" $? 11 && [ "$(cat "$folder/told")" = "limit lines 65537" ]
count $?
(cd "$folder/run" && "$program" make 1) < /dev/null > "$folder/made" 2> "$folder/error"
ended "a script that is made" $? 0 && [ "$(wc -l < "$folder/made")" -eq 2000 ] && [ "$(head -c 10 "$folder/made")" = "C mkdir /d" ]
count $?
(cd "$folder/run" && "$program" drill) < "$folder/made" > "$folder/told" 2> "$folder/error"
ended "what was made, as a script" $? 0
count $?
rm -rf "$folder/run"
mkdir "$folder/run"
(cd "$folder/run" && "$program" drill) < /dev/null > /dev/null 2>&1
printf '\377\377\377\377' | dd of="$folder/run/echofs.disk" bs=1 seek=2101253 conv=notrunc 2> /dev/null
echo "A create /f" > "$folder/script"
(cd "$folder/run" && "$program" drill) < "$folder/script" > "$folder/told" 2> "$folder/error"
ended "a disk without further ids" $? 15 && [ "$(cat "$folder/told")" = "1 A create /f -> waits
spent Id" ]
count $?

echo "examples: $passed passed, $failed failed"
[ "$failed" = 0 ]
