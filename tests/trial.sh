#!/bin/sh
# Tries the trial program on standard input: the reference run, cards that are refused, and input that cannot be read, which is told on standard error
# and is no refusal. The program has no exit status of its own. Needs crates/trial/out/trial, which `tools/build trial` builds. The last line is
# 'trial: N passed, 0 failed'.
CDPATH=
top=$(cd "$(dirname "$0")/.." && pwd -P) || exit 1
work=$(mktemp -d) || exit 1
trap 'rm -rf "$work"' EXIT
trap 'exit 1' HUP INT TERM
LC_ALL=C
export LC_ALL
passed=0
failed=0
trial=$top/crates/trial/out/trial
if [ ! -x "$trial" ]; then
    echo "trial: FAILED: $trial is missing: run 'tools/build trial' first"
    exit 1
fi

# told WHAT OUT ERR: what the last call wrote, which its files 'out' and 'err' have
told() {
    got="$(cat "$work/out")
$(cat "$work/err")"
    if [ "$got" = "$2
$3" ]; then
        passed=$((passed + 1))
    else
        failed=$((failed + 1))
        printf 'FAILED: %s\n--- wanted\n%s\n%s\n--- got\n%s\n' "$1" "$2" "$3" "$got"
    fi
}

# try WHAT FILE OUT ERR: the program with this file as its input
try() {
    "$trial" < "$2" > "$work/out" 2> "$work/err"
    told "$1" "$3" "$4"
}

cards=$top/crates/trial/stdin
try 'the reference run' "$cards" '20 10 3 0 764 0 1024 0 3 0 0' ''
sed 's/BCT/BCX/' "$cards" > "$work/bad"
try 'a line that is refused' "$work/bad" '2 17' ''
: > "$work/empty"
try 'no cards' "$work/empty" '8 0' ''
{ cat "$cards"; yes '*' | head -n 20000; } | head -c 32768 > "$work/long"
try 'the longest text' "$work/long" '20 10 3 0 764 0 1024 0 3 0 0' ''
printf '*' >> "$work/long"
try 'a text that is too long' "$work/long" '9 0' ''
yes '*' | head -c 1000000 > "$work/long"
try 'a text that is far too long' "$work/long" '9 0' ''
(cat "$cards"; sleep 1) | "$trial" > "$work/out" 2> "$work/err"
told 'a pipe that ends late' '20 10 3 0 764 0 1024 0 3 0 0' ''
try 'a folder' "$work" '' 'standard input: Is a directory'
"$trial" <&- > "$work/out" 2> "$work/err"
told 'no input' '' 'standard input: Bad file descriptor'

printf 'trial: %d passed, %d failed\n' "$passed" "$failed"
[ "$failed" -eq 0 ]
