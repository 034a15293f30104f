#!/usr/bin/env bash
# Plays each stored script on the program replay, which must be built (rt ci, or rt run in its folder), and compares with the answers of the second implementation.
# Then the longest script, one byte more than that, and the stored set made again.
set -uo pipefail
tests=$(dirname "$(readlink -f "$0")")
work=$(mktemp -d)
trap 'rm -r "$work"' EXIT
compared=0
wrong=0

# compare NAME SCRIPT ANSWERS SAID: SAID is the status that the program says, a digit on descriptor 3
compare() {
    local status=0 said
    "$tests/run-program" replay < "$2" > "$work/found" 3> "$work/said" || status=$?
    said=$(cat "$work/said")
    compared=$((compared + 1))
    if [ "$status" -eq 0 ] && [ "$said" = "$4" ] && cmp -s "$work/found" "$3"; then
        echo "$1: $(wc -l < "$3") answers the same"
    else
        wrong=$((wrong + 1))
        echo "$1: DIFFERENT (status $status, said '$said'): $(cmp "$work/found" "$3" 2>&1)"
    fi
}

for script in "$tests"/second/stored/*.script; do
    compare "$(basename "$script" .script)" "$script" "${script%.script}.answers" 0
done
head -c 1048577 /dev/zero > "$work/long"
echo 'too long' > "$work/long.answers"
compare 'one byte too long' "$work/long" "$work/long.answers" 1
head -c 1048576 /dev/zero > "$work/longest"
echo 'unknown' > "$work/longest.answers"
compare 'the longest' "$work/longest" "$work/longest.answers" 0
: > "$work/none"
compare 'no byte' "$work/none" "$work/none" 0

# the second implementation's own tests, and what it says of the stored set
if ! (cd "$tests/second" && cargo test --quiet --release --offline >"$work/own" 2>&1); then
    wrong=$((wrong + 1))
    cat "$work/own"
fi
if (cd "$tests/second" && cargo build --quiet --release --offline && target/release/second check stored); then
    echo 'the stored set is made again the same'
else
    wrong=$((wrong + 1))
    echo 'the stored set: DIFFERENT'
fi
# the gate plays one of the stored scripts: it has to be the stored one still
input=$tests/../crates/replay
if ! cmp "$input/stdin" "$tests/second/stored/mixed.script" || ! cmp "$input/stdout" "$tests/second/stored/mixed.answers"; then
    wrong=$((wrong + 1))
fi
echo "replay: $compared scripts compared, $wrong differences"
[ "$wrong" -eq 0 ] && [ "$compared" -eq 13 ]
