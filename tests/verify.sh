#!/usr/bin/env bash
# Runs the built verify on stored rings and recordings and compares its line, where it goes and the status, a digit on descriptor 3, with
# tests/verdicts.txt. Then on rings of each allowed capacity that are made here, with their recordings as they are, cut short, gone on and with one byte
# changed; and the lines that README shows.
set -uo pipefail
cd "$(dirname "$(readlink -f "$0")")/.."
work=$(mktemp -d)
trap 'rm -r "$work"' EXIT

compared=0
failed=0
fail() {
    echo "verify: $1" >&2
    failed=$((failed + 1))
}

# compare RING RECORDING ANSWER
compare() {
    local output=$3 errors='' digit=1
    case $3 in
    same*) digit=0 ;;
    refused*)
        output=''
        errors=$3
        ;;
    esac
    compared=$((compared + 1))
    tests/run-program verify <"$1" 5<"$2" >"$work/output" 2>"$work/errors" 3>"$work/digit" || fail "$1 $2: the program ended with an error"
    cmp "$work/output" <(printf '%s' "${output:+$output$'\n'}") >&2 || fail "$1 $2: another output"
    cmp "$work/errors" <(printf '%s' "${errors:+$errors$'\n'}") >&2 || fail "$1 $2: other words on standard error"
    [ "$(cat "$work/digit")" = "$digit" ] || fail "$1 $2: status '$(cat "$work/digit")', not $digit"
}

python3 tests/make-verdicts.py --check || fail "the stored answers aren't those that make-verdicts.py makes"
while read -r ring recording answer; do
    compare "$ring" "$recording" "$answer"
done <tests/verdicts.txt
[ "$compared" -eq "$(wc -l <tests/verdicts.txt)" ] || fail "$compared answers were compared"

# change FILE PLACE: one bit of the byte there, into $work/changed
change() {
    python3 -c 'import sys; b = bytearray(open(sys.argv[1], "rb").read()); b[int(sys.argv[2])] ^= 128; open(sys.argv[3], "wb").write(b)' \
        "$1" "$2" "$work/changed"
}

mkdir "$work/large"
python3 tests/make-rings.py --large "$work/large" || fail "no large rings"
met=0
for own in "$work"/large/*.spl; do
    ring=${own%.spl}.ring
    bytes=$(stat -c %s "$own")
    met=$((met + 1))
    compare "$ring" "$own" "same $bytes bytes"
    for place in $((bytes / 3)) $((bytes - 1)); do
        change "$own" "$place"
        compare "$ring" "$work/changed" "differs at $place"
    done
    head -c "$((bytes - 1))" "$own" >"$work/changed"
    compare "$ring" "$work/changed" "differs at $((bytes - 1))"
    { cat "$own" && printf '\0'; } >"$work/changed"
    compare "$ring" "$work/changed" "differs at $bytes"
done
[ "$met" -ge 13 ] || fail "$met large rings with a recording were met"

# all along one recording, whose events lie in two stretches of the ring
own=tests/record/start.spl
bytes=$(stat -c %s "$own")
for ((place = 0; place < bytes; place += 13)); do
    change "$own" "$place"
    compare examples/start.ring "$work/changed" "differs at $place"
    head -c "$place" "$own" >"$work/changed"
    compare examples/start.ring "$work/changed" "differs at $place"
done

# readme_shows COMMAND: the line that README shows below it
readme_shows() { awk -v command="    $ $1" '$0 == command { on = 1; next } /^$/ { on = 0 } on { sub(/^    /, ""); print }' README.md; }
[ "$(readme_shows './ring verify examples/start.ring start.spl')" = 'same 288 bytes' ] || fail "README shows another answer"
[ "$(readme_shows 'head -c 200 start.spl | ./ring verify examples/start.ring -')" = 'differs at 200' ] || fail "README shows another answer of a part"

if [ "$failed" -ne 0 ]; then
    exit 1
fi
echo "verify: $compared answers as expected"
