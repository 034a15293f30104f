#!/usr/bin/env bash
# Runs the built events on every stored recording and on those that make-recordings.py makes here, and compares what it shows with what that says of each:
# NAME.txt on standard output, nothing on standard error, and the status, a digit on descriptor 3, which is 0 just where the last line tells the counts.
# Then some of them in small pieces, and the lines that README shows.
set -uo pipefail
cd "$(dirname "$(readlink -f "$0")")/.."
work=$(mktemp -d)
trap 'rm -r "$work"' EXIT

compared=0
failed=0
fail() {
    echo "events: $1" >&2
    failed=$((failed + 1))
}

# compare RECORDING TEXT [SIZE..]: in pieces of these sizes, if there are any
compare() {
    local recording=$1 text=$2 digit=1
    shift 2
    local command=(tests/run-program events) input=$recording
    if [ $# -ne 0 ]; then
        command=(python3 tests/in-pieces.py "$recording" "$@" -- "${command[@]}")
        input=/dev/null
    fi
    [[ $(tail -n 1 "$text") == handed* ]] && digit=0
    compared=$((compared + 1))
    "${command[@]}" <"$input" >"$work/output" 2>"$work/errors" 3>"$work/digit" || fail "$recording $*: the program ended with an error"
    cmp "$work/output" "$text" >&2 || fail "$recording $*: another output"
    cmp "$work/errors" /dev/null >&2 || fail "$recording $*: words on standard error"
    [ "$(cat "$work/digit")" = "$digit" ] || fail "$recording $*: status '$(cat "$work/digit")', not $digit"
}

python3 tests/make-recordings.py --check || fail "a stored file is another than make-recordings.py makes"
# every recording that record has to write is sound
for recording in tests/record/*.spl; do
    compare "$recording" "tests/events/$(basename "$recording" .spl).txt"
done
for recording in tests/events/*.spl; do
    compare "$recording" "${recording%.spl}.txt"
done
stored=$(find tests/events -name '*.txt' | wc -l)
[ "$stored" -eq "$compared" ] || fail "$stored texts are stored, $compared recordings were met"
for number in 1 2 3 4 5 6 7 8; do
    grep -q "^fault $number at [0-9]* [a-z ]*$" tests/events/*.txt || fail "no stored text has fault $number"
done

mkdir "$work/more"
python3 tests/make-recordings.py --more "$work/more" || fail "no further recordings"
for recording in "$work"/more/*.spl; do
    compare "$recording" "${recording%.spl}.txt"
done

# In pieces: byte by byte, so that nothing ever arrives whole, and in sizes that meet the parts' ends from either side.
for recording in tests/record/start.spl tests/events/{after-another,spare-closing,sequence-again,early-closing}.spl; do
    for size in 1 3 7 23 31 33; do
        compare "$recording" "tests/events/$(basename "$recording" .spl).txt" "$size"
    done
done
compare "$work/more/dense.spl" "$work/more/dense.txt" 4096 1 4095 31 33
compare "$work/more/large.spl" "$work/more/large.txt" 1 4096 7 64 4095

# readme_shows COMMAND: the lines that README shows below it
readme_shows() { awk -v command="    $ $1" '$0 == command { on = 1; next } /^$/ { on = 0 } on { sub(/^    /, ""); print }' README.md; }
diff <(readme_shows './ring record < examples/start.ring | ./ring events') tests/events/start.txt >&2 || fail "README shows other lines of a recording"
diff <(readme_shows './ring record < examples/start.ring | head -c 200 | ./ring events') \
    <(head -c 200 tests/record/start.spl | tests/run-program events 3>/dev/null) >&2 || fail "README shows other lines of a recording that was cut off"

if [ "$failed" -ne 0 ]; then
    exit 1
fi
echo "events: $compared recordings shown as expected"
