#!/usr/bin/env bash
# Runs the built record on every stored ring, and on rings of each allowed capacity that are made here, and compares what it writes with what
# make-rings.py says: the recording NAME.spl on standard output, or the line NAME.txt on standard error, nothing on the other stream, and the status,
# a digit on descriptor 3. Every ring has one of the two, so that none is passed over.
set -uo pipefail
cd "$(dirname "$(readlink -f "$0")")/.."
work=$(mktemp -d)
trap 'rm -r "$work"' EXIT

compared=0
failed=0
fail() {
    echo "record: $1" >&2
    failed=$((failed + 1))
}

# compare RING FOLDER: what is expected stands in FOLDER under the ring's name
compare() {
    local name output=/dev/null errors=/dev/null digit
    name=$(basename "$1" .ring)
    case $(cd "$2" && ls "$name".spl "$name".txt 2>/dev/null) in
    "$name.spl")
        output=$2/$name.spl
        digit=0
        ;;
    "$name.txt")
        errors=$2/$name.txt
        digit=1
        ;;
    *)
        fail "$1 has not just one of $name.spl and $name.txt"
        return
        ;;
    esac
    compared=$((compared + 1))
    tests/run-program record <"$1" >"$work/output" 2>"$work/errors" 3>"$work/digit" || fail "$1: the program ended with an error"
    cmp "$work/output" "$output" >&2 || fail "$1: another output"
    cmp "$work/errors" "$errors" >&2 || fail "$1: other words on standard error"
    [ "$(cat "$work/digit")" = "$digit" ] || fail "$1: status '$(cat "$work/digit")', not $digit"
}

for ring in examples/*.ring tests/listing/*.ring; do
    compare "$ring" tests/record
done
stored=$(ls tests/record | wc -l)
[ "$stored" -eq "$compared" ] || fail "$stored replies are stored, $compared rings were met"

mkdir "$work/large"
python3 tests/make-rings.py --large "$work/large" || fail "no large rings"
for ring in "$work"/large/*.ring; do
    compare "$ring" "$work/large"
done
[ $((compared - stored)) -eq 16 ] || fail "$((compared - stored)) large rings were met, not 16"

# bytes that come by and by
cat "$work/large/1048576.ring" | tests/run-program record | cmp - "$work/large/1048576.spl" >&2 || fail "another recording by a pipe"

# the bytes that README shows
shown=$(sed -n 's/^    [0-9a-f]\{8\}: \([0-9a-f ]\{39\}\)  .*/\1/p' README.md | tr -d ' \n')
[ "$shown" = "$(od -An -v -tx1 tests/record/start.spl | tr -d ' \n')" ] || fail "README shows another recording"

if [ "$failed" -ne 0 ]; then
    exit 1
fi
echo "record: $compared replies as expected"
