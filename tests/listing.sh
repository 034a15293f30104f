#!/usr/bin/env bash
# Runs the built listing on every stored ring and compares what it writes, byte for byte, with the text stored under the same name, and the status that
# it says, a digit on descriptor 3. Every ring has a text and every text a ring, so that none is passed over.
set -uo pipefail
cd "$(dirname "$(readlink -f "$0")")/.."
out=$(mktemp)
digit=$(mktemp)
trap 'rm -f "$out" "$digit"' EXIT

compared=0
failed=0
fail() {
    echo "listing: $1" >&2
    failed=$((failed + 1))
}

for ring in examples/*.ring tests/listing/*.ring; do
    name=$(basename "$ring" .ring)
    text=tests/listing/$name.txt
    if [ ! -f "$text" ]; then
        fail "$ring has no text"
    elif ! tests/run-program listing <"$ring" >"$out" 3>"$digit"; then
        fail "$ring: the program ended with an error"
    elif ! cmp "$out" "$text" >&2; then
        fail "$ring: another text than $text"
    elif [ "$(cat "$digit")" != "$(grep -qE '^(refused|too long)' "$text" && echo 1 || echo 0)" ]; then
        fail "$ring: status '$(cat "$digit")'"
    else
        compared=$((compared + 1))
    fi
done

# the stored rings are those that were put together from the paper's tables
python3 tests/make-rings.py --check || fail "a stored file is another than make-rings.py makes"

texts=$(ls tests/listing/*.txt | wc -l)
if [ "$texts" -ne $((compared + failed)) ]; then
    fail "$texts texts are stored, $((compared + failed)) rings were met"
fi
if [ "$failed" -ne 0 ]; then
    exit 1
fi
echo "listing: $compared outputs as expected"
