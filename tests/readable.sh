#!/usr/bin/env bash
# Holds the crates to what a reader needs: no line is longer than 200 characters, and every file of laws and every function's proof opens with a
# comment on how it goes. A proof of two files, Invariants.antt and Answers.antt, is read in this order, so the first of them says it. Lists of files
# (Lib.antt) have nothing to say.
set -uo pipefail
cd "$(dirname "$(readlink -f "$0")")/.."
# characters are counted, and not bytes
export LC_ALL=C.UTF-8

failed=0
fail() {
    echo "readable: $1" >&2
    failed=$((failed + 1))
}

while IFS=: read -r file line _; do
    fail "$file:$line is longer than 200 characters"
done < <(grep -rnE '^.{201,}' --exclude-dir=out --include='*.antt' --include='*.rt' crates)

proofs=0
while IFS= read -r file; do
    proofs=$((proofs + 1))
    first=$file
    [[ $file != */Answers.antt ]] || [ ! -f "${file%Answers.antt}Invariants.antt" ] || first=${file%Answers.antt}Invariants.antt
    [[ $(head -n 1 "$first") == '-- '* ]] || fail "$file doesn't say at its head how it goes"
done < <(find crates/*/proofs -name '*.antt' ! -name Lib.antt)
[ "$proofs" -ne 0 ] || fail "there are no proofs"

if [ "$failed" -ne 0 ]; then
    exit 1
fi
echo "readable: no line too long, and $proofs proofs say how they go"
