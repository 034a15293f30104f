#!/usr/bin/env bash
# Holds docs/STATEMENTS.md to the tree: the reading order lists every file that must be believed with the number of its lines, every file that is named
# exists, every theorem stands in the file that is said to prove it, and every must-fail edit is listed.
set -uo pipefail
cd "$(dirname "$(readlink -f "$0")")/.."
page=docs/STATEMENTS.md

failed=0
fail() {
    echo "statements: $1" >&2
    failed=$((failed + 1))
}

lines() { grep -vc '^[[:space:]]*$' "$1"; }

# what a row of the reading order says: `crate/specs/File.antt` (lines)
listed=' '
total=0
while read -r file count; do
    listed="$listed$file "
    total=$((total + count))
    [ -f "crates/$file" ] || { fail "the reading order names $file, which isn't there"; continue; }
    [ "$(lines "crates/$file")" -eq "$count" ] || fail "$file has $(lines "crates/$file") lines, and not $count"
done < <(grep -oE '`[a-z_]+/specs/[A-Za-z0-9]+\.antt` \([0-9]+\)' "$page" | sed -E 's/`(.*)` \((.*)\)/\1 \2/')

# everything behind the statements is in it: all of specs/ but what measures, plays scripts and writes numbers as text, and but the lists of files
for path in crates/*/specs/*.antt; do
    file=${path#crates/}
    case $file in
    bench_calls/* | bench_serial/* | bench_slips/* | replay_serial/* | replay_slips/* | script/* | text/*) continue ;;
    */Lib.antt) total=$((total + $(lines "$path"))); continue ;;
    esac
    [[ $listed == *" $file "* ]] || fail "$file is not in the reading order"
done
said=$(grep -oE '[0-9],[0-9]{3} lines in all' "$page" | head -n 1 | tr -cd 0-9)
[ "$said" = "$total" ] || fail "the reading order says ${said:-nothing} lines in all, and there are $total"

while read -r file; do
    [ -e "crates/$file" ] || [ -e "$file" ] || fail "$file is named and isn't there"
done < <(grep -oE '`[A-Za-z_]+/[A-Za-z0-9_./]+\.(antt|rt|sh|h)`' "$page" | tr -d '`' | sort -u)

# `theorem : Statement` (`file`
while read -r theorem file; do
    grep -qE "^ *pub $theorem :" "crates/$file" 2>/dev/null || fail "$theorem isn't proved in $file"
done < <(grep -oE '`[a-z0-9_]+ : [^`]+` \(`[A-Za-z_]+/proofs/[A-Za-z0-9]+\.antt`' "$page" | sed -E 's/`([a-z0-9_]+) : [^`]+` \(`(.*)`/\1 \2/')

for edit in crates/*/must-fail/*.edit; do
    grep -q "\`$(basename "$edit" .edit)\`" "$page" || grep -q "/$(basename "$edit" .edit)\`" "$page" || fail "$edit is not listed"
done

if [ "$failed" -ne 0 ]; then
    exit 1
fi
echo "statements: $total lines to believe in $(wc -w <<<"$listed") files, each in the reading order"
