#!/usr/bin/env bash
# Holds docs/RULES.md to the tree and to itself: paragraphs are numbered by their section and upwards, each ends by naming the definitions that state it,
# (`name`, `other`, `crate/specs/File.antt`; `third`, `crate/src/lib.rt`), or with (no definition), and every definition stands in the file it is said to.
# And the tree to it: comments in the crates cite paragraphs that are there, and nothing cites the paper that isn't here.
set -uo pipefail
cd "$(dirname "$(readlink -f "$0")")/.."
page=docs/RULES.md

failed=0
fail() {
    echo "rules: $1" >&2
    failed=$((failed + 1))
}

stands() {
    case $2 in
    *.antt) grep -qE "^ *(unfoldable |abbrev )?pub (record |data )?$1( |\$)" "crates/$2" ;;
    *.rt) grep -qE "^ *pub (struct |enum |(extern \"C\" )?fn )$1[ <({]" "crates/$2" ;;
    esac
}

section=0
number=0
paragraphs=0
title=''
titles=' '
end=''
# the paragraph before ends here: its last line names definitions, or says that there are none
ended() {
    [ -z "$title" ] || [[ $end =~ \(\`[^\(\)]*\.(antt|rt)\`\)$ || $end == *'(no definition)' ]] || fail "$title doesn't end with its definitions"
    title=''
}
while IFS= read -r line; do
    if [[ $line =~ ^'## '([0-9]+)'. ' ]]; then
        next=${BASH_REMATCH[1]}
        ended
        [ "$next" -gt "$section" ] || fail "section $next comes after $section"
        section=$next
        number=0
    elif [[ $line =~ ^'**'([0-9]+)'.'([0-9]+)'** ' ]]; then
        within=${BASH_REMATCH[1]}
        next=${BASH_REMATCH[2]}
        ended
        title=$within.$next
        titles="$titles$title "
        [ "$within" -eq "$section" ] || fail "$title stands in section $section"
        [ "$next" -gt "$number" ] || fail "$title comes after $section.$number"
        number=$next
        paragraphs=$((paragraphs + 1))
    fi
    [ -z "$line" ] || end=$line
done <"$page"
ended
[ "$paragraphs" -ne 0 ] || fail "$page has no paragraphs"

# each group of a citation as `name file` lines; a file named with no definition before it gives `- file`
definitions=0
while read -r name file; do
    definitions=$((definitions + 1))
    if [ "$name" = - ]; then
        fail "$file is named without a definition"
    elif [ ! -f "crates/$file" ]; then
        fail "$file isn't there, and $name is said to stand in it"
    elif ! stands "$name" "$file"; then
        fail "$name doesn't stand in $file"
    fi
done < <(grep -oE '\(`[^()]*\.(antt|rt)`\)' "$page" | tr -d '()`' | sed 's/; /\n/g' |
    awk -F', ' '{ if (NF < 2) print "-", $NF; for (i = 1; i < NF; i++) print $i, $NF }' | sort -u)

# a number N.M in a comment's line is a paragraph's; 5.1.7, v0.20 and 1,024 are none
citations=0
while read -r where number; do
    citations=$((citations + 1))
    [[ $titles == *" $number "* ]] || fail "$where cites $number, which is no paragraph"
done < <(find crates/*/specs crates/*/src crates/*/proofs tests/second/src tests/c/second.c -type f \( -name '*.antt' -o -name '*.rt' -o -name '*.rs' -o -name '*.c' \) -exec awk '
    /^ *(--|\/\/|\/\*)/ {
        line = " " $0
        while (match(line, /[0-9]+(\.[0-9]+)+/)) {
            number = substr(line, RSTART, RLENGTH)
            if (number ~ /^[0-9]+\.[0-9]+$/ && substr(line, RSTART - 1, 1) ~ /[ (]/) print FILENAME ":" FNR, number
            line = substr(line, RSTART + RLENGTH)
        }
    }' {} +)
[ "$citations" -ne 0 ] || fail "no comment cites a paragraph"

while IFS= read -r where; do
    fail "$where names the paper that isn't here; cite a paragraph"
done < <(grep -rniE 'document[ -]0?1([^0-9]|$)' --exclude-dir=target --exclude-dir=out --exclude=rules.sh crates tests docs bench include README.md CONTRIBUTING.md | cut -d: -f1,2)

if [ "$failed" -ne 0 ]; then
    exit 1
fi
echo "rules: $paragraphs paragraphs, $definitions definitions, each where it is said to stand; $citations citations in comments"
