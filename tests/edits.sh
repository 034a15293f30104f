#!/usr/bin/env bash
# Holds every must-fail edit to what it says it breaks. An edit is worth something only if the prover refuses it at a fact: one that merely uses a name
# that is gone is refused too, in specs/ above all. So each edit has a line `# breaks: PLACE`, and PLACE is compared with where the prover stopped:
# a file and a declaration of it (a law, or a goal of proofs/F/Answers.antt), or a function and the goal of it that no search closes.
# usage: tests/edits.sh [LOG]: LOG, or RT_CI_LOG, is what `rt ci` or `rt must-fail` wrote at the top of this tree, with a line for each edit; neither
# leaves the edits' logs. Without one `rt must-fail` runs, which tries what has changed.
set -uo pipefail
cd "$(dirname "$(readlink -f "$0")")/.."

failed=0
tried=0
fail() {
    echo "edits: $1" >&2
    failed=$((failed + 1))
}

log=${1:-${RT_CI_LOG:-}}
if [ -z "$log" ]; then
    log=$(mktemp)
    trap 'rm -f "$log"' EXIT
    rt must-fail >"$log" 2>&1
fi

# "CRATE/LABEL" and after a tab "FILE DECLARATION" or "FUNCTION GOAL", as rt tells the first refusal that isn't the mere consequence of another; a missing
# name, a limit and an edit that can't be read are told as such. rt cuts what the prover said: a last word that isn't whole ends in `…`.
refusals() {
    awk '
        # the function that has this line, or whose attribute it is: MODULE::NAME, as rt names it
        function function_at(crate, file, line,    path, text, at, is_attribute, name, module) {
            path = "crates/" crate "/" file
            while ((at < line || is_attribute) && (getline text < path) > 0) {
                at++
                if (match(text, /(^|[ (])fn [A-Za-z0-9_]+/)) { name = substr(text, RSTART, RLENGTH); sub(/.*fn /, "", name); is_attribute = 0 }
                if (at == line && text ~ /^ *#\[/) is_attribute = 1
            }
            close(path)
            module = file; sub(/^src\//, "", module); sub(/\.rt$/, "", module); gsub(/\//, "::", module)
            return (module == "lib" || module == "main" ? "" : module "::") name
        }
        function goal_in(text) {
            return sub(/`.*/, "", text) ? text : text "…"
        }
        /^rt: must-fail [^ ]+\.edit: / {
            edit = $3; sub(/\.edit:$/, "", edit)
            crate = edit; sub(/\/.*/, "", crate)
            said = $0; sub(/^rt: must-fail [^ ]+\.edit: /, "", said)
            if (said !~ /^refused, as it must be: /) { print edit "\t" said; next }
            sub(/^refused, as it must be: /, "", said)
            is_note = sub(/^note: /, "", said)
            place = said; sub(/ .*/, "", place); sub(/^\.\//, "", place)
            split(place, part, ":")
            if (is_note && said ~ /not proved that/) {
                goal = said; if (!sub(/.*\(`/, "", goal)) goal = ""
                print edit "\t" function_at(crate, part[1], part[2]) " " goal_in(goal); next
            }
            declared = said; sub(/^[^`]*: error: `/, "", declared)
            missing = said ~ /not in scope|can be named from here|no module, record or data type|has no field/
            print edit "\t" (missing ? "a missing name in " : "") part[1] " " goal_in(declared)
        }' "$log"
}

declare -A at=()
while IFS=$'\t' read -r edit place; do
    at[$edit]=$place
done < <(refusals)

for edit in crates/*/must-fail/*.edit; do
    crate=${edit#crates/}
    label=${crate%%/*}/$(basename "$edit" .edit)
    said=$(sed -n 's/^# breaks: //p' "$edit")
    tried=$((tried + 1))
    [ -n "$said" ] || { fail "$edit doesn't say what it breaks"; continue; }
    found=${at[$label]:-}
    [ -n "$found" ] || { fail "$edit was not tried"; continue; }
    case $found in
    specs/*) fail "$edit is refused in its own definitions, at $found" ;;
    "$said") ;;
    *…) [[ $said == "${found%…}"* ]] || fail "$edit says that it breaks $said, and is refused at $found" ;;
    *) fail "$edit says that it breaks $said, and is refused at $found" ;;
    esac
done

if [ "$failed" -ne 0 ]; then
    exit 1
fi
echo "edits: $tried wrong programs, each refused at what it says it breaks"
