#!/usr/bin/env bash
# Holds crates.txt to what it says. A crate stands on those above it alone; and the rules and the promises have no function and stand on no crate that
# has one, so that no change of code can have a theorem proved again.
set -uo pipefail
cd "$(dirname "$(readlink -f "$0")")/.."

failed=0
fail() {
    echo "layers: $1" >&2
    failed=$((failed + 1))
}

has_function() { grep -rqE '^[[:space:]]*(pub )?(extern "C" )?fn ' "crates/$1/src"; }

above=' '
apart=' '
while read -r line; do
    line=${line%%#*}
    [ -n "${line// /}" ] || continue
    name=${line%%:*}
    # a static library says so behind its name
    name=${name%% *}
    below=${line#*:}
    for crate in $below; do
        # what isn't under crates/ is a library of the kit
        [ ! -d "crates/$crate" ] || [[ $above == *" $crate "* ]] || fail "$name stands on $crate, which isn't above it"
    done
    case $name in
    *_rules | history | promise | reasons | no_room | firmware | comparison | recordings | passing | beside | faultless | cuts | proved_sums | refusals | worked_bytes | worked_slips | worked_verdicts | looked_at)
        has_function "$name" && fail "$name has a function"
        for crate in $below; do
            [[ $apart == *" $crate "* ]] || fail "$name stands on $crate, which is neither rules nor a promise"
        done
        apart="$apart$name "
        ;;
    esac
    above="$above$name "
done <crates.txt

for name in history promise reasons no_room firmware comparison recordings passing beside faultless cuts proved_sums refusals worked_bytes worked_slips worked_verdicts looked_at; do
    [[ $apart == *" $name "* ]] || fail "there is no crate $name"
done
if [ "$failed" -ne 0 ]; then
    exit 1
fi
echo "layers: $(wc -w <<<"$above") crates in order, $(wc -w <<<"$apart") of them apart from code"
