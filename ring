#!/usr/bin/env bash
# ./ring NAME [FILE]: runs the program NAME on FILE or else on standard input, as in `./ring listing examples/start.ring`. Works from any folder.
# ./ring verify RING RECORDING: the one program that takes two; `-` for one of them is standard input.
# It is proved and built first where that hasn't been done since the code last changed; what is said of that goes to standard error.
# Status (RULES 8.10): 0 where the program has given the good answer, 1 where it has given the other one or none; 2 where it was used wrongly, couldn't be
# run, or a file couldn't be read or written; 141 where whoever reads its output has had enough.
set -euo pipefail
root=$(dirname "$(readlink -f "$0")")

# the status is the same where nobody can be told why
stop() {
    echo "ring: $1" >&2 || true
    exit 2
}

is_program() { [[ $1 != */* ]] && [ -f "$root/crates/$1/src/main.rt" ]; }

# a program that reads has the file `stdin`, which rt gives to it when it tries it
takes_file() { [ -f "$root/crates/$1/stdin" ]; }

# a program that is given a ring and a recording: one is its standard input, the other its descriptor 5
takes_two() { [ "$1" = verify ]; }

# a program that answers to each part of its input as it arrives, however long that is
streams() { [ "$1" = events ]; }

usage() {
    local main program files about
    echo 'usage: ./ring NAME [FILE]: runs NAME with FILE as its standard input. NAME is one of:'
    for main in "$root"/crates/*/src/main.rt; do
        program=${main%/src/main.rt}
        program=${program##*/}
        files=''
        takes_file "$program" && files=' [FILE]'
        takes_two "$program" && files=' RING RECORDING'
        # the first sentence of the program's own first line
        about=$(sed -n '1s|^// ||p' "$main")
        about=${about%%. *}
        printf '  %-21s  %s\n' "$program$files" "${about%.}"
    done
}

name=${1:-}
case $name in
'')
    usage >&2 || true
    exit 2
    ;;
-h | --help)
    usage 2>/dev/null || stop "standard output can't be written"
    exit
    ;;
esac
if ! is_program "$name"; then
    { echo "ring: there is no program '$name'" && usage; } >&2 || true
    exit 2
fi
shift

# open_input DESCRIPTOR FILE
open_input() {
    local reason
    [ ! -d "$2" ] || stop "$2: Is a directory"
    if ! { eval "exec $1<\"\$2\""; } 2>/dev/null; then
        # the system's own reason, from the end of what bash says
        reason=$({ : <"$2"; } 2>&1) || true
        stop "$2: ${reason##*: }"
    fi
}

# can_be_read DESCRIPTOR NAME
can_be_read() {
    { : 3<&"$1"; } 2>/dev/null || stop "$2 is closed"
    # reads no byte, and fails where none could be read
    read -r -n 0 -u "$1" 2>/dev/null || stop "$2 can't be read"
}

# All that can be seen to be wrong is said before anything is proved. The programs can't say it: to them an input that can't be read is an empty one.
if takes_two "$name"; then
    [ $# -eq 2 ] || stop "$name takes a RING and a RECORDING"
    [ "$1 $2" != '- -' ] || stop "only one of RING and RECORDING can be standard input"
elif takes_file "$name"; then
    [ $# -le 1 ] || stop "$name takes one FILE at most"
else
    [ $# -eq 0 ] || stop "$name takes no FILE"
fi
command -v rt >/dev/null || stop "the Rattle kit is missing: there is no rt on the PATH"
input=${1-standard input}
recording=${2-}
if takes_two "$name"; then
    if [ "$recording" = - ]; then
        recording='standard input'
        { exec 5<&0; } 2>/dev/null || stop "$recording is closed"
    else
        open_input 5 "$recording"
    fi
    can_be_read 5 "$recording"
fi
if takes_two "$name" && [ "$input" = - ]; then
    input='standard input'
elif [ $# -gt 0 ]; then
    open_input 0 "$input"
fi
if takes_file "$name"; then
    can_be_read 0 "$input"
fi
{ : 3>&1; } 2>/dev/null || stop "standard output is closed"

# set when the last build began: a file changed since then is newer
mark=$root/target/ring/$name
is_built() {
    [ -x "$root/crates/$name/out/$name" ] && [ -f "$mark" ] && [ ! "$root/crates.txt" -nt "$mark" ] &&
        [ -z "$(find "$root/crates" -mindepth 2 -name out -prune -o -newer "$mark" -print -quit)" ]
}

# The crates that have to be proved: NAME and all below it. Each stands on those above it in crates.txt alone, so one pass from the end meets them all.
count_crates() {
    tac "$root/crates.txt" | awk -F '[: \t]+' -v name="$name" '
        BEGIN { wanted[name] }
        { sub(/#.*/, ""); sub(/ +staticlib/, "") }
        $1 != "" && $1 in wanted { count++; for (i = 2; i <= NF; i++) wanted[$i] }
        END { print count + 0 }'
}

# progress ALL: of what rt says, each crate that is proved as a line with a count. What a crate is made of is left out; the rest is passed on, so that no
# error is hidden. Once all is proved rt runs the program, on no input, and what that says is left out too.
progress() {
    local line crate='' count=0
    while IFS= read -r line; do
        case $line in
        'crate '*': modules loaded='*)
            crate=${line#crate }
            crate=${crate%%:*}
            ;;
        'logic=proved '*)
            count=$((count + 1))
            echo "ring: $count of $1 proved: $crate"
            ;;
        'rt: running out/'*) cat >/dev/null ;;
        'fn '*': proved' | 'struct '*': proved' | 'enum '*': proved' | 'logic /'* | 'library '* | 'statements '* | 'axioms '* | 'linked target='*) ;;
        # how rt goes about it
        'only=0 proved=0' | 'rt: chose --jobs '* | 'rt: '*': begins with what a check kept in '*) ;;
        # said of a crate of rules, and of a proof that took long
        'note: no function with a body is declared'* | *'.antt:'*': note: '*) ;;
        *) printf '%s\n' "$line" ;;
        esac
    done
}

if ! is_built; then
    all=$(count_crates)
    echo "ring: proving and building $name, $all crates; from nothing this takes some minutes" >&2
    mkdir -p "$(dirname "$mark")"
    touch "$mark.begun"
    if ! (cd "$root/crates/$name" && rt run 2>&1 >/dev/null) </dev/null | progress "$all" >&2; then
        stop "$name isn't built"
    fi
    mv "$mark.begun" "$mark"
fi

# To a program an input whose reading fails is one that ends there, and it would answer to half a ring. head tells the two apart.
# take DESCRIPTOR NAME MOST: what can be read there, MOST bytes of it at most, is put into a file that then stands in its place
take() {
    local file
    file=$(mktemp) || stop "there is no room for $2"
    if ! head -c "$3" <&"$1" >"$file" 2>/dev/null; then
        rm -f "$file"
        stop "$2 can't be read"
    fi
    taken=$(stat -c %s "$file")
    eval "exec $1<\"\$file\""
    rm "$file"
}

# short_enough NAME MOST KIND: of what was taken last
short_enough() {
    [ "$taken" -gt "$2" ] || return 0
    echo "ring: $1 is longer than the longest $3, $2 bytes" >&2 || true
    exit 1
}

if takes_two "$name"; then
    take 0 "$input" 1056769
    short_enough "$input" 1056768 ring
    take 5 "$recording" 1048609
    short_enough "$recording" 1048608 recording
elif takes_file "$name" && ! streams "$name"; then
    # no program but one that streams looks at more than 64 MiB
    take 0 "$input" 67108864
fi

# A program that streams is fed by cat, which tells a reading that fails from an end. cat ends by itself where the input does; where the program has ended
# first, cat may wait for more, and is stopped. That isn't asked of it before it had time to say that a reading failed.
feed() {
    exec {fed_by}< <(env --default-signal=PIPE cat 2>/dev/null 3>&- 4>&-)
    feeder=$!
    exec <&"$fed_by" {fed_by}<&-
}
fed() {
    local turn
    exec </dev/null
    for turn in 1 2 3 4 5 6 7 8 9 10; do
        kill -0 "$feeder" 2>/dev/null || break
        sleep 0.02
    done
    kill -PIPE "$feeder" 2>/dev/null
    wait "$feeder"
}

# A program has no exit status of its own: it writes the digit to descriptor 3. Nor does it see whether its output could be written. cat does.
exec 4>&1
said=$(
    exec 3>&1
    ended=(0 0)
    reading=0
    streams "$name" && feed
    "$root/tests/run-program" "$name" 4>&- | cat 2>/dev/null >&4 3>&- || ended=("${PIPESTATUS[@]}")
    if streams "$name"; then
        fed || reading=$?
    fi
    echo "/${ended[*]} $reading"
)
digit=${said%%/*}
read -r program output reading <<<"${said##*/}"
case $output in
0) ;;
# a reader that has had enough, such as head, is no fault
141) exit 141 ;;
*) stop "standard output can't be written" ;;
esac
# nor is a program that has seen enough
[ "$reading" -eq 0 ] || [ "$reading" -eq 141 ] || stop "$input can't be read"
[ "$program" -eq 0 ] || stop "$name ended with status $program"
[[ $digit == [01] ]] || stop "$name didn't say how it ended"
exit "$digit"
