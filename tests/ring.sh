#!/usr/bin/env bash
# Runs ./ring as people run it, by mistake too, and compares its status and what it writes to standard output and standard error.
# It is run in a copy that holds the built programs (rt ci), in a folder with a space in its name, so that nothing is proved here and no mark of a
# build is left in the tree.
set -uo pipefail
cd "$(dirname "$(readlink -f "$0")")/.."
# the system's reasons are compared too
export LC_ALL=C
work=$(mktemp -d)
trap 'rm -r "$work"' EXIT
copy="$work/a pool"

tried=0
failed=0
fail() {
    echo "ring: $1" >&2
    failed=$((failed + 1))
}

# try WHAT STATUS OUTPUT ERRORS COMMAND: COMMAND is run in the copy
try() {
    local status=0
    tried=$((tried + 1))
    (cd "$copy" && eval "$5") </dev/null >"$work/output" 2>"$work/errors" || status=$?
    [ "$status" -eq "$2" ] || fail "$1: status $status, not $2"
    diff <(printf '%s' "${3:+$3$'\n'}") "$work/output" >&2 || fail "$1: another output"
    diff <(printf '%s' "${4:+$4$'\n'}") "$work/errors" >&2 || fail "$1: other words on standard error"
}

export kit
if ! kit=$(command -v rt); then
    echo "ring: there is no rt on the PATH" >&2
    exit 1
fi
mkdir -p "$copy/tests" "$copy/examples" "$copy/target/ring" "$copy/crates/word/src"
cp ring "$copy"
cp tests/run-program "$copy/tests"
cp examples/*.ring "$copy/examples"
cp examples/start.ring "$copy/the first start.ring"
cp tests/record/start.spl "$copy"
cp tests/events/header-size.spl "$copy/faulty.spl"
for name in events listing record replay sums verify; do
    mkdir -p "$copy/crates/$name/out" "$copy/crates/$name/src"
    if ! cp "crates/$name/out/$name" "$copy/crates/$name/out"; then
        echo "ring: $name isn't built" >&2
        exit 1
    fi
done
echo '// Shows a recording' >"$copy/crates/events/src/main.rt"
echo '// Lists a ring. This is not shown.' >"$copy/crates/listing/src/main.rt"
echo '// Records a ring' >"$copy/crates/record/src/main.rt"
echo '// Plays a script (README.md).' >"$copy/crates/replay/src/main.rt"
echo '// Works sums' >"$copy/crates/sums/src/main.rt"
echo '// Checks a recording. This is not shown either.' >"$copy/crates/verify/src/main.rt"
touch "$copy"/crates/{events,listing,record,replay,verify}/stdin "$copy/crates/word/src/lib.rt"
cat >"$copy/crates.txt" <<'END'
# listing stands on three of these
table_rules:
word_rules: # a word
word: word_rules
text: word

table: table_rules
word_c staticlib: word
listing: text io
END
touch "$copy"/target/ring/{events,listing,record,replay,sums,verify}

# the largest ring, whose recording no pipe holds
python3 tests/make-rings.py --large "$work" >/dev/null || fail "no large rings"
mv "$work/1048576.ring" "$copy/large.ring"
# a recording whose lines no pipe holds
mkdir "$work/recordings"
python3 tests/make-recordings.py --more "$work/recordings" >/dev/null || fail "no further recordings"
mv "$work/recordings/dense.spl" "$copy/many.spl"

start=$(cat tests/listing/start.txt)
events=$(cat tests/events/start.txt)
faulty=$(cat tests/events/header-size.txt)
usage="usage: ./ring NAME [FILE]: runs NAME with FILE as its standard input. NAME is one of:
  events [FILE]          Shows a recording
  listing [FILE]         Lists a ring
  record [FILE]          Records a ring
  replay [FILE]          Plays a script (README.md)
  sums                   Works sums
  verify RING RECORDING  Checks a recording"

try 'a file' 0 "$start" '' './ring listing examples/start.ring'
try 'a refusal' 1 "$(cat tests/listing/damaged.txt)" '' './ring listing examples/damaged.ring'
try 'a ring too long to list' 1 'too long' '' 'head -c 40961 /dev/zero | ./ring listing'
try 'standard input' 0 "$start" '' './ring listing <examples/start.ring'
try 'a pipe' 0 "$start" '' 'cat examples/start.ring | ./ring listing'
try 'a pipe by name' 0 "$start" '' './ring listing <(cat examples/start.ring)'
try 'a file with spaces' 0 "$start" '' './ring listing "the first start.ring"'
try 'another folder' 0 "$start" '' 'cd examples && ../ring listing start.ring'
try 'the whole path' 0 "$start" '' 'cd / && "$copy/ring" listing "$copy/examples/start.ring"'
try 'a link' 0 "$start" '' 'ln -s "$copy/ring" "$work/link" && "$work/link" listing examples/start.ring'
try 'a recording' 0 '' '' './ring record <examples/start.ring >made.spl && cmp made.spl start.spl'
try 'a recording of a file by name' 0 '' '' './ring record examples/start.ring | cmp - start.spl'
try 'a refused recording' 1 '' 'refused 10 at 416 why 2' './ring record <examples/damaged.ring'
try 'no byte to record' 1 '' 'refused 1' './ring record </dev/null'
try 'a ring too long to record' 1 '' 'too long' 'head -c 1056769 /dev/zero | ./ring record'
try 'much too long' 1 '' 'too long' 'head -c 4000000 /dev/zero | ./ring record'
try 'events' 0 "$events" '' './ring events start.spl'
try 'events of standard input' 0 "$events" '' './ring events <start.spl'
try 'events of a recording as it is made' 0 "$events" '' './ring record <examples/start.ring | ./ring events'
try 'events with a fault' 1 "$faulty" '' './ring events faulty.spl'
try 'events cut off' 1 'recording cpu 3'$'\n''fault 8 at 100 ended early' '' 'head -c 100 start.spl | ./ring events'
try 'events of no byte' 1 'fault 8 at 0 ended early' '' './ring events </dev/null'
try 'bytes without end after a fault' 1 'fault 1 at 0 mark' '' './ring events </dev/zero'
try 'a line that stays open after a fault' 1 "$faulty" '' 'exec 5< <(cat faulty.spl && exec sleep 60) && writer=$! && ./ring events <&5; status=$? && kill "$writer" && exit "$status"'
# where nobody ends at a broken pipe, the reading still isn't at fault
try 'bytes without end, and the signal ignored' 1 'fault 1 at 0 mark' '' "trap '' PIPE && ./ring events </dev/zero"
try 'a reader of events that stops' 141 'recording cpu 65535' '' \
    'env --default-signal=PIPE ./ring events <many.spl | head -n 1; exit "${PIPESTATUS[0]}"'
try 'a recording checked' 0 'same 288 bytes' '' './ring verify examples/start.ring start.spl'
try 'a recording checked as it is made' 0 'same 288 bytes' '' './ring record <examples/start.ring | ./ring verify examples/start.ring -'
try 'a ring from standard input' 0 'same 288 bytes' '' './ring verify - start.spl <examples/start.ring'
try 'two pipes by name' 0 'same 288 bytes' '' './ring verify <(cat examples/start.ring) <(cat start.spl)'
try 'files with spaces' 0 'same 288 bytes' '' 'cp start.spl "of the start.spl" && ./ring verify "the first start.ring" "of the start.spl"'
try 'a recording that differs' 1 'differs at 140' '' './ring verify examples/start.ring faulty.spl'
try 'a recording of another ring' 1 'differs at 8' '' './ring verify examples/empty.ring start.spl'
try 'a recording cut short' 1 'differs at 200' '' 'head -c 200 start.spl | ./ring verify examples/start.ring -'
try 'a recording that goes on' 1 'differs at 288' '' 'cat start.spl start.spl | ./ring verify examples/start.ring -'
try 'no byte of a recording' 1 'differs at 0' '' './ring verify examples/start.ring /dev/null'
try 'a recording of a refused ring' 1 '' 'refused 10 at 416 why 2' './ring verify examples/damaged.ring start.spl'
try 'the longest' 0 'same 1048608 bytes' '' './ring record large.ring | ./ring verify large.ring -'
try 'as long as the longest ring' 1 '' 'refused 2' 'head -c 1056768 /dev/zero | ./ring verify - start.spl'
try 'longer than the longest ring' 1 '' 'ring: long.ring is longer than the longest ring, 1056768 bytes' \
    'head -c 1056769 /dev/zero >long.ring && ./ring verify long.ring start.spl'
try 'as long as the longest recording' 1 'differs at 0' '' 'head -c 1048608 /dev/zero | ./ring verify examples/start.ring -'
try 'longer than the longest recording' 1 '' 'ring: standard input is longer than the longest recording, 1048608 bytes' \
    'head -c 4000000 /dev/zero | ./ring verify examples/start.ring -'
try 'a script' 0 unknown '' 'echo nothing >script && ./ring replay script'
try 'a script too long' 1 'too long' '' 'head -c 1048577 /dev/zero | ./ring replay'
try 'sums' 0 "$(cat crates/sums/stdout)" '' './ring sums'
try 'sums with no input' 0 "$(cat crates/sums/stdout)" '' './ring sums <&-'
# where whoever runs this has the signal ignored, it is set back
try 'a reader that stops' 141 '' '' 'env --default-signal=PIPE ./ring sums | :; exit "${PIPESTATUS[0]}"'
try 'a reader that stops within a recording' 141 S '' \
    'env --default-signal=PIPE ./ring record <large.ring | { head -c 1 && echo; }; exit "${PIPESTATUS[0]}"'

try 'no word' 2 '' "$usage" './ring'
try 'help' 0 "$usage" '' './ring --help'
try 'a wrong word' 2 '' "ring: there is no program 'nosuch'"$'\n'"$usage" './ring nosuch'
try 'a library' 2 '' "ring: there is no program 'word'"$'\n'"$usage" './ring word'
try 'a path' 2 '' "ring: there is no program 'word/../listing'"$'\n'"$usage" './ring word/../listing'
try 'two files' 2 '' 'ring: listing takes one FILE at most' './ring listing examples/start.ring examples/empty.ring'
try 'a file for sums' 2 '' 'ring: sums takes no FILE' './ring sums examples/start.ring'
try 'one file to verify' 2 '' 'ring: verify takes a RING and a RECORDING' './ring verify examples/start.ring'
try 'three files to verify' 2 '' 'ring: verify takes a RING and a RECORDING' './ring verify examples/start.ring start.spl start.spl'
try 'standard input twice' 2 '' 'ring: only one of RING and RECORDING can be standard input' './ring verify - - <start.spl'
try 'no such ring' 2 '' 'ring: no such.ring: No such file or directory' './ring verify "no such.ring" start.spl'
try 'no such recording' 2 '' 'ring: no such.spl: No such file or directory' './ring verify examples/start.ring "no such.spl"'
try 'no name for a ring' 2 '' 'ring: : No such file or directory' './ring verify "" start.spl'
try 'a folder for a ring' 2 '' 'ring: examples: Is a directory' './ring verify examples start.spl'
try 'a folder for a recording' 2 '' 'ring: examples: Is a directory' './ring verify examples/start.ring examples'
try 'no such file' 2 '' 'ring: no such.ring: No such file or directory' './ring listing "no such.ring"'
try 'a folder of events' 2 '' 'ring: examples: Is a directory' './ring events examples'
try 'a folder' 2 '' 'ring: examples: Is a directory' './ring listing examples'
# root reads every file, so this one is for others
if [ "$(id -u)" -ne 0 ]; then
    try 'a file without permission' 2 '' 'ring: shut.ring: Permission denied' 'touch shut.ring && chmod 0 shut.ring && ./ring listing shut.ring'
fi
try 'a closed input' 2 '' 'ring: standard input is closed' './ring listing <&-'
try 'a closed input for a ring' 2 '' 'ring: standard input is closed' './ring verify - start.spl <&-'
try 'a closed input for a recording' 2 '' 'ring: standard input is closed' './ring verify examples/start.ring - <&-'
try 'a folder as a recording' 2 '' "ring: standard input can't be read" './ring verify examples/start.ring - <examples'
try 'a folder as input' 2 '' "ring: standard input can't be read" './ring listing <examples'
try 'an input for writing' 2 '' "ring: standard input can't be read" './ring replay 0>written'
try 'a closed output' 2 '' 'ring: standard output is closed' './ring listing examples/start.ring >&-'
try 'a full output' 2 '' "ring: standard output can't be written" './ring listing examples/start.ring >/dev/full'
try 'a full output of sums' 2 '' "ring: standard output can't be written" './ring sums >/dev/full'
try 'a closed output for a recording' 2 '' 'ring: standard output is closed' './ring record <examples/start.ring >&-'
try 'a full output for a recording' 2 '' "ring: standard output can't be written" './ring record <examples/start.ring >/dev/full'
try 'a full output for a large recording' 2 '' "ring: standard output can't be written" './ring record <large.ring >/dev/full'
try 'a full output for help' 2 '' "ring: standard output can't be written" './ring --help >/dev/full'
try 'a closed output of events' 2 '' 'ring: standard output is closed' './ring events start.spl >&-'
try 'a full output of events' 2 '' "ring: standard output can't be written" './ring events start.spl >/dev/full'
try 'a closed output of verify' 2 '' 'ring: standard output is closed' './ring verify examples/start.ring start.spl >&-'
try 'a full output of verify' 2 '' "ring: standard output can't be written" './ring verify examples/start.ring start.spl >/dev/full'
try 'closed errors' 0 '' '' './ring record <examples/start.ring 2>&- | cmp - start.spl'
try 'closed errors, and a refusal' 1 '' '' './ring record <examples/damaged.ring 2>&-'
try 'closed errors, and no such file' 2 '' '' './ring record "no such.ring" 2>&-'
try 'full errors, and a refusal' 1 '' '' './ring record <examples/damaged.ring 2>/dev/full'
try 'full errors, and a wrong word' 2 '' '' './ring nosuch 2>/dev/full'
try 'full errors, and no word' 2 '' '' './ring 2>/dev/full'
# what can be opened, and fails when it is read: a process' own memory, at 0
try 'a file that fails' 2 '' "ring: /proc/self/mem can't be read" './ring record /proc/self/mem'
try 'an input that fails' 2 '' "ring: standard input can't be read" 'exec 5</proc/self/mem && ./ring replay <&5; exit "$?"'
try 'a ring that fails' 2 '' "ring: /proc/self/mem can't be read" './ring verify /proc/self/mem start.spl'
try 'a recording that fails' 2 '' "ring: /proc/self/mem can't be read" './ring verify examples/start.ring /proc/self/mem'
# what was shown before it fails is out by then
try 'events of a file that fails' 2 'fault 8 at 0 ended early' "ring: /proc/self/mem can't be read" './ring events /proc/self/mem'

# A line that is slow: what has arrived whole is shown before the next byte comes, and nothing that hasn't.
send() { head -c "$(($1 + $2))" tests/record/start.spl | tail -c "$2" >&8; }
shows() {
    local line
    tried=$((tried + 1))
    IFS= read -r -t 20 -u 9 line && [ "$line" = "$1" ] || fail "a slow line: '$line', not '$1'"
}
shows_nothing() {
    local line
    tried=$((tried + 1))
    IFS= read -r -t 0.3 -u 9 line && fail "a slow line: '$line' too early"
}
mkfifo "$work/line" "$work/lines"
(cd "$copy" && exec ./ring events "$work/line" >"$work/lines") &
slow=$!
# each of the two waits for its other end, and these are opened in this order
exec 9<"$work/lines" 8>"$work/line"
send 0 7
shows_nothing
send 7 1
shows 'recording cpu 3'
send 8 40
send 48 87
shows_nothing
send 135 1
shows '6 128 2 1000'
send 136 128
shows '7 128 3 2000'
send 264 23
shows_nothing
send 287 1
shows 'handed 2 missed 5'
exec 8>&-
wait "$slow" || fail "a slow line: status $?"
exec 9<&-

mkdir "$work/tools"
ln -s "$(command -v bash)" "$(command -v dirname)" "$(command -v readlink)" "$work/tools"
try 'no kit' 2 '' 'ring: the Rattle kit is missing: there is no rt on the PATH' 'PATH=$work/tools ./ring listing examples/start.ring'

# Building, with an rt that says what the kit's own says of such crates, to standard error, and then runs the program, which speaks to both. It reads what
# it is given, which mustn't be the program's input, and wants to stand in the program's folder, as the kit's does.
mkdir "$work/bin"
cat >"$work/bin/rt" <<'END'
#!/usr/bin/env bash
proves() { # CRATE FUNCTION..
    local one
    echo "rt: chose --jobs 2 for $1"
    [ $# -ne 1 ] || echo 'note: no function with a body is declared, so nothing was lowered'
    for one in "${@:2}"; do
        echo "fn $1::$one: proved"
    done
    echo 'logic /opt/rattle/rattle/logic/antt-project.json: libraries=16 files=2756 sum=dac8208d650f15bf3e2dc313a14fa4c783a3acf887bdfab66e1714b038d9e11b'
    echo 'statements core: modules loaded=222 checked=0'
    [ $# -eq 1 ] || echo 'library word_rules: modules loaded=13 checked=0'
    echo "crate $1: modules loaded=0 checked=64"
    [ "$1" != listing ] || echo 'axioms libc: libc::read, libc::write (2 of the 128 declared)'
    echo 'logic=proved functions=2 sum=dac8208d650f15bf native=nat,char,string logic-built=trusted libraries-built=trusted statements=trusted incremental=trusted'
}
case "$* in ${PWD##*/}" in
'run in listing')
    cat >/dev/null && [ -f ../../crates.txt ] && {
        echo 'statements core: modules loaded=0 checked=0'
        echo 'only=0 proved=0'
        echo 'rt: word_rules: begins with what a check kept in /a pool/crates/word_rules'
        proves word_rules
        proves word number::get16 run::copy
        proves text decimal::number_text
        proves listing main
        echo 'linked target=x86_64-unknown-linux-gnu loader=/lib64/ld-linux-x86-64.so.2 files=out/listing.o'
        echo 'rt: running out/listing; to give it other input, run that file yourself'
        echo 'the program speaks'
    } >&2 && echo 'refused 1'
    ;;
'run in '*) echo 'rt: the library word did not build, so nothing above it was checked' >&2 && exit 1 ;;
*) exec "$kit" "$@" ;;
esac
END
chmod +x "$work/bin/rt"
PATH=$work/bin:$PATH
rm "$copy"/target/ring/*
begins='from nothing this takes some minutes'
built="ring: proving and building listing, 4 crates; $begins
ring: 1 of 4 proved: word_rules
ring: 2 of 4 proved: word
ring: 3 of 4 proved: text
ring: 4 of 4 proved: listing"
try 'the first run' 0 "$start" "$built" 'cd examples && ../ring listing <start.ring'
try 'the second run' 0 "$start" '' './ring listing examples/start.ring'
try 'changed code' 0 "$start" "$built" 'touch crates/word/src/lib.rt && ./ring listing examples/start.ring'
echo 'sums: word' >>"$copy/crates.txt"
not_built="ring: proving and building sums, 3 crates; $begins
rt: the library word did not build, so nothing above it was checked
ring: sums isn't built"
try 'not proved' 2 '' "$not_built" './ring sums'
try 'not proved, again' 2 '' "$not_built" './ring sums'

# Programs that end otherwise than they should: a run-program that does as it is told stands for them.
printf '#!/usr/bin/env bash\neval "$acts"\n' >"$copy/tests/run-program"
touch "$copy/target/ring/sums"
try 'both streams' 1 out err "acts='echo out; echo err >&2; printf 1 >&3' ./ring sums"
try 'every byte' 0 '' '' "acts='cat <start.spl; printf 0 >&3' ./ring sums | cmp - start.spl"
try 'an end without a status' 2 out "ring: sums didn't say how it ended" "acts='echo out' ./ring sums"
try 'an end with two' 2 '' "ring: sums didn't say how it ended" "acts='printf 01 >&3' ./ring sums"
try 'an end with another' 2 '' "ring: sums didn't say how it ended" "acts='printf 2 >&3' ./ring sums"
try 'a crash' 2 out 'ring: sums ended with status 5' "acts='echo out; printf 0 >&3; exit 5' ./ring sums"

# far takes no input either, and its status is always the good one
tried=$((tried + 1))
said=$(tests/run-program far 3>&1 >"$work/output") || fail "far: ended with another status"
[ "$said" = 0 ] || fail "far: said '$said'"
cmp crates/far/stdout "$work/output" >&2 || fail "far: another output"

# the programs of the tree itself, each with a word on what it does
tried=$((tried + 1))
named=$(./ring 2>&1 | sed -n 's/^  \([a-z_]*\( \[FILE\]\| RING RECORDING\)\?\)  *[A-Z].*/\1/p')
[ "$named" = $'events [FILE]\nfar\nlisting [FILE]\nrecord [FILE]\nreplay [FILE]\nsums\nverify RING RECORDING' ] || fail "the programs are named as: $named"

if [ "$failed" -ne 0 ]; then
    exit 1
fi
echo "ring: $tried commands answered as expected"
