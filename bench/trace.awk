# From the emulator's log, `Trace 0: HOST [BASE/ADDRESS/..`, one line for each instruction: a count for each call, from its first instruction to its return.
# marks: addresses, the first of which isn't looked at here; the others are those of the calls.
# costs: where the counts of a call's addresses go, a file for each call.
BEGIN {
    FS = "/"
    n = split(marks, at, " ")
    for (i = 2; i <= n; i++)
        call[at[i]] = 1
}
!/^Trace / { next }
counting && $2 == return_address { finish(); next }
counting { executed[$2]++; next }
$2 in call { counting = 1; return_address = behind_call(caller); executed[$2] = 1; next }
{ caller = $2 }

function finish(    address, count, file) {
    file = costs "/of." ++calls
    for (address in executed) {
        count += executed[address]
        print address, executed[address] >file
    }
    close(file)
    split("", executed)
    counting = 0
    print count
}

# A call instruction has 5 bytes. The last 8 digits alone are reckoned with: mawk's integers end there.
function behind_call(address,    digit, low) {
    for (digit = 9; digit <= 16; digit++)
        low = low * 16 + index("123456789abcdef", substr(address, digit, 1))
    return substr(address, 1, 8) sprintf("%08x", low + 5)
}
