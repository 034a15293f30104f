# From nm's list of symbols (with their lengths) and a call's counts by address: each function's own instructions.
# What lies in no function of the program is the C library's, or the jump into it, which valgrind counts to the caller.
# mark: where the program has call_ended, which tells where it was loaded.
FILENAME == ARGV[1] {
    if (NF >= 4 && $3 ~ /^[tTwW]$/)
        remember()
    next
}
{ own[function_at(number($1) - loaded)] += $2 }

function remember() {
    start[++functions] = number($1)
    end[functions] = start[functions] + number($2)
    sub(/^[^ ]+ [^ ]+ [^ ]+ /, "")
    name[functions] = $0
    if ($0 == "call_ended")
        loaded = number(mark) - start[functions]
}

function function_at(address,    i) {
    for (i = 1; i <= functions; i++)
        if (address >= start[i] && address < end[i])
            return name[i]
    return "C library"
}

function number(digits,    i, value) {
    for (i = 1; i <= length(digits); i++)
        value = value * 16 + index("123456789abcdef", substr(digits, i, 1))
    return value
}
