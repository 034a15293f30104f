# cases and counts (two lines to a case: the archive's, plain C's) as the tables of docs/BENCHMARK.md.
# before: other counts of the same cases, of which the archive's get columns of their own, with `-` for a call that there wasn't; or empty.
BEGIN {
    names = (before == "" ? "" : "before, ") "archive, plain C"
    columns = split(names, who, ", ")
    while (before != "" && (getline line <before) > 0)
        earlier[++lines] = line
    split("", nothing)
}
FILENAME == ARGV[1] { count[FNR] = $1; next }
$1 == "warm" { next }
# one inspection of the ring that the calls below it are made on
$1 ~ /^beside / { take(FNR, inspection); next }
{
    take(FNR, now)
    group = $1
    match(group, /^[a-z]+/)
    kind = substr(group, 1, RLENGTH)
    if (kind != shown)
        head(kind)
    shown = kind
    row = sprintf("| %s | %s | %s | %.2f |", group, $2, each("%d", now, nothing, 1, " | "), now[columns - 1] / now[columns])
    if (kind == "emit" || kind == "read" || kind == "copy")
        event()
    else if (kind == "confirm")
        print row
    else if (kind == "inspect")
        inspect()
    else if (kind == "create" || kind == "swap")
        make()
    else if (kind == "record")
        piece()
    else if (kind == "verify")
        verify()
    else if (kind == "listen")
        listen()
    else
        grow()
}
END {
    further("From payload 96 to 1,000", further_event)
    further("Record, from 32 bytes put to 1,024", further_piece)
    further("Swap, as many events in more bytes kept; plain C zeroes only what it doesn't copy", further_kept)
}

# the counts of a case, in the order of the columns
function take(number, into,    column) {
    if (before != "")
        into[++column] = earlier[2 * number - 1]
    into[++column] = count[2 * number - 1]
    into[++column] = count[2 * number]
}

function keep(into,    i) {
    for (i = 1; i <= columns; i++)
        into[i] = now[i]
}

# a figure for each column: what `more` has beyond `less`, by `by`
function each(form, more, less, by, separator,    i, text) {
    for (i = 1; i <= columns; i++)
        text = text (i == 1 ? "" : separator) (more[i] == "-" ? "-" : sprintf(form, (more[i] - less[i]) / by))
    return text
}

# where there is nothing to divide by
function blanks(    i, text) {
    for (i = 1; i <= columns; i++)
        text = text " |"
    return text
}

# a title for each column: the first says in full what the others say short
function titles(whole, short,    i, text) {
    for (i = 1; i <= columns; i++)
        text = text " " who[i] ", " (i == 1 ? whole : short) " |"
    return text
}

function print_head(line) {
    print "\n" line
    gsub(/[^|]+/, "---", line)
    print line
}

function head(kind,    first) {
    first = "| Call | On |" (before == "" ? "" : " Before |") " Archive | Plain C | Ratio |"
    if (kind == "emit" || kind == "read" || kind == "copy")
        print_head(first titles("per byte of the event", "per byte") " events passed or looked at |")
    else if (kind == "confirm")
        print_head(first)
    else if (kind == "create" || kind == "swap")
        print_head(first titles("per kilobyte made", "per kilobyte"))
    else if (kind == "record")
        print_head(first titles("per kilobyte in such pieces", "per kilobyte") " one inspection: " names " | the call beyond it: " names " |")
    else if (kind == "verify")
        print_head(first " one inspection: " names " | the call beyond it: " names " | bytes compared |" titles("per byte compared beyond an inspection", "per byte compared"))
    else if (kind == "inspect")
        print_head(first titles("per event", "per event"))
    else if (kind == "listen")
        print_head(first titles("per event", "per event") titles("per kilobyte", "per kilobyte"))
    else
        print_head("| Capacity | emit, room: " names " | emit, full: " names " | read: " names " | inspect: " names " | inspect, per event: " names " |")
}

function further(what, lines) {
    print_head("| " what " |" titles("per byte", "per byte"))
    printf "%s", lines
}

function event() {
    print row " " each("%.2f", now, nothing, $3, " | ") " | " $4 " |"
    if ($3 == 1032)
        further_event = further_event "| " group " | " each("%.2f", now, shorter, 904, " | ") " |\n"
    keep(shorter)
}

function inspect() {
    if ($4 == 0)
        keep(empty)
    print row ($4 == 0 ? blanks() : " " each("%.1f", now, empty, $4, " | ") " |")
}

# two swaps in turn of as many events into as much: what differs is the bytes kept
function make() {
    print row " " each("%.1f", now, nothing, $3 / 1024, " | ") " |"
    if (kind != "swap")
        return
    if ($3 == made && $4 == events && $5 > kept) {
        sub(/[0-9]+ bytes kept/, "from " kept " bytes kept to " $5, $2)
        further_kept = further_kept "| " $2 " | " each("%.2f", now, fewer, $5 - kept, " | ") " |\n"
    }
    made = $3
    events = $4
    kept = $5
    keep(fewer)
}

# a call less one inspection of the same ring is what placing the piece takes
function piece() {
    print row ($3 == 0 ? blanks() : " " each("%.1f", now, nothing, $3 / 1024, " | ") " |") \
        " " each("%d", inspection, nothing, 1, ", ") " | " each("%d", now, inspection, 1, ", ") " |"
    if ($3 == 1024) {
        sub(/: 1024 put/, ",", $2)
        further_piece = further_piece "| " $2 " | " each("%.2f", now, shorter, 992, " | ") " |\n"
    }
    if ($3 == 32)
        keep(shorter)
}

# a call less one inspection of the same ring is what comparing takes
function verify() {
    print row " " each("%d", inspection, nothing, 1, ", ") " | " each("%d", now, inspection, 1, ", ") " | " $3 " | " each("%.2f", now, inspection, $3, " | ") " |"
}

# a whole file, its opening and its closing with it
function listen() {
    print row " " each("%.1f", now, nothing, $4, " | ") " | " each("%.1f", now, nothing, $3 / 1024, " | ") " |"
}

# four cases to a capacity, one line
function grow() {
    grown = grown " " each("%d", now, nothing, 1, ", ") " |"
    if (group !~ /inspect/)
        return
    sub(/capacity /, "", $2)
    sub(/,.*/, "", $2)
    print "| " $2 " |" grown " " each("%.1f", now, empty, $4, ", ") " |"
    grown = ""
}
