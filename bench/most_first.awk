# What own[] holds by function, on one line, the most first.
END {
    while (1) {
        most = ""
        for (at in own)
            if (own[at] > 0 && (most == "" || own[at] > own[most]))
                most = at
        if (most == "")
            break
        line = line sprintf("%s %s %d", line == "" ? "" : ",", most, own[most])
        delete own[most]
    }
    print line
}
