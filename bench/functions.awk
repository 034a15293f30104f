# From a file of callgrind's costs: each function's own instructions, the C library's together.
/^ob=/ {
    id = first_word($0)
    if (NF > 1)
        objects[id] = $2
    inside = objects[id] ~ /\/calls$/
    next
}
/^fn=/ {
    id = first_word($0)
    if (NF > 1)
        names[id] = substr($0, index($0, " ") + 1)
    at = inside ? names[id] : "C library"
    next
}
# a call's inclusive cost stands on the line after it
/^calls=/ { inclusive = 1; next }
/^[-+*0-9]/ {
    if (!inclusive)
        own[at] += $2
    inclusive = 0
}
/^c?fn=|^cob=/ { remember() }

function first_word(text) {
    sub(/^[a-z]+=/, "", text)
    sub(/ .*/, "", text)
    return text
}

# the name of a function or an object stands where its number comes first, which may be in a call
function remember(    id) {
    id = first_word($0)
    if (NF > 1 && /^cob=/)
        objects[id] = $2
    else if (NF > 1)
        names[id] = substr($0, index($0, " ") + 1)
}
