# Reads a crate's lib.rt, and then all its files, and prints each call that the crate offers, as `TYPE::CALL` or `CALL`,
# and `takes memory` behind it where its parameters or its answer say so.
# (`reads_back` is a law's: no program calls it.)

# The first name in a text.
function name_in(text) { return match(text, /[A-Za-z_][A-Za-z_0-9]*/) ? substr(text, RSTART, RLENGTH) : "" }

# A text without what stands between < and >, which may hold such again.
function bare(text,  at, c, depth, left) {
    gsub(/->/, "  ", text)
    for (at = 1; at <= length(text); at++) {
        c = substr(text, at, 1)
        if (c == "<") depth++
        if (depth == 0) left = left c
        if (c == ">") depth--
    }
    return left
}

# What lib.rt hands on, by name.
NR == FNR {
    if (/^pub use/) using = 1
    if (using) {
        text = $0
        while (match(text, /[A-Za-z_][A-Za-z_0-9]*/)) {
            is_offered[substr(text, RSTART, RLENGTH)] = 1
            text = substr(text, RSTART + RLENGTH)
        }
    }
    if (/;/) using = 0
    if (/^pub mod [a-z_]+;/) is_open[name_in(substr($0, 8))] = 1
    next
}

FNR == 1 {
    type = ""
    module = FILENAME
    sub(/^.*\/src\//, "", module)
    sub(/[.\/].*/, "", module)
}

/^#\[cfg\(test\)\]/ { nextfile }

# A block's type, and whether the block is of a trait. A trait's own functions are called by its types' names.
/^(pub )?trait / { type = "" ; in_trait = 1; next }
/^impl/ {
    head = $0
    while (head !~ /\{/ && (getline more) > 0) head = head " " more
    head = bare(head)
    sub(/\{.*/, "", head)
    in_trait = 0
    of_trait = head ~ / for /
    is_own = of_trait && name_in(substr(head, 5)) in is_offered
    if (of_trait) sub(/^.* for /, "", head)
    else sub(/^impl/, "", head)
    sub(/ where .*/, "", head)
    type = name_in(head)
    next
}
/^}/ { type = ""; in_trait = 0; next }

# The parameters and the answer of the function that begins in this line.
function signature(  text, more) {
    text = $0
    while (text !~ /[{;]/ && (getline more) > 0 && more !~ /^ *(ensures|requires|where|ghost) /) text = text " " more
    return text
}

/^(    )?(pub )?(const )?fn / {
    is_method = /^    /
    if (in_trait) next
    is_public = /pub /
    text = signature()
    sub(/^ *(pub )?(const )?fn /, "", text)
    call = name_in(text)
    takes = text ~ /alloc|Alloc|OutOfMemory/ && call != "from" ? " takes memory" : ""
    if (is_method && type != "" && (is_offered[type] || is_open[module] || is_own)) {
        if ((is_public || of_trait) && call != "reads_back") print type "::" call takes
    } else if (!is_method && is_public && (is_offered[call] || is_open[module])) {
        print call takes
    }
}
