# Rows of values that are too long for a file of tests/rows/values. A script reads this file.

# Prints $1 so many times.
times() { printf "%.0s$1" $(seq "$2"); }

# Prints lists, names and lines that say the same again and again, as rows.
long_rows() {
    local text names
    text="$(times '2147483647 & ' 500)1"
    printf 'number\t%s\t=>\t?\t%s\t?\t?\t?\n' "$text" "$text"
    text="$(times '10-12, ' 300)13"
    printf 'pages\t%s\t=>\t?\t%s\t601\tyes\t?\t?\n' "$text" "$text"
    printf 'typed-order\t10-12\t%s\t=>\t?\t?\tLess\n' "$text"
    printf 'particles\t%sNowhere\t-\tof of of\t=>\tof of of\t%sNowhere\tof of of\n' "$(times 'of ' 100)" "$(times 'of ' 97)"
    text=$(times 'so on ' 1000)
    printf 'typed-number\t%s\t=>\ttext\t%s\tborrowed\t%s\t%s\n' "$text" "$text" "$text" "$text"
    printf 'url\t%s\t=>\tQualifiedUrl { value: "%s", visit_date: None }\t%s\n' "$text" "$text" "$text"
    text=$(times 'von ' 3000) names=$(times 'Ab ' 3000)
    printf 'person\t%sDoe,%s\t=>\t?\t%sDoe, %s\n' "$text" "$names" "$text" "${names% }"
    printf 'given-first\tDoe\t%s\t%s\t-\tyes\t=>\t%s%sDoe\n' "${names% }" "${text% }" "$(times 'A. ' 3000)" "$text"
    printf 'name-first\tDoe\t%s\t%s\t-\tno\tno\t=>\t%sDoe, %s\n' "${names% }" "${text% }" "$text" "${names% }"
    printf 'line\t0\\tx\\tbook\\ttitle=%s%s%s\t=>\ttitle=%s;%s%s\n' "$(times 'é{u}' 7000)" \
        "$(times '\\tauthor=Doe, Jane' 7000)" "$(times '\\taffiliated=translator:Roe' 7000)" \
        "$(times 'éu' 7000)" "$(times 'author=Doe, Jane;' 7000)" "$(times 'translator=Roe;' 7000)"
    printf 'query\t*[language]\t%s\t=>\t?\t%s\n' "$(seq 0 149 | sed 's/.*/0\\t&\\tweb\\tlanguage=en\\n/' | tr -d '\n')" \
        "$(seq -s $'\t' 0 149)"
    printf 'selector\t%s*%s\t=>\tWildcard\t-\n' "$(times '(' 500)" "$(times ')' 500)"
}

# Rows whose requests for memory are refused alone: values past each size from which on a call might go another way.
large_rows() {
    printf 'chunks\t%s\n' "$(times 'sixteen letters.' 66000)"
    printf 'chunks\t%s\n' "$(times 'a{b}' 20000)"
    printf 'selector\tbook%s\n' "$(times ' | web' 65536)"
    printf 'apply\t%s*%s\t0\\tarticle\\tarticle\\n\n' "$(printf 'n%s:(' $(seq 65))" "$(times ')' 65)"
    printf 'apply\t%s*%s\t0\\tarticle\\tarticle\\n\n' "$(printf 'n%s:(' $(seq 300))" "$(times ')' 300)"
    printf 'apply\t* > (n0:*%s)\t0\\tarticle\\tarticle\\n%s\n' "$(printf ' & n%s:*' $(seq 16))" "$(times '1\\tb\\tbook\\n' 20)"
}

# Prints rows of values as large as the largest that users have, up to 2 MB, one for each kind whose values have no bound.
largest_rows() {
    local text names
    text="$(times '2147483647 & ' 160000)1"
    printf 'number\t%s\t=>\t?\t%s\t?\t?\t?\n' "$text" "$text"
    text="$(times '10-12, ' 100000)13"
    printf 'pages\t%s\t=>\t?\t%s\t200001\tyes\t?\t?\n' "$text" "$text"
    text=$(times S 2000000)
    printf 'part\t%s10-15x\t=>\t?\t%s10-15x\n' "$text" "$text"
    printf 'typed-number\t%s\t=>\ttext\t%s\tborrowed\t%s\t%s\n' "$(times 'so on ' 350000)" "$(times 'so on ' 350000)" \
        "$(times 'so on ' 350000)" "$(times 'so on ' 350000)"
    text=$(times 'sixteen letters.' 130000)
    printf 'chunks\t%s{b}\t=>\t?\t%s{b}\t%sb\t?\t?\n' "$text" "$text" "$text"
    printf 'made-chunks\tnormal:%s\t=>\t?\t%s\t%s\t%s\tfolded\n' "$text" "$text" "$text" "$text"
    printf 'text\t%s\t=>\t?\t%s\t%s\n' "$text" "$text" "$text"
    printf 'made-text\t%s\tS\t=>\t?\t%s\tS\n' "$text" "$text"
    printf 'url\t%s\t=>\tQualifiedUrl { value: "%s", visit_date: None }\t%s\n' "$text" "$text" "$text"
    printf 'publisher\t%s\t=>\tPublisher { name: Some(FormatString { value: ChunkedString([StringChunk { value: "%s", ' "$text" "$text"
    printf 'kind: Normal }]), short: None }), location: None }\n'
    printf 'role\t%s\t=>\tUnknownRole\t?\n' "$text"
    text=$(times 'von ' 250000) names=$(times 'Ab ' 330000)
    printf 'person\t%sDoe,%s\t=>\t?\t%sDoe, %s\n' "$text" "$names" "$text" "${names% }"
    printf 'given-first\tDoe\t%s\t%s\t-\tyes\t=>\t%s%sDoe\n' "${names% }" "${text% }" "$(times 'A. ' 330000)" "$text"
    printf 'name-first\tDoe\t%s\t%s\t-\tno\tno\t=>\t%sDoe, %s\n' "${names% }" "${text% }" "$text" "${names% }"
    printf 'persons\tlong\tno\t%sDoe\t%s\t-\t-\t%sDoe\t%s\t-\t-\t=>\tEqual\tEqual\n' "$text" "$names" "$text" "$names"
    # A particle is looked for in front of each blank, so that this takes the square of how many there are.
    printf 'particles\t%s %sNowhere\t-\tof\t=>\tof\t%sNowhere\tof\n' "of" "$(times 'sixteen-letters-' 130000) " "$(times 'sixteen-letters-' 130000) "
    printf 'line\t0\\tx\\tbook\\ttitle=%s%s%s\t=>\ttitle=%s;%s%s\n' "$(times 'é{u}' 140000)" \
        "$(times '\\tauthor=Doe, Jane' 60000)" "$(times '\\taffiliated=translator:Roe' 40000)" \
        "$(times 'éu' 140000)" "$(times 'author=Doe, Jane;' 60000)" "$(times 'translator=Roe;' 40000)"
    printf 'library\t%s\t=>\t%s\n' "$(seq 0 99999 | sed 's/.*/0\\t&\\tweb\\tlanguage=en\\n/' | tr -d '\n')" "$(seq -s $'\t' 0 99999)"
    printf 'query\t*[language]\t%s\t=>\t?\t%s\n' "$(seq 0 49999 | sed 's/.*/0\\t&\\tweb\\tlanguage=en\\n/' | tr -d '\n')" \
        "$(seq -s $'\t' 0 49999)"
    printf 'selector\tbook%s\t=>\t?\t-\n' "$(times ' | web' 300000)"
    printf 'apply\t%sbook\t0\\tx\\tbook\\n\t=>\t?\tyes\t\n' "$(times 'web | ' 300000)"
    text=$(times 'sixteen letters.' 130000)
    printf 'pushed-text\t%s\t=>\t%s%sé\n' "$text" "$text" "$text"
    printf 'serials\t%s\t=>\tyes\tyes\tyes\tyes\tyes\tyes\n' "$text"
    printf 'with-role\t0\\tx\\tbook%s\t=>\t80000\n' "$(times '\\taffiliated=translator:Roe' 80000)"
    printf 'variant\t%svariant=british\t=>\ten-GB\n' "$(times 'spelling=new, ' 130000)"
    printf 'title-in-formats\t%s\t=>\tyes\tyes\tyes\n' "$text"
    printf 'title-in-json\t%s\t=>\t{"k":{"type":"book","title":"%s"}}\t%s%s%s\tyes\n' "$text" "$text" \
        '{\n  "k": {\n    "type": "book",\n    "title": "' "$text" '"\n  }\n}'
    printf 'name-twice\t%s\t=>\tduplicate key\t2\t1\n' "$text"
}
