# Counts what passes and fails. A script of rows reads this file, and ends with `closing`.
passed=0 failed=0 failures=()

# Counts the row $1, which the rest of the words are to do with status 0, and shows what they said where it fails.
row() {
    local what=$1 said
    shift
    if said=$("$@" 2>&1 < /dev/null); then
        pass "$what"
    else
        fail "$what" "$said"
    fi
}

pass() { passed=$((passed + 1)); echo "ok      $1"; }

fail() {
    failed=$((failed + 1))
    keep_failure "$1" "${2:-}"
    echo "FAILED  ${failures[-1]}"
}

# Keeps the name $1 of what failed, and what it said, so that `closing` tells it once more: of a long log only the end may be read.
keep_failure() { failures+=("$1${2:+$'\n'$(sed 's/^/        /' <<< "$2")}"); }

# Puts the name $1 before the last line, so that only a script's own last line is its count.
name_last() { sed -u "\$s|^|$1: |"; }

# Runs the command that follows its name $1, shows what it says, and counts what its last line counts.
counted() {
    local what=$1 log status
    shift
    log=$(mktemp) || return
    "$@" 2>&1 < /dev/null | tee "$log" | name_last "$what"
    status=${PIPESTATUS[0]}
    [ "$status" = 0 ] || keep_failure "$what" "$(told_at_end "$log")"
    add_counts "$what" "$status" "$(tail -n 1 "$log")"
    rm -f "$log"
}

# Prints what a command that failed told at the end of its log $1: what `closing` tells once more, or else its last lines.
told_at_end() {
    local told
    told=$(sed -n '/^failed  /,$p' "$1" | head -n 100)
    echo "${told:-$(tail -n 20 "$1")}"
}

# Counts what $1 counts in its last line $3. A status $2 that says something else is one failure more.
add_counts() {
    local what=$1 status=$2 bad
    [[ $3 =~ ^([0-9]+)\ passed,\ ([0-9]+)\ failed ]] || { fail "$what ended with status $status and no count"; return; }
    bad=${BASH_REMATCH[2]}
    passed=$((passed + BASH_REMATCH[1])) failed=$((failed + bad))
    [ $((status != 0)) = $((bad != 0)) ] || fail "$what ended with status $status, and counts failures: $bad"
}

# Prints what failed once more, and the one line that counts, and ends well only where something passed and nothing failed.
closing() {
    [ "$failed" = 0 ] || printf 'failed  %s\n' "${failures[@]}"
    echo "$passed passed, $failed failed"
    [ "$failed" = 0 ] && [ "$passed" != 0 ]
    exit
}
