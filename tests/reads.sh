# For scripts that try what haya reads of a format and tells of it, in a copy, as a whole and as it is read: a row for each line of
# a file, which has haya's words, the input, what is printed (`-` for nothing), and what is said of the file, a line each, with
# `\n` and `\t` for a line feed and a tab. The script says what an input is that begins with a member's name.

# Whether the command $4 .. ends with the status $1, prints $2 and says $3 on standard error.
ends() {
    local status=$1 printed=$2 says=$3 out ended
    shift 3
    out=$("$@" 2> err < /dev/null)
    ended=$?
    [ "$ended:$out" = "$status:$printed" ] && [ "$(< err)" = "$says" ] && return
    printf 'status %s, it printed:\n%s\nit said:\n%s\n' "$ended" "$out" "$(< err)"
    return 1
}

# Whether haya with the words $5 .. prints $3 of the input $2, and says $4 of it. Where the input is a list of elements in the format
# $1, it does so as they are read, too. There a key that comes again isn't looked for, and what comes before a fault is printed.
reads() {
    local format=$1 input=$2 printed=$3 says=$4 status=0 opens='{'
    shift 4
    [ "$format" != csl-json ] || opens='['
    if [[ $input =~ ^\"[A-Za-z_-]+\": ]]; then
        input=$(whole_of "$input")
        [[ $printed != '{'* ]] || printed="{\"key\":\"k\",\"bindings\":{},\"entry\":$printed}"
    fi
    if [ "$printed" = - ]; then
        printed=
        if [ -z "$says" ]; then status=1; else status=2; fi
    fi
    [ -z "$says" ] || says=$(sed 's/^/haya: refs.json: /' <<< "$says")
    printf '%s' "$input" > refs.json
    ends "$status" "$printed" "$says" ./haya "$@" '*' refs.json || return
    [[ $status != 0 || $input != "$opens"* || $says == *'comes again'* ]] ||
        ends 0 "$printed" "$says" ./haya -s -f "$format" "$@" '*' refs.json
}

# Tries the lines of the file $2 in the format $1. A tab alone is between two columns: bash takes several for one, so each is
# another sign here.
read_rows() {
    local what words input printed says
    while IFS=$'\x1f' read -r what words input printed says; do
        printed=${printed//\\n/$'\n'}
        # shellcheck disable=SC2086
        row "$what" reads "$1" "$input" "${printed//\\t/$'\t'}" "${says//\\n/$'\n'}" $words
    done < <(tr '\t' '\037' < "$2")
}
