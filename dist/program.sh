# What the scripts share that run, build and compare programs. A script sets `top`, the repository's folder, and reads
# this file. A program NAME is the crate of that name; dist/NAME.o is its object, crates/NAME/out/NAME what is run.

# The programs whose objects dist/ holds, and the static library whose archive is there.
programs=(hayagriva_query haya)
library=hayagriva_c

# Prints the name of what a build of $1 makes, in out/ and in dist/: a program's object or the library's archive.
product() { if [ "$1" = "$library" ]; then echo "lib$1.a"; else echo "$1.o"; fi; }

# Sets `crates`: the program $1 and the crates that it stands on, lowest first, as crates.txt lists them.
find_crates() {
    local lines at crate below
    local -A needed=([$1]=1)
    crates=()
    mapfile -t lines < "$top/crates.txt"
    for ((at = ${#lines[@]} - 1; at >= 0; at--)); do
        crate=${lines[at]%%[ :]*}
        [ -n "$crate" ] && [ -n "${needed[$crate]:-}" ] || continue
        crates=("$crate" "${crates[@]}")
        for below in ${lines[at]#*:}; do needed[$below]=1; done
    done
}

# Whether the file $2 is a program, and newer than all that the program $1 is compiled from.
is_current() {
    local crate crates made_of=("$top/crates.txt")
    [ -x "$2" ] || return
    find_crates "$1"
    for crate in "${crates[@]}"; do made_of+=("$top/crates/$crate/src"); done
    [ -z "$(find "${made_of[@]}" -newer "$2" -print -quit 2> /dev/null)" ]
}

# Prints the files below these folders, but for hidden files and editors' copies, in one order on every machine.
files_below() { find "$@" -type f ! -name '.*' ! -name '*~' 2> /dev/null | LC_ALL=C sort -u; }

# Prints `sha256  path` for each file that these programs are proved of and made of.
source_sums() {
    local name crate crates files folders=()
    for name in "$@"; do
        find_crates "$name"
        for crate in "${crates[@]}"; do folders+=("crates/$crate"/{src,specs}); done
    done
    (
        cd "$top" || exit
        mapfile -t files < <(files_below "${folders[@]}")
        sha256sum crates.txt "${files[@]}" 2> /dev/null
    )
}

# Writes what of each file given is compiled into a file of the folder `room`, named by its path with % for /: no comments, no
# blank lines, no ghost lines and clauses with the lines that are indented below them, as `rt fmt` sets them, and no module of
# tests. Lines of a text that goes on past its own line stay as they are.
# shellcheck disable=SC2016 # the words with $ are awk's
code_of='
    FNR == 1 { close(out); out = FILENAME; gsub("/", "%", out); out = room "/" out; printf "" > out; in_text = skips = is_test = 0 }
    { text = $0; gsub(/\\./, "", text); gsub(/\047"\047/, "", text); turns = gsub(/"/, "", text) % 2 }
    in_text { print > out; if (turns) in_text = 0; next }
    /^ *(\/\/|$)/ { next }
    { match($0, /^ */); depth = RLENGTH }
    skips && depth > at { next }
    { skips = 0 }
    /^ *(pub )?(ghost|ensures|requires) / { skips = 1; at = depth; next }
    /^ *#\[cfg\(test\)\]$/ { is_test = 1; held = $0; next }
    is_test { is_test = 0; if ($0 ~ /^ *mod [a-z_]+;$/) next; print held > out }
    { print > out; in_text = turns }
'

# Prints `sha256  path` for what is compiled of each file that these programs are made of, and for their lines of crates.txt.
code_sums() {
    local name crate crates line files folders=() needed=' '
    for name in "$@"; do
        find_crates "$name"
        for crate in "${crates[@]}"; do folders+=("crates/$crate/src") needed+="$crate "; done
    done
    (
        room=$(mktemp -d) && trap 'rm -rf "$room"' EXIT && cd "$top" || exit
        mapfile -t files < <(files_below "${folders[@]}" | grep -v -e '/tests\.rt$' -e '/tests/')
        while read -r line; do [[ $needed != *" ${line%%[ :]*} "* ]] || echo "$line"; done < crates.txt > "$room/crates.txt"
        LC_ALL=C awk -v "room=$room" "$code_of" "${files[@]}" < /dev/null
        cd "$room" && LC_ALL=C && sha256sum -- * | sed 's|%|/|g'
    )
}

# The first line of dist/SOURCES. One of another kind of sums begins otherwise.
sources_head='# What dist/ holds, and the code that it was compiled from, as sums of SHA-256. dist/refresh writes this file.'

# Prints what dist/SOURCES is to have, with the kit's line $1: that, and the sums of what dist/ holds and of its sources' code.
listing() {
    local name files=()
    for name in "${programs[@]}" "$library"; do files+=("dist/$(product "$name")"); done
    echo "$sources_head"
    echo "# Proved and built with $1"
    (cd "$top" && sha256sum "${files[@]}" 2> /dev/null)
    code_sums "${programs[@]}" "$library"
}

# Prints the kit's line that dist/SOURCES has.
recorded_kit() { sed -n 's/^# Proved and built with //p' "$top/dist/SOURCES" 2> /dev/null; }

# Sets `differs` to the first file that dist/SOURCES doesn't match, or to nothing. It has a line for each file and no other.
find_difference() {
    local now recorded
    now=$(listing "$(recorded_kit)") recorded=$(cat "$top/dist/SOURCES" 2> /dev/null) differs=
    [ "$now" = "$recorded" ] && return
    differs=$(diff <(echo "$recorded") <(echo "$now") |
        sed -n '/^[<>] ./ { s/^..#.*/what dist\/refresh writes/; t print; s/^.\{68\}//; :print; p; q; }')
    differs=${differs:-the sources}
}

# Whether dist/SOURCES matches the objects and sources; otherwise it says which it doesn't.
sources_match() {
    local differs
    find_difference
    [ -z "$differs" ] || { echo "dist/SOURCES doesn't match $differs: ./prove --program, then dist/refresh"; return 1; }
}

# Sets `lacks` to what keeps dist/'s objects from running on this machine, or to nothing.
find_lack() {
    local flags word
    lacks=
    [ "$(uname -sm)" = 'Linux x86_64' ] || { lacks=$(uname -sm); return; }
    flags=$(grep -m 1 '^flags' /proc/cpuinfo 2> /dev/null) || return 0
    for word in cx16 lahf_lm popcnt sse4_1 sse4_2 ssse3; do
        [[ " $flags " = *" $word "* ]] || lacks="a processor without $word"
    done
}

# Sets `kit`, the folder of the Rattle kit whose command rt is on the PATH.
find_kit() {
    local rt page
    rt=$(command -v rt) || return
    kit=$(readlink -f "$rt")
    kit=${kit%/bin/rt}
    [ -x "$kit/bin/rattle-link" ] || { page=$(rt doc 2> /dev/null); kit=${page%/*}; }
}

# Links dist/'s program $1 into the file $2, as the kit's command does.
link_by_kit() {
    "$kit/bin/rattle-link" --target x86_64-unknown-linux-gnu --toolchain "$kit/toolchain" -o "$2" "$top/dist/$1.o" \
        "$kit/c/libos_c.a" "$kit/c/liblibc_c.a"
}

# Links dist/'s program $1 into the file $2 with the C compiler.
link_by_cc() { cc -O2 -o "$2" "$top/dist/start.c" "$top/dist/$1.o"; }

# Links dist/'s program $2 by the command $1 into the first of the folders that follow that can be written to. It sets
# `program` to the new file, or otherwise `said` to what the linker said. The file gets its name once it is whole, for others who
# call at the same time, and the time $began, so that what is edited from then on is newer.
link_into() {
    local link=$1 name=$2 folder
    shift 2
    said=
    for folder in "$@"; do
        mkdir -p "$folder" 2> /dev/null && room=$(mktemp -d "$folder/.link.XXXXXX" 2> /dev/null) || continue
        trap 'rm -rf "$room"' EXIT
        said=$("$link" "$name" "$room/$name" 2>&1) && touch -d "@$began" "$room/$name" &&
            mv -f "$room/$name" "$folder/$name" && program=$folder/$name
        rm -rf "$room"
        trap - EXIT
        [ -z "$program" ] || return 0
    done
    [ -n "$said" ] || cannot_run "none of these folders can be written to: $*"
    return 1
}

# Does what it is given, and shows what that said only where it fails.
quietly() {
    local said status
    said=$(mktemp) || return
    "$@" > "$said" 2>&1
    status=$?
    [ $status = 0 ] || cat "$said"
    rm -f "$said"
    return $status
}

# Proves and builds the crate $2, one that $1 stands on or $1 itself. A program is run as well: with words that end well on no
# entries. A check takes up to 1 GB a job.
build_crate() {
    local jobs words='*'
    [ "$1" != haya ] || words=--version
    jobs=$(nproc)
    [ "$jobs" -le 4 ] || jobs=4
    cd "$top/crates/$2" || return
    if [ "$2" = "$1" ] && [ "$1" != "$library" ]; then quietly rt run --jobs "$jobs" -- "$words"; else quietly rt lib --jobs "$jobs"; fi
}

# Proves and builds the program or library $1, one crate after the other: rt lets no two run that stand on the same crate.
build() {
    local name=$1 began before crates at
    began=$(date +%s.%N) before=$(source_sums "$name")
    find_crates "$name"
    for at in "${!crates[@]}"; do
        echo "$name: proving ${crates[at]}, crate $((at + 1)) of ${#crates[@]}"
        (build_crate "$name" "${crates[at]}") || return
    done
    mark_proved "$name" "$before"
    # What was edited meanwhile is newer than the program.
    [ "$name" = "$library" ] || touch -d "@$began" "$top/crates/$name/out/$name"
}

# Notes beside what a build of $1 made that it was proved of its sources, where they still have the sums $2.
mark_proved() {
    local out=$top/crates/$1/out built
    built=$out/$(product "$1")
    [ -f "$built" ] && [ "$(source_sums "$1")" = "$2" ] && { sha256sum < "$built" && echo "$2"; } > "$out/$1.proved"
}

# Whether what a build of $1 made was proved of its sources as they are.
is_proved() {
    local out=$top/crates/$1/out built
    built=$out/$(product "$1")
    [ -f "$built" ] && [ "$(cat "$out/$1.proved" 2> /dev/null)" = "$(sha256sum < "$built" && source_sums "$1")" ]
}

# Ends with the status 3, which no program has.
cannot_run() { echo "$name: $*" >&2; exit 3; }

# Links dist/'s program $1 into one of the folders that follow, and sets `program`; or otherwise sets `why` to what keeps it from
# being linked.
link_program() {
    local name=$1 lacks differs kit said
    find_lack
    [ -z "$lacks" ] || { why="dist/$name.o is for x86-64-v2 Linux, and this is $lacks"; return 1; }
    find_difference
    [ -z "$differs" ] || { why="dist/SOURCES doesn't match $differs"; return 1; }
    if find_kit; then
        link_into link_by_kit "$@" || { why="the kit can't link dist/$name.o (${said%%$'\n'*})"; return 1; }
    elif command -v cc > /dev/null; then
        link_into link_by_cc "$@" || cannot_run "cc can't link dist/$name.o: $said"
    else
        cannot_run "neither the Rattle kit's command rt nor a C compiler, cc, is on the PATH"
    fi
}

# Sets `program` to a new program $1 in one of the folders that follow: one that is linked from dist/, or otherwise, where HAYA_BUILD
# asks for that, one that is proved and built.
make_program() {
    local name=$1 began why
    began=$(date +%s.%N) program=
    link_program "$@" && return
    command -v rt > /dev/null || cannot_run "$why, and the Rattle kit's command rt, which makes it anew, is not on the PATH"
    [ "${HAYA_BUILD:-}" = 1 ] ||
        cannot_run "$why: rt try in crates/$name runs it unproved, in minutes; ./prove --program proves and builds it, in three quarters of an hour, as HAYA_BUILD=1 ./$name does"
    echo "$name: $why: it is proved and built anew" >&2
    build "$name" >&2 || cannot_run 'not proved or not built'
    program=$top/crates/$name/out/$name
}

# Sets `cache` to the folder of the program $1 where the repository can't be written to: one for each repository and object.
find_cache() {
    local sum='' file
    while read -r sum file && [ "$file" != "dist/$1.o" ]; do :; done 2> /dev/null < "$top/dist/SOURCES"
    cache=${XDG_CACHE_HOME:-${HOME:-}/.cache}/torkizeu$(cd "$top" && pwd -P)/${sum:0:16}
}

# Runs the program $1 with the other words: the one that was made here, or otherwise a new one. Standard input is its alone.
run_program() {
    local name=$1 program=$top/crates/$1/out/$1 cache
    shift
    if ! is_current "$name" "$program"; then
        find_cache "$name"
        program=$cache/$name
        is_current "$name" "$program" || make_program "$name" "$top/crates/$name/out" "$cache" < /dev/null
    fi
    exec "$program" "$@"
}
