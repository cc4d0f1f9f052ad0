# Copies of the repository in which the programs' script is tried, and what it finds on the PATH there; and folders with the programs
# alone, for rows that ask what these print. A script sets `top`, the repository's folder, reads dist/program.sh and this file, and
# calls `make_room` or `make_tools`.

# Sets `room`, a folder for the copies that goes when the script ends.
make_room() {
    room=$(mktemp -d) || exit
    trap 'rm -rf "$room"' EXIT
    chmod 755 "$room"
}

# The same, and sets `tools`, `with_kit` and `with_cc`, a PATH each: the commands of this one without `rt` and `cc`, and those beside
# the one or the other.
make_tools() {
    local folder folders it
    make_room
    mkdir "$room/tools" "$room/kit" "$room/cc" || exit
    IFS=: read -ra folders <<< "$PATH"
    for folder in "${folders[@]}"; do ln -s "$folder"/* "$room/tools" 2> /dev/null; done
    for it in kit/rt cc/cc; do
        [ ! -e "$room/tools/${it#*/}" ] || mv "$room/tools/${it#*/}" "$room/$it"
    done
    tools=$room/tools with_kit=$room/kit:$tools with_cc=$room/cc:$tools
}

# Makes the folder $1 of dist/'s programs, linked, under the names that their scripts have in the repository, and of examples/. A row
# that calls one there calls the program itself, and spends nothing on what the script looks at.
programs_to() {
    local name kit link=link_by_cc
    mkdir -p "$1" && cp -R "$top/examples" "$1" || return
    ! find_kit || link=link_by_kit
    for name in "${programs[@]}"; do
        "$link" "$name" "$1/$name" > "$room/linked" 2>&1 || { cat "$room/linked"; return 1; }
    done
}

# Copies what the script reads, with sums of the sources as they are now, so that the rows try dist/'s object also where the
# sources were edited since.
copy_to() {
    local crate
    mkdir -p "$1/crates"
    cp -R "$top"/{hayagriva_query,haya,dist,examples,crates.txt} "$1" || return
    for crate in "$top"/crates/*/; do
        crate=$(basename "$crate")
        mkdir "$1/crates/$crate" && cp -R "$top/crates/$crate"/{src,specs} "$1/crates/$crate" 2> /dev/null
    done
    (
        top=$1
        said=$(listing "$(recorded_kit)") && echo "$said" > "$1/dist/SOURCES"
    )
}
