# The examples of README.md and docs/. A script sets `top`, the repository's folder, and reads this file.

# Sets `commands` to what the sh blocks of these documents run, `outputs` to what they say that each prints, and `documents` to
# where each is. A line that begins with a program and ends with `# prints ..` is an example, whose output has a line for each
# part between `, `; the others of a block are one, whose output is the next block of that section, if it has no language. One
# with no output has `?`, which none prints.
read_examples() {
    local document
    commands=() outputs=() documents=()
    for document in "$top"/README.md "$top"/docs/*.md; do read_document "${document#"$top/"}"; done
}

# The same of the document $1, behind the examples of those before.
read_document() {
    local block='' line at='' printed
    while IFS= read -r line; do
        case $block,$line in
            ,'```sh') block=sh at='' ;;
            ,'```') block=output; [ -z "$at" ] || outputs[at]='' ;;
            ,'```'*) block=other at='' ;;
            ,'#'*) at='' ;;
            sh,'```') block='' ;;
            *,'```') block='' at='' ;;
            sh,./hayagriva_query\ *'# prints '* | sh,./haya\ *'# prints '*)
                printed=${line##*'# prints '}
                commands+=("$line") outputs+=("${printed//, /$'\n'}"$'\n') documents+=("$1")
                ;;
            sh,./hayagriva_query\ * | sh,./haya\ *)
                [ -n "$at" ] || { at=${#commands[@]}; commands+=('') outputs+=('?') documents+=("$1"); }
                commands[at]+=$line$'\n'
                ;;
            output,*) [ -z "$at" ] || outputs[at]+=$line$'\n' ;;
        esac
    done < "$top/$1"
}
