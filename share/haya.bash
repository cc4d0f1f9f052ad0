# Completion of the words of haya for bash. It is read where it is needed from the folder bash-completion/completions.

# Prints what may follow an option: its values, as --help lists them.
_haya_values() {
    case $1 in
        -f | --from) echo hayagriva yaml bibtex csl-json json-lines lines ;;
        --key) echo citation-key id ;;
        -t | --to) echo keys lines hayagriva yaml json-lines source csl-json csv tsv ;;
        -w | --where | --sort | --unique | --duplicates | --columns)
            echo key type date title author editor doi volume issue page-range publisher language ;;
        -n | --max) echo 10 100 ;;
        --list) echo types fields formats ;;
        *) return 1 ;;
    esac
}

_haya() {
    local word=${COMP_WORDS[COMP_CWORD]} before=${COMP_WORDS[COMP_CWORD - 1]} found=0 at values
    # bash takes the = of --from=lines for a word of its own
    if [ "$word" = = ]; then
        word=''
    elif [ "$before" = = ]; then
        before=${COMP_WORDS[COMP_CWORD - 2]}
    fi
    if values=$(_haya_values "$before"); then
        mapfile -t COMPREPLY < <(compgen -W "$values" -- "$word")
        return
    fi
    if [[ $word = -* ]]; then
        values='--where --sort --unique --duplicates --max --from --key --to --columns --no-header --count --quiet --no-notes --invert --stream --strict --list --help --version'
        mapfile -t COMPREPLY < <(compgen -W "$values" -- "$word")
        return
    fi
    # The first word that is no option is the selector: a type to begin with. The others are files.
    for ((at = 1; at < COMP_CWORD; at++)); do
        [[ ${COMP_WORDS[at]} = -* ]] || _haya_values "${COMP_WORDS[at - 1]}" > /dev/null || found=1
    done
    if [ $found = 0 ]; then
        mapfile -t COMPREPLY < <(compgen -W "$("${COMP_WORDS[0]}" --list types 2> /dev/null | cut -d ' ' -f 1)" -- "$word")
    else
        compopt -o filenames 2> /dev/null
        mapfile -t COMPREPLY < <(compgen -f -- "$word")
    fi
}
complete -F _haya haya
