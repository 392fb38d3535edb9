# shellcheck shell=bash
# Completion of pasask for bash. What begins with `make:` and `--input=` comes in three words, since bash parts words at
# colons and equals signs.

_pasask_files() {
    compopt -o filenames 2>/dev/null
    mapfile -t COMPREPLY < <(compgen -f -- "$1")
}

_pasask_words() {
    mapfile -t COMPREPLY < <(compgen -W "$1" -- "$2")
}

# The options that are not on the line yet; help and version go first.
_pasask_options() {
    local option options=''
    for option in --input --budget --load; do
        [[ " ${COMP_WORDS[*]:0:COMP_CWORD} " == *" $option "* ]] || options+=" $option"
    done
    ((COMP_CWORD > 1)) || options+=' --help --version'
    _pasask_words "$options" "$1"
}

_pasask() {
    local current=${COMP_WORDS[COMP_CWORD]} before=${COMP_WORDS[COMP_CWORD - 1]}
    COMPREPLY=()
    # right after the sign the word is the sign
    if [[ $current == [=:] ]]; then
        before=$before$current current=''
    elif [[ $before == [=:] ]]; then
        before=${COMP_WORDS[COMP_CWORD - 2]}$before
    fi
    case $before in
        --input | --input= | --load | --load=) _pasask_files "$current" ;;
        --budget | --budget=) _pasask_words '1000 100000 1000000 4000000' "$current" ;;
        make:) _pasask_words '1 2 3 4 5 6 7 8 9 10 11 12 13 14' "$current" ;;
        *)
            if [[ $current == -* ]]; then
                _pasask_options "$current"
                return
            fi
            _pasask_files "$current"
            if ((COMP_CWORD == 1)) && [[ -n $current && make: == "$current"* ]]; then
                compopt -o nospace 2>/dev/null
                COMPREPLY+=(make:)
            fi
            ;;
    esac
}

complete -F _pasask pasask
