# Completes the words of price and desk in bash: options and commands as --help lists them, and files.
# shellcheck shell=bash

_tozbierdu_options() { "$1" --help 2>/dev/null | grep -oE -- '--[a-z][a-z-]*' | sort -u; }

# A command is the first word of a line that is indented by two spaces. Examples begin with the program's name.
_tozbierdu_commands() { "$1" --help 2>/dev/null | sed -nE 's/^  ([a-z][a-z-]*)( .*)?$/\1/p' | grep -vxE 'desk|bash' | sort -u; }

_tozbierdu() { # PROGRAM WORD THE-WORD-BEFORE
    local i plain=0
    COMPREPLY=()
    if [[ $2 == -* ]]; then
        mapfile -t COMPREPLY < <(compgen -W "$(_tozbierdu_options "$1")" -- "$2")
        return
    fi
    [ "$3" != --names ] || return 0
    for ((i = 1; i < COMP_CWORD; i++)); do
        case ${COMP_WORDS[i]} in
            --names) i=$((i + 1)) ;;
            -?*) ;;
            *) plain=$((plain + 1)) ;;
        esac
    done
    # desk has a command after its file; all other words are completed as files.
    if [ "${1##*/}" = desk ] && [ "$plain" -eq 1 ]; then
        mapfile -t COMPREPLY < <(compgen -W "$(_tozbierdu_commands "$1")" -- "$2")
    fi
}

complete -o default -F _tozbierdu price desk
