# Completion of aec's words in bash. The options are those of docs/COMMAND.md.

_aec() {
    local word=${COMP_WORDS[COMP_CWORD]} before=${COMP_WORDS[COMP_CWORD - 1]}
    COMPREPLY=()
    case $before in
        -j)
            COMPREPLY=($(compgen -W "8 16 32 64" -- "$word"))
            return
            ;;
        -n)
            COMPREPLY=($(compgen -W "8 12 16 24 32" -- "$word"))
            return
            ;;
        -r | -b | --count | --range)
            return
            ;;
    esac
    if [[ $before != --edit && $word == -* ]]; then
        COMPREPLY=($(compgen -W "-n -j -r -s -m -3 -N -t -p --even-blocks -b -d --count --range --edit \
            -h --help -V --version" -- "$word"))
        return
    fi
    compopt -o filenames 2> /dev/null
    local IFS=$'\n'
    COMPREPLY=($(compgen -f -- "$word"))
}

complete -F _aec aec
