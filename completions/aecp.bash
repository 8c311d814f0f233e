# Completion of aecp's words in bash. Written by tools/completions.py from the command's parser.

_aecp() {
    local word=${COMP_WORDS[COMP_CWORD]} before=${COMP_WORDS[COMP_CWORD - 1]} IFS=$' \t\n'
    COMPREPLY=()
    if ((COMP_CWORD == 1)); then
        COMPREPLY=($(compgen -W "keep back check info export edit undo log forget diff pixels fit view rescue help -h --help -V --version" -- "$word"))
        return
    fi
    case ${COMP_WORDS[1]} in
        keep)
            case $before in
                --to)
                    COMPREPLY=($(compgen -d -- "$word"))
                    return
                    ;;
                -n)
                    COMPREPLY=($(compgen -W "8 12 16 24 32" -- "$word"))
                    return
                    ;;
                -j)
                    COMPREPLY=($(compgen -W "8 16 32 64" -- "$word"))
                    return
                    ;;
                --include | --exclude | --skip | --shape | --dtype | -r | --jobs | --dask | --limit)
                    :
                    return
                    ;;
            esac
            [[ $word == -* ]] && COMPREPLY=($(compgen -W "-h --help --to --include --exclude --skip --shape --dtype --raw --anyway --rehash --repair --remove -n -j -r -s -m -3 -t -p --even-blocks -N --jobs --dask --limit --json -q --quiet" -- "$word")) && return
            ;;
        back)
            case $before in
                --to)
                    COMPREPLY=($(compgen -d -- "$word"))
                    return
                    ;;
                -o)
                    COMPREPLY=($(compgen -f -- "$word"))
                    return
                    ;;
                --range | --jobs | --dask | --limit)
                    :
                    return
                    ;;
            esac
            [[ $word == -* ]] && COMPREPLY=($(compgen -W "-h --help --to -o --range --jobs --dask --limit --json -q --quiet" -- "$word")) && return
            ;;
        check)
            case $before in
                --jobs | --dask | --limit)
                    :
                    return
                    ;;
            esac
            [[ $word == -* ]] && COMPREPLY=($(compgen -W "-h --help --jobs --dask --limit --json -q --quiet" -- "$word")) && return
            ;;
        info)
            case $before in
                --limit)
                    :
                    return
                    ;;
            esac
            [[ $word == -* ]] && COMPREPLY=($(compgen -W "-h --help --limit --json -q --quiet" -- "$word")) && return
            ;;
        export)
            case $before in
                --limit)
                    :
                    return
                    ;;
            esac
            [[ $word == -* ]] && COMPREPLY=($(compgen -W "-h --help --limit -q --quiet" -- "$word")) && return
            ;;
        edit)
            case $before in
                --shape | --frame | --limit)
                    :
                    return
                    ;;
            esac
            [[ $word == -* ]] && COMPREPLY=($(compgen -W "-h --help --allow-empty --table --shape --frame --limit -q --quiet" -- "$word")) && return
            ;;
        undo)
            case $before in
                --limit)
                    :
                    return
                    ;;
            esac
            [[ $word == -* ]] && COMPREPLY=($(compgen -W "-h --help --all --limit -q --quiet" -- "$word")) && return
            ;;
        log)
            case $before in
                --script | --limit)
                    :
                    return
                    ;;
            esac
            [[ $word == -* ]] && COMPREPLY=($(compgen -W "-h --help --script --limit --json -q --quiet" -- "$word")) && return
            ;;
        forget)
            case $before in
                --keep | --limit)
                    :
                    return
                    ;;
            esac
            [[ $word == -* ]] && COMPREPLY=($(compgen -W "-h --help --keep --limit -q --quiet" -- "$word")) && return
            ;;
        diff)
            case $before in
                --shape | --limit)
                    :
                    return
                    ;;
            esac
            [[ $word == -* ]] && COMPREPLY=($(compgen -W "-h --help --script --shape --limit --json -q --quiet" -- "$word")) && return
            ;;
        pixels)
            case $before in
                --shape | --frame)
                    :
                    return
                    ;;
            esac
            [[ $word == -* ]] && COMPREPLY=($(compgen -W "-h --help --shape --frame -q --quiet" -- "$word")) && return
            ;;
        fit)
            case $before in
                -n)
                    COMPREPLY=($(compgen -W "8 12 16 24 32" -- "$word"))
                    return
                    ;;
                -j)
                    COMPREPLY=($(compgen -W "8 16 32 64" -- "$word"))
                    return
                    ;;
                --stream | -r | --jobs)
                    :
                    return
                    ;;
            esac
            [[ $word == -* ]] && COMPREPLY=($(compgen -W "-h --help --all --stream -n -j -r -s -m -3 -t -p --even-blocks -N --jobs --json -q --quiet" -- "$word")) && return
            ;;
        view)
            case $before in
                -n)
                    COMPREPLY=($(compgen -W "8 12 16 24 32" -- "$word"))
                    return
                    ;;
                -j)
                    COMPREPLY=($(compgen -W "8 16 32 64" -- "$word"))
                    return
                    ;;
                --width | --frame | --min | --max | --range | --count | -r | --limit)
                    :
                    return
                    ;;
            esac
            [[ $word == -* ]] && COMPREPLY=($(compgen -W "-h --help --width --frame --min --max --range --count -n -j -r -s -m -3 -t -p --even-blocks -N --limit -q --quiet" -- "$word")) && return
            ;;
        rescue)
            case $before in
                --ranges)
                    COMPREPLY=($(compgen -f -- "$word"))
                    return
                    ;;
                -n)
                    COMPREPLY=($(compgen -W "8 12 16 24 32" -- "$word"))
                    return
                    ;;
                -j)
                    COMPREPLY=($(compgen -W "8 16 32 64" -- "$word"))
                    return
                    ;;
                --fill | --count | --range | -r | --limit)
                    :
                    return
                    ;;
            esac
            [[ $word == -* ]] && COMPREPLY=($(compgen -W "-h --help --fill --ranges --count --range -n -j -r -s -m -3 -t -p --even-blocks -N --limit --json -q --quiet" -- "$word")) && return
            ;;
        help)
            COMPREPLY=($(compgen -W "keep back check info export edit undo log forget diff pixels fit view rescue help" -- "$word"))
            return
            ;;
    esac
    compopt -o filenames 2> /dev/null
    IFS=$'\n'
    COMPREPLY=($(compgen -f -- "$word"))
}

complete -F _aecp aecp
