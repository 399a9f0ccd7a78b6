# What bash offers after `count-office`: the path of an office, an order, and the order's options or files.
_count_office() {
    local word=${COMP_WORDS[COMP_CWORD]} options='' files=''
    COMPREPLY=()
    if ((COMP_CWORD == 1)); then
        compopt -o filenames
        mapfile -t COMPREPLY < <(compgen -f -- "$word"; compgen -W '--help --version' -- "$word")
        return
    fi
    if [[ ${COMP_WORDS[1]} == - ]]; then
        if ((COMP_CWORD == 2)); then
            mapfile -t COMPREPLY < <(compgen -W 'check count' -- "$word")
        elif [[ ${COMP_WORDS[2]} == count && $word == -* ]]; then
            mapfile -t COMPREPLY < <(compgen -W 'COUNT_OPTIONS' -- "$word")
        else
            compopt -o filenames
            mapfile -t COMPREPLY < <(compgen -f -- "$word")
        fi
        return
    fi
    if ((COMP_CWORD == 2)); then
        mapfile -t COMPREPLY < <(compgen -W 'ORDERS' -- "$word")
        return
    fi
    case ${COMP_WORDS[2]} in
        # CASES
    esac
    if [[ $word == -* ]]; then
        mapfile -t COMPREPLY < <(compgen -W "$options" -- "$word")
    elif [[ -n $files ]]; then
        compopt -o filenames
        mapfile -t COMPREPLY < <(compgen -f -- "$word")
    fi
}
complete -F _count_office count-office
