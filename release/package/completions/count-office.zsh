#compdef count-office
# What zsh offers after `count-office`: the path of an office, an order, and the order's options or files.
_count_office() {
    local -a orders
    orders=(
        # ORDERS
    )
    if ((CURRENT == 2)); then
        if [[ $PREFIX == -* ]]; then compadd -- --help --version; else _files; fi
    elif [[ $words[2] == - ]]; then
        if ((CURRENT == 3)); then
            compadd check count
        elif [[ $words[3] == count && $PREFIX == -* ]]; then
            compadd -- COUNT_OPTIONS
        else
            _files
        fi
    elif ((CURRENT == 3)); then
        _describe order orders
    elif [[ $PREFIX == -* ]]; then
        case $words[3] in
            # OPTIONS
        esac
    else
        case $words[3] in (FILES) _files ;; esac
    fi
}
_count_office "$@"
