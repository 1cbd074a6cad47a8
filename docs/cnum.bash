# Completions of cnum for bash. Written by tests/texts/manual from the help of the program.
_cnum() {
    local current=${COMP_WORDS[COMP_CWORD]} previous=${COMP_WORDS[COMP_CWORD - 1]}
    local options values= arguments at words=()
    COMPREPLY=()
    case ${COMP_WORDS[1]} in
    find)
        options='--limit --stocks --without-read --shortest --processes --table -h --help' arguments='FILE'
        [[ $previous == --limit ]] && values='2 3 4 5 6 7 8'
        [[ $previous == --processes ]] && values='2 3 4 5 6 7 8'
        ;;
    classify)
        options='--limit --recoverable --without-read --as -h --help' arguments='FILE...'
        [[ $previous == --limit ]] && values='2 3 4 5 6 7 8'
        [[ $previous == --as ]] && values='text json markdown'
        ;;
    lint)
        options='--as --table -h --help' arguments='FILE'
        [[ $previous == --as ]] && values='text json'
        ;;
    check)
        options='--stocks --without-read --shortest --as --table -h --help' arguments='CERT FILE'
        [[ $previous == --as ]] && values='text json'
        ;;
    explain)
        options='--stocks --all --as --table -h --help' arguments='CERT FILE'
        [[ $previous == --as ]] && values='text json'
        ;;
    why)
        options='--limit --stocks --recoverable --without-read --all --as -h --help' arguments='FILE'
        [[ $previous == --limit ]] && values='2 3 4 5 6 7 8'
        [[ $previous == --as ]] && values='text json markdown'
        ;;
    pairs)
        options='--as -h --help' arguments='FILE'
        [[ $previous == --as ]] && values='text json markdown'
        ;;
    changes)
        options='--recoverable --without-read --pairs --as -h --help' arguments='FILE'
        [[ $previous == --as ]] && values='text json markdown'
        ;;
    show)
        options='--recoverable --shortest --without-read --processes --as --object --start --prefix --table -h --help' arguments='CERT FILE'
        [[ $previous == --processes ]] && values='2 3 4 5 6 7 8'
        [[ $previous == --as ]] && values='text json dot promela rust c h'
        [[ $previous == --start ]] && values=' '
        [[ $previous == --prefix ]] && values=' '
        ;;
    draw)
        options='--table -h --help' arguments='FILE'
        ;;
    agree)
        options='--steps --recoverable --shortest --without-read --processes --as --table -h --help' arguments='CERT INPUTS SCHEDULE FILE'
        [[ $previous == --processes ]] && values='2 3 4 5 6 7 8'
        [[ $previous == --as ]] && values='text json'
        ;;
    replay)
        options='--as --table -h --help' arguments='CERT OBJECT START CAPACITY EVENTS FILE'
        [[ $previous == --as ]] && values='text json'
        ;;
    serve)
        options='--as --table -h --help' arguments='CERT OBJECT START CAPACITY CALLS FILE'
        [[ $previous == --as ]] && values='text json'
        ;;
    help)
        options='' arguments='COMMAND...'
        ;;
    esac
    if ((COMP_CWORD == 1)); then
        arguments=COMMAND options='-h --help -V --version'
    elif [[ $values ]]; then
        mapfile -t COMPREPLY < <(compgen -W "$values" -- "$current")
        return
    fi
    if [[ $current == -* ]]; then
        mapfile -t COMPREPLY < <(compgen -W "$options" -- "$current")
        return
    fi
    if [[ $previous == [\<\>]* || $previous == --object || $previous == --table ]]; then
        mapfile -t COMPREPLY < <(compgen -f -- "$current")
        compopt -o filenames 2>/dev/null
        return
    fi
    for ((at = 2; at < COMP_CWORD; at++)); do
        case ${COMP_WORDS[at]} in
        --as | --limit | --object | --prefix | --processes | --start | --table) ((at++)) ;;
        [\<\>]*) ((at++)) ;;
        -* | @) ;;
        *) words+=("${COMP_WORDS[at]}") ;;
        esac
    done
    read -r -a arguments <<<"$arguments"
    at=${#words[@]}
    if ((at >= ${#arguments[@]})) && [[ ${arguments[*]} == *... ]]; then
        at=$((${#arguments[@]} - 1))
    fi
    case ${arguments[at]} in
    COMMAND*)
        mapfile -t COMPREPLY < <(compgen -W 'find classify lint check explain why pairs changes show draw agree replay serve help' -- "$current")
        ;;
    CERT* | OBJECT* | FILE*)
        mapfile -t COMPREPLY < <(compgen -f -- "$current")
        compopt -o filenames 2>/dev/null
        ;;
    INPUTS | SCHEDULE | EVENTS | CALLS)
        if [[ $current == @* ]]; then
            mapfile -t COMPREPLY < <(compgen -f -P @ -- "${current#@}")
        elif [[ $previous == @ ]]; then
            mapfile -t COMPREPLY < <(compgen -f -P @ -- "$current")
        fi
        ;;
    esac
}
complete -F _cnum cnum
