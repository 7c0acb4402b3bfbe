# Made by tools/manual --write out of the words of tools/pnfs.

_pnfs_names() {
    [ -r "$1" ] && awk -v table="[[$2]]" -v letter="$3" '
        /^[ \t]*\[/ { inside = index($0, table) }
        inside && /^[ \t]*number[ \t]*=/ { sub(/^[^=]*=[ \t]*/, ""); sub(/[^0-9].*/, ""); print letter $0 }' "$1"
}

_pnfs() {
    local word=${COMP_WORDS[COMP_CWORD]} before="" cluster="" command="" kind="" options="" at=0 place
    COMPREPLY=()
    for ((place = 1; place < COMP_CWORD; place++)); do
        before=${COMP_WORDS[place]}
        case $before in
            -c | --cluster) cluster=${COMP_WORDS[place + 1]/#\~/$HOME}; place=$((place + 1)) ;;
            --client | --patience | --process | --program | --store | --table) place=$((place + 1)) ;;
            -*) before= ;;
            *) if [ -z "$command" ]; then command=$before; else at=$((at + 1)); fi; before= ;;
        esac
    done
    [ "$place" -gt "$COMP_CWORD" ] || before=
    case $before in
        --client) kind=client ;;
        --table) kind=file ;;
        --patience | --process) kind=number ;;
        -c | --cluster | --program | --store) kind=path ;;
    esac
    if [ -z "$before" ]; then
        case $command in
        "") options="-c --cluster --client --program --patience -q --quiet -v --verbose --help put get recall revoke rebuild audit cp status metrics ls watch wait write read declare" ;;
        put)
            options="--resume"
            case $at in
                0) kind=file ;;
            esac
            ;;
        get)
            options=""
            case $at in
                0) kind=file ;;
            esac
            ;;
        recall)
            options=""
            case $at in
                0) kind=file ;;
            esac
            ;;
        revoke)
            options="--wait"
            case $at in
                0) kind=file ;;
            esac
            ;;
        rebuild)
            options="--wait"
            case $at in
                0) kind=file ;;
            esac
            ;;
        audit)
            options="--wait"
            case $at in
                0) kind=file ;;
            esac
            ;;
        cp)
            options="--table --resume"
            kind=path
            ;;
        status)
            options="--json"
            ;;
        metrics)
            options="--store"
            ;;
        ls)
            options=""
            ;;
        watch)
            options=""
            case $at in
                0) kind=number ;;
            esac
            ;;
        wait)
            options="--process"
            kind=party
            ;;
        write)
            options=""
            case $at in
                0) kind=file ;;
                1) kind=number ;;
            esac
            ;;
        read)
            options=""
            case $at in
                0) kind=file ;;
                1) kind=number ;;
                2) kind=number ;;
            esac
            ;;
        declare)
            options="--even-if-alive"
            case $at in
                0) kind=drive ;;
            esac
            ;;
        esac
    fi
    if [ -n "$options" ] && { [ -z "$kind" ] || [[ $word == -* ]]; }; then
        mapfile -t COMPREPLY < <(compgen -W "$options" -- "$word")
        return
    fi
    case $kind in
        file) mapfile -t COMPREPLY < <(compgen -W "$(_pnfs_names "$cluster" file f)" -- "$word") ;;
        drive) mapfile -t COMPREPLY < <(compgen -W "$(_pnfs_names "$cluster" drive d)" -- "$word") ;;
        party) mapfile -t COMPREPLY < <(compgen -W "server drives $(_pnfs_names "$cluster" drive d)" -- "$word") ;;
        client) mapfile -t COMPREPLY < <(compgen -W "0 1 2 3 4 5 6 7 8 9 10 11 12 13 14 15" -- "$word") ;;
        path) compopt -o filenames 2>/dev/null; mapfile -t COMPREPLY < <(compgen -f -- "$word") ;;
    esac
}

complete -F _pnfs pnfs
