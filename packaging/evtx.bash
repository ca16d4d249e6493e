# Completion for bash, of evtx, evtx_list, evtx_carve, evtx_index and evt_list. It is installed under the name of each, by which bash-completion finds it.

# An option, or a file. A record number is for the user to type.
_evtx_files() {
    COMPREPLY=()
    case ${COMP_WORDS[COMP_CWORD]} in
        -*) mapfile -t COMPREPLY < <(compgen -W '--help --version' -- "${COMP_WORDS[COMP_CWORD]}") ;;
        *) compopt -o default ;;
    esac
}

# A subcommand, and then what its program takes.
_evtx() {
    COMPREPLY=()
    if [ "$COMP_CWORD" -eq 1 ]; then
        mapfile -t COMPREPLY < <(compgen -W 'list carve index help --help --version' -- "${COMP_WORDS[1]}")
    else
        case ${COMP_WORDS[1]} in
            list | carve | index) _evtx_files ;;
        esac
    fi
}

complete -F _evtx evtx
complete -F _evtx_files evtx_list evtx_carve evtx_index evt_list
