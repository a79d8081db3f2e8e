# Completion of fleet_view for bash.
_fleet_view() {
    local word=${COMP_WORDS[COMP_CWORD]} flags=''
    if [ "$COMP_CWORD" = 1 ]; then
        mapfile -t COMPREPLY < <(compgen -W 'where story page chart fault help -h --help' -- "$word")
        return
    fi
    case ${COMP_WORDS[1]} in
        where) flags='--at --width -h --help' ;;
        story) flags='-h --help' ;;
        page) flags='-h --help' ;;
        chart) flags='--batches -h --help' ;;
        fault) flags='-h --help' ;;
    esac
    if [[ $word = -* ]]; then
        mapfile -t COMPREPLY < <(compgen -W "$flags" -- "$word")
    else
        mapfile -t COMPREPLY < <(compgen -f -- "$word")
    fi
}
complete -o filenames -F _fleet_view fleet_view
