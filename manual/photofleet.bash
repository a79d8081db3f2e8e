# Completion of photofleet for bash.
_photofleet() {
    local word=${COMP_WORDS[COMP_CWORD]} flags=''
    if [ "$COMP_CWORD" = 1 ]; then
        mapfile -t COMPREPLY < <(compgen -W 'plain run batches replay help -h --help -V --version' -- "$word")
        return
    fi
    case ${COMP_WORDS[1]} in
        plain) flags='-h --help' ;;
        run) flags='--workers -h --help' ;;
        batches) flags='-h --help' ;;
        replay) flags='-h --help' ;;
    esac
    if [[ $word = -* ]]; then
        mapfile -t COMPREPLY < <(compgen -W "$flags" -- "$word")
    else
        mapfile -t COMPREPLY < <(compgen -f -- "$word")
    fi
}
complete -o filenames -F _photofleet photofleet
