# To be sourced: tells on standard error, where that is a terminal, what goes on and for how long.
#
#     ticker TEXT [COMMAND ..]     begins; behind the text stands what the command prints, where one is named
#     ticker_end                   ends, and clears the line
ticker_process=

ticker() {
    [ -t 2 ] || return 0
    local text=$1 began=$SECONDS
    shift
    while :; do
        printf '\r\033[K%s%s, %d:%02d so far' "$text" "$([ $# = 0 ] || "$@")" $(((SECONDS - began) / 60)) $(((SECONDS - began) % 60)) >&2
        sleep 2
    done &
    ticker_process=$!
}

ticker_end() {
    [ -n "$ticker_process" ] || return 0
    kill "$ticker_process" 2> /dev/null || true
    wait "$ticker_process" 2> /dev/null || true
    ticker_process=
    printf '\r\033[K' >&2
}
