# How a report is asked for: ./report and the installed veilbuzz read this in. They have set
#   called   how one calls it, as ./report
#   example  a chart that one could name
#   source   where charts come from
#   making   what help says of the program's making, or nothing
#   lacking  what keeps it from running the program
# shellcheck shell=sh disable=SC2154

help() {
    printf 'Prints the report of a chart.\n\n'
    printf '    %-32s%s\n' \
        "$called $example" 'of a file' \
        "$called -" "of what comes on standard input; '-' may be left out where that is no terminal" \
        "$called --help" 'prints this'
    [ -z "$making" ] || printf '\n%s\n' "$making"
    printf '\n%s\n' 'Exit status: 0 after a report, 1 after a refusal, 2 where not all of it could be written; 3 where there is none:'
    printf '%s\n' "$called was called in another way, the file cannot be read, or $lacking."
}

# Says what is wrong and what to do, and ends.
stop() {
    printf '%s: %s\n' "${called##*/}" "$1" >&2
    exit 3
}

# Has the chart that is asked for come on standard input. Where help is asked for, or the call is wrong, it ends.
ask() { # WORDS
    usage="name one chart, as in: $called $example"
    [ $# -le 1 ] || stop "$usage; $called --help says more"
    case ${1--} in
    -h | --help)
        help
        exit
        ;;
    -)
        [ $# -eq 1 ] || [ ! -t 0 ] || stop "$usage; $called --help says more"
        ;;
    *)
        [ -e "$1" ] || stop "there is no file $1; $source"
        [ ! -d "$1" ] || stop "$1 is a folder; $usage"
        [ -r "$1" ] || stop "$1 cannot be read; look at its permissions"
        exec <"$1"
        ;;
    esac
}
