# shellcheck shell=bash
# Runs the program: its output is this script's, byte for byte, and its status too. On standard error come a line for each status
# that tells of trouble, and, where that is a terminal or --explain was said, what each refusal means.

front=$(dirname -- "$(readlink -f -- "${BASH_SOURCE[0]}")")
# shellcheck source=build.sh
. "$front/build.sh"
# shellcheck source=explain.sh
. "$front/explain.sh"

program=
# So many refusals are explained; more of them are counted.
most_explained=20

# explain_all SHOWN FILE: explains each refusal of an output, which is read as it comes. It ends where the output does.
# (a box may be called `refused`: its line has five words)
explain_all() {
    local edit place name count=0
    while read -r _ edit place name; do
        count=$((count + 1))
        [ "$count" -gt "$most_explained" ] || explain_refusal "$1" "$2" "$edit" "$place" "$name"
    done < <(LC_ALL=C grep -a --line-buffered -E '^refused [0-9]+ [0-9]+:[0-9]+ [a-z-]+$')
    if [ "$count" -gt "$most_explained" ]; then
        printf '%s: %d more edits are refused\n' "$1" $((count - most_explained))
    fi
}

# say_status STATUS WORD: what a status says, beside those that the output tells itself.
say_status() {
    case $1 in
        0 | 2) ;;
        3) [ "$2" != write ] || say "some edits were refused, and the document is written without them: ./gridlay check FILE tells which" ;;
        4) say "the input could not be read to its end: what is whole before that was answered" ;;
        5) say "the output could not be written: what was written is the beginning of it" ;;
        6) say "memory was wanting: what was written is the beginning of the output" ;;
        7) say "the input has more than 67108864 bytes: what is whole before that was answered" ;;
        8) say "a line of the document would have more than 65536 bytes, so nothing was written" ;;
        64) say "the program does not take these words; ./gridlay --help tells all words" ;;
        139) say "the system ended the program: most likely the stack is too small, README.md tells how much it needs" ;;
        *) [ "$1" -lt 129 ] || [ "$1" -eq 141 ] || say "the program was ended by signal $(($1 - 128))" ;;
    esac
}

# How the input is called, and the file that has it, where it is one and can be read again: the FILE, or what standard input comes
# from.
name_input() {
    shown=${1:-'<stdin>'} input=''
    if [ -n "$1" ]; then
        [ ! -f "$1" ] || input=$(readlink -f -- "$1")
    elif [ -f /dev/stdin ] && grep -q '^pos:[[:space:]]*0$' "/proc/$$/fdinfo/0" 2>/dev/null; then
        input=$(readlink -f /dev/stdin)
        shown=$(realpath --relative-base="$PWD" -- "$input" 2>/dev/null) || shown=$input
    fi
    [ -r "$input" ] || input=''
}

# answer FILE WORD..: runs the program with these words on FILE, or on standard input where FILE is empty.
answer() {
    local file=$1 shown input status
    shift
    name_input "$file"
    [ -z "$file" ] || exec <"$file" || exit 64
    if [ -n "${explain-}" ] || [ -t 2 ]; then
        run_and_explain "$@"
    else
        "$program" "$@"
    fi
    status=$?
    say_status "$status" "$1"
    exit "$status"
}

# Runs the program with a look at its output. Where the input is a file, what is refused is explained after the output; else it is
# recorded as it comes, and each refusal is explained at once.
run_and_explain() {
    local room status statuses recorder=''
    room=$(mktemp -d) || exit 70
    # shellcheck disable=SC2064
    trap "rm -rf -- '$room'" EXIT
    mkfifo "$room/output" "$room/feed" || exit 70
    if [ -n "$input" ]; then
        explain_all "$shown" "$input" <"$room/output" >"$room/said" &
    else
        # (a line stands in the record before the program has it)
        tee -- "$room/feed" <&0 >"$room/record" 2>/dev/null &
        recorder=$!
        exec <"$room/feed"
        explain_all "$shown" "$room/record" <"$room/output" >&2 &
    fi
    "$program" "$@" | tee -- "$room/output" 2>/dev/null
    statuses=("${PIPESTATUS[@]}")
    status=${statuses[0]}
    # What tee could not write the program could not write.
    if [ "${statuses[1]}" -ne 0 ] && [ "$status" -lt 4 ]; then
        status=5
    fi
    [ -z "$recorder" ] || kill "$recorder" 2>/dev/null
    wait
    [ ! -s "$room/said" ] || cat -- "$room/said" >&2
    return "$status"
}
