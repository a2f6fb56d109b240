#!/usr/bin/env bash
# Writes each document of the cases, and tries what was written:
#     tools/test_write.sh [PROGRAM]
# For each input in crates/corpus/data the word `write` writes the document that its script leaves, where the document reads. What
# is written has to be written again as the same bytes, and to be laid out as the last document of the input is. Where the
# document is refused, `write` has to say so as `layout` does.
# It tells how many inputs there are, and what became of them. PROGRAM is the built program; without it $GRIDLAY_PROGRAM, else the one
# that the gate leaves in crates/gridlay/out.
# The status is 0 where all is so, 1 where something is not, 2 where there is nothing to try.
# It needs bash, awk, cmp and timeout, and no kit.
set -u
export LC_ALL=C

# shellcheck source=program.sh
. "$(dirname -- "$(readlink -f -- "${BASH_SOURCE[0]}")")/program.sh"
take_program "$@"
inputs=0 read=0 same=0 alike=0 refused=0 long=0 other=0 bad=0

# run WORD INPUT OUTPUT: runs the program on an input; sets `status`.
run() {
    status=0
    timeout 60 "$program" "$1" <"$2" >"$3" 2>/dev/null || status=$?
}

# The boxes of the last layout of an output. (a box may be called `layout`: its line has five words)
last_boxes() {
    awk '$1 == "layout" && NF == 2 { text = ""; next } NF == 5 { text = text $0 "\n" } END { printf "%s", text }' "$1"
}

differs() {
    bad=$((bad + 1))
    printf '%s: %s\n' "$1" "$2"
}

# try_written NAME INPUT: tries what was written for an input.
try_written() {
    read=$((read + 1))
    run write "$room/written" "$room/again"
    if [ "$status" -eq 0 ] && cmp -s "$room/written" "$room/again"; then
        same=$((same + 1))
    else
        differs "$1" "written again it ends with status $status, and $(cmp -- "$room/written" "$room/again" 2>&1 | head -n 1)"
    fi
    run layout "$2" "$room/out"
    last_boxes "$room/out" >"$room/wanted"
    run layout "$room/written" "$room/out"
    if [ "$status" -eq 0 ] && cmp -s <(sed 1d "$room/out") "$room/wanted"; then
        alike=$((alike + 1))
    else
        differs "$1" "what is written is laid out with status $status, and not as the document of the input"
    fi
}

# try_refused NAME INPUT: the document is refused, and `layout` says so too.
try_refused() {
    refused=$((refused + 1))
    run layout "$2" "$room/out"
    if [ "$status" -ne 2 ] || ! cmp -s "$room/written" "$room/out"; then
        differs "$1" "write refuses the document, and layout ends with status $status and another line"
    fi
}

for input in "$data"/*/*.in; do
    [ -e "$input" ] || stop "$data holds no case"
    inputs=$((inputs + 1))
    name=${input#"$data"/}
    run write "$input" "$room/written"
    case $status in
        0 | 3) try_written "$name" "$input" ;;
        2) try_refused "$name" "$input" ;;
        7 | 8)
            [ "$status" -ne 8 ] || long=$((long + 1))
            [ "$status" -ne 7 ] || other=$((other + 1))
            [ ! -s "$room/written" ] || differs "$name" "the status is $status, and something was written" ;;
        *) differs "$name" "write ends with status $status" ;;
    esac
done
printf '%d inputs: %d documents are refused, %d have a line that is too long, %d inputs are too long\n' "$inputs" "$refused" "$long" "$other"
printf '%d documents were written: %d are written again as the same bytes, %d are laid out as the document of the input\n' "$read" "$same" "$alike"
[ "$bad" -eq 0 ]
