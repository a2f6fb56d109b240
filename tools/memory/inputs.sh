# shellcheck shell=bash disable=SC2154
# The inputs on which requests for memory are refused. (tools/refuse_memory.sh and tools/lay_out_again.sh read this file, after
# program.sh.)

# reached LINE..: the input that is row lent-names-move with these lines for its script.
reached() {
    sed '/^---$/q' "$data/rows/lent-names-move.in" >"$room/input"
    printf '%s\n' "$@" >>"$room/input"
}

# for_each_input COMMAND..: calls the command with the title and the file of each input: three rows, and a grid with a subgrid in a
# subgrid after each edit that reaches another part of it.
for_each_input() {
    local name edit
    for name in repeated-names lent-names-move cards; do
        "$@" "$name" "$data/rows/$name.in"
    done
    for edit in 'set b width: 5px' 'set p grid-row: 1' 'set t row-gap: 2px' 'viewport 10 10'; do
        reached "$edit"
        "$@" "lent-names-move, $edit" "$room/input"
    done
}
