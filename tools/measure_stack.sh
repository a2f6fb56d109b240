#!/usr/bin/env bash
# Measures how much stack a program needs:
#     tools/measure_stack.sh [PROGRAM]
# For one node, and for 64 levels of grids, of flex containers and of subgrids, with an edit of the deepest node, it prints the least
# limit of the stack (`ulimit -s`, in KiB) with which the program gives the same output as without a limit.
# PROGRAM is the built program; without it $GRIDLAY_PROGRAM, else the one that the gate leaves in crates/gridlay/out.
set -u

# shellcheck source=program.sh
. "$(dirname -- "$(readlink -f -- "${BASH_SOURCE[0]}")")/program.sh"
take_program "$@"

# document LEVELS KIND: that many levels of a kind, a leaf on the last one
document() {
    awk -v levels="$1" -v kind="$2" 'BEGIN {
        print "gridlay 1\nviewport 1000 1000"
        for (i = 0; i < levels - 1; i++) {
            style = kind == "flex" ? "padding: 1px" : "padding: 1px; grid-template-columns: 1fr"
            if (kind == "subgrid" && i > 0) style = "padding: 1px; grid-template-columns: subgrid; grid-template-rows: subgrid"
            printf "%*sn%d %s { %s }\n", 2 * i, "", i, kind == "flex" ? "flex" : "grid", style
        }
        printf "%*slast words 10 2 30 20 30\n---\nset last width: 50px\n", 2 * i, ""
    }'
}

# runs_in KIB FILE: whether the output is the same with this limit
runs_in() {
    # (the shell would tell each time that the system ended the program)
    { (ulimit -S -s "$1" && exec env -i "$program" layout) <"$2" >"$room/out"; } 2>/dev/null && cmp -s "$room/out" "$room/wanted"
}

# measure TITLE LEVELS KIND
measure() {
    local low=0 high=65536 middle
    document "$2" "$3" >"$room/in"
    "$program" layout <"$room/in" >"$room/wanted" || {
        printf '%s: the program ended with status %d\n' "$1" $?
        return 1
    }
    runs_in "$high" "$room/in" || {
        printf '%s: more than %d KiB\n' "$1" "$high"
        return
    }
    while [ $((high - low)) -gt 4 ]; do
        middle=$(((low + high) / 2))
        if runs_in "$middle" "$room/in"; then high=$middle; else low=$middle; fi
    done
    printf '%-32s %6d KiB\n' "$1" "$high"
}

measure "one node" 1 grid
measure "64 levels of grids" 64 grid
measure "64 levels of flex containers" 64 flex
measure "64 levels of subgrids" 64 subgrid
