#!/usr/bin/env bash
# Refuses each request of a program for memory in turn:
#     tools/refuse_memory.sh [PROGRAM]
# On documents of crates/corpus/data/rows, a grid with a subgrid in a subgrid after each edit that reaches another part of it and
# after three that are taken back at once, which is written too, and one of 24 cards, the program is run once with all of its
# requests, which are counted, and then once for each of them with that one refused. Each such run has to end as if nothing had been refused, or with
# status 6 and a beginning of the output. For each input it is told how many requests there are, how many refusals changed the
# outcome, and the greatest number of one that did.
# PROGRAM is the built program; without it $GRIDLAY_PROGRAM, else the one that the gate leaves in crates/gridlay/out.
# The status is 0 where all runs ended so, 1 where one did not, 2 where there is nothing to try.
# It needs gcc, for tools/memory/shim.c, which stands before malloc, so the program has to take the C library's when it runs.
set -u
export LC_ALL=C

# shellcheck source=program.sh
. "$(dirname -- "$(readlink -f -- "${BASH_SOURCE[0]}")")/program.sh"
take_program "$@"
# shellcheck source=memory/inputs.sh
. "$top/tools/memory/inputs.sh"
command -v gcc >/dev/null || stop "gcc is not installed"
gcc -shared -fPIC -O2 -Wall -Wextra -Werror -fno-builtin -o "$room/shim.so" "$top/tools/memory/shim.c" || stop "the shim was not compiled"
head -c 8 /dev/zero >"$room/none"
bad=0

# run INPUT NUMBER WORD: runs the program on an input with the request of this number refused, none for 0; sets `requests` and
# `status`.
run() {
    cp "$room/none" "$room/count"
    status=0
    # (the shell would tell when the system ends the program)
    { timeout 60 env LD_PRELOAD="$room/shim.so" MEMORY_COUNT="$room/count" MEMORY_REFUSED="$2" "$program" "$3"; } \
        <"$1" >"$room/out" 2>"$room/err" || status=$?
    requests=$(($(od -An -tu8 "$room/count")))
}

# Whether the last run wrote a beginning of what is wanted.
is_beginning() {
    cmp -s -n "$(wc -c <"$room/out")" "$room/out" "$room/wanted"
}

# refuse TITLE INPUT [WORD]: refuses each request on an input in turn, under the word `layout` or another.
refuse() {
    local title=$1 input=$2 word=${3-layout} wanted number all changed=0 last=0
    run "$input" 0 "$word"
    all=$requests
    wanted=$status
    mv "$room/out" "$room/wanted"
    [ "$all" -gt 0 ] || stop "the shim saw no request for memory of $program: does it take another malloc than the C library's?"
    for ((number = 1; number <= all; number++)); do
        run "$input" "$number" "$word"
        if [ "$status" -eq "$wanted" ] && cmp -s "$room/out" "$room/wanted"; then
            continue
        fi
        changed=$((changed + 1))
        last=$number
        if [ "$status" -ne 6 ] || ! is_beginning; then
            bad=$((bad + 1))
            printf '%s: with request %d refused the status is %d, and what is written is %s beginning\n' "$title" "$number" "$status" \
                "$(is_beginning && echo a || echo no)"
        fi
    done
    printf '%-44s %6d requests, %6d refusals changed the outcome, the last is %d\n' "$title" "$all" "$changed" "$last"
}

for_each_input refuse
reached 'remove s' 'set b width: 5px' 'move b main 0' 'undo 3' 'redo 2'
refuse "lent-names-move, undo 3 and redo 2" "$room/input"
refuse "lent-names-move, undo 3 and redo 2, written" "$room/input" write
printf 'runs that ended otherwise: %d\n' "$bad"
[ "$bad" -eq 0 ]
