#!/usr/bin/env bash
# Lays documents out again after want of memory, by the calls of the library:
#     tools/lay_out_again.sh [LIBRARY]
# On the inputs of tools/refuse_memory.sh each request for memory of each layout, the first and that after each edit, is refused in
# turn. Where the layout then answers want of memory, it is called again with all of its memory, and has to have the boxes that the
# document has from scratch.
# LIBRARY is a libgridlay.a; without it $GRIDLAY_LIBRARY, else out/libgridlay.a, where ./gridlay library builds it.
# The status is 0 where all is as it should be, 1 where something is not, 2 where there is nothing to try. It needs gcc.
set -u

# shellcheck source=program.sh
. "$(dirname -- "$(readlink -f -- "${BASH_SOURCE[0]}")")/program.sh"
take_library "$@"
# shellcheck source=memory/inputs.sh
. "$top/tools/memory/inputs.sh"
make_twice
bad=0

# shellcheck disable=SC2317
# again TITLE INPUT: tells what the program says, and where it does not end well all of it.
again() {
    if timeout 600 "$room/twice" again <"$2" >"$room/said"; then
        printf '%-44s %s\n' "$1" "$(sed -n 1p "$room/said")"
    else
        bad=1
        printf '%s:\n' "$1"
        head -n 20 "$room/said"
    fi
}

for_each_input again
exit "$bad"
