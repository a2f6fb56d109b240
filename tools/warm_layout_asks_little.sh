#!/usr/bin/env bash
# Counts what a layout of which all is kept asks of the system, by the calls of the library:
#     tools/warm_layout_asks_little.sh [LIBRARY]
# The requests for memory of a run are the greatest number whose refusal changes what the run ends with. One run opens a grid of 16
# columns with 256 leaves and lays it out; a second run lays it out twice, and may have at most 32 requests more.
# LIBRARY is a libgridlay.a; without it $GRIDLAY_LIBRARY, else out/libgridlay.a, where ./gridlay library builds it.
# The status is 0 where it has no more, 1 where it has, 2 where there is nothing to try. It needs gcc and awk.
set -u

# shellcheck source=program.sh
. "$(dirname -- "$(readlink -f -- "${BASH_SOURCE[0]}")")/program.sh"
take_library "$@"
make_twice
awk 'BEGIN {
    print "gridlay 1\nviewport 1000 600\nmain grid { grid-template-columns: repeat(16, 1fr) }"
    for (i = 0; i < 256; i++) print "  n" i " leaf 1 1"
}' | timeout 600 "$room/twice" warm
