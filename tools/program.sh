# shellcheck shell=bash disable=SC2034
# What the tools that try a built program or library share: which one it is, and a room for temporary files. (They read this file.)

top=$(dirname -- "$(dirname -- "$(readlink -f -- "${BASH_SOURCE[0]}")")")
data=$top/crates/corpus/data

# stop TEXT: there is nothing to try.
stop() {
    printf '%s: %s\n' "$(basename -- "$0" .sh)" "$*" >&2
    exit 2
}

# take_program [PROGRAM]: sets `program`, to the one that is named, to $GRIDLAY_PROGRAM, or to the one that the gate leaves in
# crates/gridlay/out; and `room`.
take_program() {
    [ $# -le 1 ] || stop "one PROGRAM, or none"
    program=${1-${GRIDLAY_PROGRAM-$top/crates/gridlay/out/gridlay}}
    if [ ! -f "$program" ] || [ ! -x "$program" ]; then
        stop "$program is no program: build it (./gridlay FILE does so), or name one"
    fi
    program=$(readlink -f -- "$program")
    make_room
}

# take_library [LIBRARY]: sets `library`, to the one that is named, to $GRIDLAY_LIBRARY, or to out/libgridlay.a; and `room`.
take_library() {
    [ $# -le 1 ] || stop "one LIBRARY, or none"
    library=${1-${GRIDLAY_LIBRARY-$top/out/libgridlay.a}}
    [ -f "$library" ] || stop "$library is no library: ./gridlay library builds it, or name one"
    library=$(readlink -f -- "$library")
    make_room
}

# Makes a folder that goes when the tool ends.
make_room() {
    room=$(mktemp -d) || stop "no folder for temporary files"
    trap 'rm -rf -- "$room"' EXIT
}

# make_twice: the program $room/twice, of tools/library/twice.c and the library.
make_twice() {
    command -v gcc >/dev/null || stop "gcc is not installed"
    gcc -std=c11 -D_GNU_SOURCE -Wall -Wextra -Werror -O1 -I "$top/include" -Wl,--wrap=malloc -Wl,--wrap=realloc -Wl,--wrap=free \
        "$top/tools/library/twice.c" "$library" -o "$room/twice" || stop "tools/library/twice.c was not compiled"
}
