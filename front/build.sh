# shellcheck shell=bash
# The program: which one is run, whether it is built, and how it is proved and built. The library is proved and built so too.

front=$(dirname -- "$(readlink -f -- "${BASH_SOURCE[0]}")")
# shellcheck source=words.sh
. "$front/words.sh"

built=$top/crates/gridlay/out/gridlay

say() {
    printf 'gridlay: %s\n' "$*" >&2
}

# is_newer FILE CRATE..: whether a file stands there and is newer than all sources of the crates.
is_newer() {
    local file=$1 name
    shift
    [ -f "$file" ] || return 1
    for name in "$@"; do
        [ -z "$(find "$top/crates/$name" "$top/crates.txt" -name out -prune -o -type f \
            \( -name '*.rt' -o -name '*.antt' -o -name crates.txt \) -newer "$file" -print -quit)" ] || return 1
    done
}

# Whether the program stands there and is newer than all of its sources.
is_built() {
    # shellcheck disable=SC2086
    [ -x "$built" ] && is_newer "$built" $program_crates
}

need_rt() {
    command -v rt >/dev/null 2>&1 && return
    say "the command rt of Rattle's kit is not installed: without it nothing can be built (README.md tells more)"
    exit 69
}

# build WHAT CRATE..: proves each crate, and builds the program or the library, which comes last.
build() {
    need_rt
    local what=$1 log name at=0
    shift
    log=$(mktemp) || exit 70
    say "proving and building $what; where nothing was proved here before, this takes more than an hour on four processors"
    for name in "$@"; do
        at=$((at + 1))
        say "proving $name, $at of $#"
        build_crate "$name" "$log" || {
            cat "$log" >&2
            rm -f -- "$log"
            say "$name was not proved, so $what was not built"
            exit 70
        }
    done
    rm -f -- "$log"
}

# How many searches for proofs run side by side: GRIDLAY_JOBS where it is set, else one for each processor and each 4 GB of free memory, at
# most four. (rt itself reckons with two to three times the memory that the layers of layout take, and would run one.)
jobs() {
    local memory=0 most
    most=$(nproc 2>/dev/null) || most=1
    [ ! -r /proc/meminfo ] || memory=$(awk '/^MemAvailable:/ { print int($2 / 4000000) }' /proc/meminfo)
    [ "$most" -le "$memory" ] || most=$memory
    [ "$most" -le 4 ] || most=4
    [ "$most" -ge 1 ] || most=1
    echo "${GRIDLAY_JOBS:-$most}"
}

# build_crate NAME LOG: proves one crate. `rt lib` proves a library where it builds it, so that the next crate need not build it once
# more, as it would after `rt check`.
build_crate() {
    case $1 in
        gridlay)
            # `rt run` builds what is proved, and runs it; on the word `build` the program reads nothing and ends with status
            # 64. So whether it was built is seen by the file, and an older one has to go.
            (cd "$top/crates/$1" && rt check) </dev/null >"$2" 2>&1 || return
            rm -f -- "$built" "$built.stamp"
            (cd "$top/crates/$1" && rt run -- build) </dev/null >"$2" 2>&1
            [ -x "$built" ] ;;
        *) (cd "$top/crates/$1" && rt lib --jobs "$(jobs)") </dev/null >"$2" 2>&1 ;;
    esac
}

# Sets `program`: the one that is given, one that is compiled as it is, or the one that is proved, which is built first.
find_program() {
    if [ -n "${GRIDLAY_PROGRAM-}" ]; then
        program=$(readlink -f -- "$GRIDLAY_PROGRAM") || program=
        if [ ! -f "$program" ] || [ ! -x "$program" ]; then
            say "GRIDLAY_PROGRAM is $GRIDLAY_PROGRAM, which is no program"
            exit 69
        fi
    elif [ -n "${unproved-}" ]; then
        need_rt
        say "nothing is proved of this run: the sources are compiled as they are, in some minutes"
        program=$front/unproved
    else
        program=$built
        # shellcheck disable=SC2086
        is_built || build "the program" $program_crates
        # Large pages of memory where the system has them: a large document is all over its memory, and an edit of it then takes
        # less time.
        export GLIBC_TUNABLES="${GLIBC_TUNABLES:+$GLIBC_TUNABLES:}glibc.malloc.hugetlb=1"
    fi
}

# What is known of the program, in one line.
tell_program() {
    if [ -n "${GRIDLAY_PROGRAM-}" ]; then
        echo "$GRIDLAY_PROGRAM is taken, and whether it is proved is not known here"
    elif is_built; then
        echo "proved and built, $built"
    elif [ -x "$built" ]; then
        echo "built, but older than its sources: the next call proves and builds it again"
    else
        echo "not built here: the next call proves and builds it"
    fi
}

# The kit, the commit, and the program, for `--version`.
print_version() {
    local commit kit
    commit=$(git -C "$top" rev-parse --short HEAD 2>/dev/null) || commit='of no known commit'
    [ -z "$(git -C "$top" status --porcelain --untracked-files=no 2>/dev/null)" ] || commit="$commit, with changes"
    kit=$(rt version 2>/dev/null) || kit='rt is not installed here'
    printf 'gridlay %s\nkit     %s\nprogram %s\n' "$commit" "$kit" "$(tell_program)"
}
