#!/usr/bin/env bash
# Tests the library that C and Rust programs call:
#     tools/test_library.sh [LIBRARY]
# LIBRARY is a libgridlay.a; without it $GRIDLAY_LIBRARY, else out/libgridlay.a, where ./gridlay library builds it.
# It compares the header with the exports, with the symbols of the library, with the declarations of the Rust example and with the
# table of faults; runs the C tests of tools/library/, also under gcc's address and undefined checks; compares all cases of
# crates/corpus/data with what the calls answer; and builds and runs both examples, and the program in README.md.
# What is not tested, since gcc, nm or cargo is missing, is said at the end. The status is 0 where all tests passed, 1 where one did
# not, 2 where there is nothing to test. It needs bash, awk, cmp, timeout; and gcc and cargo for most.
set -u
export LC_ALL=C

top=$(dirname -- "$(dirname -- "$(readlink -f -- "${BASH_SOURCE[0]}")")")
library=${1-${GRIDLAY_LIBRARY-$top/out/libgridlay.a}}
if [ $# -gt 1 ] || [ ! -f "$library" ]; then
    echo "test_library: $library is no library: ./gridlay library builds it, or name one" >&2
    exit 2
fi
library=$(readlink -f -- "$library")
room=$(mktemp -d) || exit 2
trap 'rm -rf -- "$room"' EXIT
passed=0 failed=0 skipped=()

# ---- what a test says

good() {
    passed=$((passed + 1))
    printf 'well: %s\n' "$1"
}

bad() {
    failed=$((failed + 1))
    printf 'FAILED: %s\n' "$1"
    [ ! -s "$room/said" ] || head -n 20 -- "$room/said" | sed 's/^/    /'
}

# holds TITLE COMMAND..: the command ends well; else what it said is shown.
holds() {
    local title=$1
    shift
    if "$@" >"$room/said" 2>&1; then
        good "$title"
    else
        bad "$title"
    fi
}

has() {
    command -v "$1" >/dev/null 2>&1
}

# ---- the header

declared() {
    local language=$1
    shift
    awk -v language="$language" -f "$top/tools/library/declared.awk" "$@" | sort
}

# Calls, structs and answers are declared three times: in the header, by the exports, and for Rust.
declared c "$top/include/gridlay.h" >"$room/all"
grep -v '^number GRIDLAY_FAULT_' "$room/all" >"$room/header"
declared rust "$top"/crates/gridlay_c/src/*.rt >"$room/exports"
declared rust "$top/examples/rust/src/raw.rs" >"$room/rust"
holds "the header declares what the sources export" diff "$room/header" "$room/exports"
holds "the Rust example declares what the header does" diff "$room/header" "$room/rust"
holds "the header has calls, structs and answers" test "$(cut -d ' ' -f 1 "$room/header" | uniq -c | tr -s ' \n' ' ')" = " 13 call 9 number 4 struct "

# The numbers of faults are those of the table in FORMAT.md.
sed -n 's/^number GRIDLAY_FAULT_//p' "$room/all" | sort >"$room/numbers"
# shellcheck disable=SC2016
sed -nE 's/^\| ([0-9]+) \| `([a-z-]+)` \|.*/\2 \1/p' "$top/docs/FORMAT.md" | tr 'a-z-' 'A-Z_' | sort >"$room/table"
holds "the numbers of faults are those of docs/FORMAT.md" diff "$room/numbers" "$room/table"

# The library has these calls and no other name, and takes from the system nothing but memory.
if has nm; then
    sed -n 's/^call \([a-z_]*\) .*/\1/p' "$room/header" >"$room/calls"
    nm --defined-only --extern-only "$library" | sed -n 's/^[0-9a-f]* [A-Z] //p' | grep -v '^rattle_' | sort >"$room/defined"
    holds "the library has the calls of the header and no other names" diff "$room/calls" "$room/defined"
    nm --undefined-only "$library" | sed -n 's/^ *U //p' |
        grep -v -x -E 'rattle_.*|malloc|realloc|free|mem(cpy|move|set|cmp)|bcmp|__u?(div|mod)ti3' >"$room/wanted"
    holds "the library takes only memory, bytes and division of 128 bits from elsewhere" cmp "$room/wanted" /dev/null
else
    skipped+=("which names the library has: nm is not installed")
fi

# ---- C

flags=(-D_GNU_SOURCE -Wall -Wextra -Werror -g -O1 -I "$top/include")
# shellcheck disable=SC2054
wraps=(-Wl,--wrap=malloc -Wl,--wrap=realloc -Wl,--wrap=free)
checks=(-fsanitize=address -fsanitize=undefined -fno-sanitize-recover=undefined)

# compile OUT SOURCE [FLAG..]: links a program with the library.
compile() {
    gcc -std=c11 "${flags[@]}" "${@:3}" "$2" "$library" -o "$1"
}

# program_in_readme: the C program of README.md, and below it what it prints.
program_in_readme() {
    awk -v program="$room/readme.c" -v prints="$room/readme.out" '
        /^## / { inside = /Use it as a library/ }
        inside && /^    / { print substr($0, 5) > (blocks ? prints : program); open = 1; next }
        inside && open && !/^$/ { blocks++; open = 0 }' "$top/README.md"
    [ -s "$room/readme.c" ] && [ -s "$room/readme.out" ]
}

# prints PROGRAM FILE: what a program prints is the file.
prints() {
    timeout 60 "$1" >"$room/out" && diff "$room/out" "$2"
}

# agrees PROGRAM WORDS: the program agrees with all cases of these words.
agrees() {
    GRIDLAY_WORDS=$2 "$top/tools/compare_cases.sh" "$1"
}

test_c() {
    local name
    for name in c99 c11 c17; do
        holds "the header is read as $name" gcc -std=$name -pedantic -Wall -Wextra -Werror -fsyntax-only -x c "$top/include/gridlay.h"
    done
    if has g++; then
        holds "the header is read as C++" g++ -pedantic -Wall -Wextra -Werror -fsyntax-only -x c++ "$top/include/gridlay.h"
    else
        skipped+=("the header as C++: g++ is not installed")
    fi
    echo 'int main(void) { return 0; }' >"$room/none.c"
    if ! gcc "${checks[@]}" "$room/none.c" -o "$room/none" 2>/dev/null; then
        skipped+=("address and undefined checks: this gcc has none")
        checks=()
    fi
    for name in calls edits; do
        holds "$name.c compiles" compile "$room/$name" "$top/tools/library/$name.c" ${checks[@]+"${checks[@]}"}
        holds "$name" timeout 600 "$room/$name"
    done
    holds "growth.c compiles" compile "$room/growth" "$top/tools/library/growth.c" "${wraps[@]}"
    holds "ten thousand edits without growth" timeout 600 "$room/growth"
    holds "memory.c compiles" compile "$room/memory" "$top/tools/library/memory.c" "${wraps[@]}"
    holds "each request for memory refused in turn" timeout 600 "$room/memory"
    holds "as_program.c compiles" compile "$room/held" "$top/tools/library/as_program.c" ${checks[@]+"${checks[@]}"}
    holds "all cases, by a document that is kept" agrees "$room/held" "layout write"
    holds "stateless.c compiles" compile "$room/stateless" "$top/tools/library/stateless.c"
    holds "all cases, by gridlay_answer" agrees "$room/stateless" layout
    holds "bench.c compiles" compile "$room/bench" "$top/tools/library/bench.c"
    holds "bench runs" timeout 600 "$room/bench" "$top/bench/cards240.gridlay" p120 10
    holds "the C example compiles" compile "$room/typing" "$top/examples/c/typing.c"
    holds "the C example prints what it should" prints "$room/typing" "$top/examples/c/typing.out"
    holds "README.md has a program" program_in_readme
    holds "it compiles" compile "$room/readme" "$room/readme.c"
    holds "it prints what stands below it" prints "$room/readme" "$room/readme.out"
}

if has gcc; then
    test_c
else
    skipped+=("all that is written in C: gcc is not installed")
fi

# ---- Rust

in_rust() {
    (cd "$top/examples/rust" && GRIDLAY_LIBRARY=$library CARGO_TARGET_DIR=$room/target cargo "$@")
}

if has cargo; then
    holds "the Rust example compiles" in_rust build --offline --locked
    holds "the Rust example prints what it should" prints "$room/target/debug/gridlay" "$top/examples/rust/drag.out"
    holds "the tests of the Rust wrapper" in_rust test --offline --locked
else
    skipped+=("the Rust example: cargo is not installed")
fi

printf '%d tests passed, %d failed\n' "$passed" "$failed"
for text in ${skipped[@]+"${skipped[@]}"}; do
    printf 'not tested: %s\n' "$text"
done
[ "$failed" -eq 0 ]
