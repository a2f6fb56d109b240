#!/usr/bin/env bash
# Times the library on the pages in bench/, into each of which is typed:
#     tools/bench_library.sh [LIBRARY]
# LIBRARY is a libgridlay.a; without it $GRIDLAY_LIBRARY, else out/libgridlay.a, where ./gridlay library builds it.
# Of each page it writes how many boxes it has, the time to open it and that of its first layout, and the time of an edit with all
# boxes read, and with what changed read alone. Times are the processor's. It needs gcc.
set -u

top=$(dirname -- "$(dirname -- "$(readlink -f -- "${BASH_SOURCE[0]}")")")
library=${1-${GRIDLAY_LIBRARY-$top/out/libgridlay.a}}
if [ $# -gt 1 ] || [ ! -f "$library" ]; then
    echo "bench_library: $library is no library: ./gridlay library builds it, or name one" >&2
    exit 2
fi
command -v gcc >/dev/null || {
    echo "bench_library: gcc is not installed" >&2
    exit 2
}
room=$(mktemp -d) || exit 2
trap 'rm -rf -- "$room"' EXIT
gcc -std=c11 -D_GNU_SOURCE -O2 -I "$top/include" "$top/tools/library/bench.c" "$library" -o "$room/bench" || exit 2

# Large pages of memory where the system has them, as for the program.
export GLIBC_TUNABLES="${GLIBC_TUNABLES:+$GLIBC_TUNABLES:}glibc.malloc.hugetlb=1"
printf '%-24s %7s %9s %9s %12s %12s\n' page boxes 'open, ms' 'first, ms' 'all, µs' 'changed, µs'
while read -r page leaf; do
    times=$("$room/bench" "$top/bench/$page.gridlay" "$leaf") || exit 1
    # shellcheck disable=SC2086
    printf '%-24s %7s %9s %9s %12s %12s\n' "$page" $times
done <<'PAGES'
cards240 p120
cards2400 p1200
grid3000 i1500
flex3000 i1500
nestsub6 i160
PAGES
