#!/usr/bin/env bash
# Builds the library that C and Rust programs call, and writes where it lies on standard output:
#     tools/library.sh               proves each crate that it stands on, and builds out/libgridlay.a
#     tools/library.sh --unproved    compiles the sources as they are, in some minutes, to out/unproved/libgridlay.a
# `./gridlay library` calls this script. It needs the kit's command rt.
set -u

# shellcheck source=../front/build.sh
. "$(dirname -- "$(dirname -- "$(readlink -f -- "${BASH_SOURCE[0]}")")")/front/build.sh"
# shellcheck source=module.sh
. "$top/tools/module.sh"

mapfile -t crates < <(crates_of gridlay_c)
proved=$top/crates/gridlay_c/out/libgridlay_c.a

# join ARCHIVE FILE..: one archive of object files and archives, in the place of an older one.
join() {
    local archive=$1 file
    shift
    mkdir -p "$(dirname -- "$archive")" && mkdir "$work/parts" || return
    {
        echo "create joined.a"
        for file in "$@"; do
            cp -- "$file" "$work/parts/" || return
            case $file in
                *.a) echo "addlib parts/${file##*/}" ;;
                *) echo "addmod parts/${file##*/}" ;;
            esac
        done
        echo save
        echo end
    } >"$work/script" && (cd "$work" && "$kit/toolchain/bin/llvm-ar" -M <script) && mv -- "$work/joined.a" "$archive"
}

build_proved() {
    library=$top/out/libgridlay.a
    if is_newer "$library" "${crates[@]}"; then
        say "the library is built already from these sources"
        return
    fi
    rm -f -- "$library"
    build "the library" "${crates[@]}"
    join "$library" "$proved" "$kit/c/liblibc_c.a"
}

build_unproved() {
    library=$top/out/unproved/libgridlay.a
    if is_newer "$library" "${crates[@]}"; then
        say "the library is compiled already from these sources; nothing is proved of it"
        return
    fi
    say "nothing is proved of this library: the sources are compiled as they are, in some minutes"
    catch_library "$kit" "$work" "$top" || {
        cat -- "$work/log" >&2
        say "the library was not compiled"
        return 1
    }
    "$kit/toolchain/bin/clang" --target=x86_64-unknown-linux-gnu --no-default-config -O2 -fPIC -c -x ir "$work/library.ll" \
        -o "$work/gridlay.o" && join "$library" "$work/gridlay.o" "$kit/c/liblibc_c.a"
}

case $#:${1-} in
    0:) wanted=build_proved ;;
    1:--unproved) wanted=build_unproved ;;
    *)
        say "call it as  ./gridlay library, or ./gridlay --unproved library"
        exit 64 ;;
esac
need_rt
kit=$(dirname -- "$(dirname -- "$(readlink -f -- "$(command -v rt)")")")
work=$(mktemp -d) || exit 70
trap 'rm -rf -- "$work"' EXIT
"$wanted" || exit 70
say "the library is $library, its header include/gridlay.h:  gcc -Iinclude PROGRAM.c $(realpath --relative-to="$top" "$library")"
printf '%s\n' "$library"
