#!/usr/bin/env bash
# Builds the page that lays out while you type, with the engine in it, and writes where it lies on standard output.
#     view/build_engine.sh               from the proved library, which is built first where it is not
#     view/build_engine.sh --unproved    from the sources as they are, in some minutes; nothing is proved of it
#
# The kit builds no WebAssembly with a heap. So the LLVM module of the library is caught on its way to the kit's clang, by a wrapper
# that stands in a copy of the kit made of links; the same clang compiles it for wasm64, and the kit's linker joins it with
# engine/shim.c. The kit itself is not touched. The engine that comes of it is tested and not proved.
# Needed are the kit's command rt, and gzip and base64.
set -euo pipefail

say() { printf 'build_engine: %s\n' "$*" >&2; }

view=$(dirname -- "$(readlink -f -- "${BASH_SOURCE[0]}")")
top=$(dirname -- "$view")
out=$view/out
page=$out/play.html
# shellcheck disable=SC1091
. "$view/assemble.sh"
# shellcheck source=../tools/module.sh
. "$top/tools/module.sh"

is_proved=true
case "$#:${1-}" in
0:) ;;
1:--unproved) is_proved=false ;;
*)
    say "call it as  view/build_engine.sh [--unproved]"
    exit 64
    ;;
esac
for needed in rt gzip base64; do
    command -v "$needed" >/dev/null || {
        say "the command $needed is not installed"
        exit 69
    }
done
kit=$(dirname -- "$(dirname -- "$(readlink -f -- "$(command -v rt)")")")
if [ ! -x "$kit/toolchain/bin/clang" ]; then
    say "the kit in $kit has no clang"
    exit 69
fi
kit_version=$(rt version)

# What the engine is made of: as long as it is the same, the engine is not built again.
sum_of_sources() {
    printf '%s %s\n' "$is_proved" "$kit_version"
    declare -f build_engine
    cat "$view/engine/shim.c" "$top/tools/module.sh" "$top/tools/library/all_calls.txt" "$top/include/gridlay.h" "$top/crates.txt"
    find "$top/crates" -name out -prune -o -type f \( -name '*.rt' -o -name '*.antt' \) -print0 | sort -z | xargs -0 cat
}

# Has the library compiled once more, by the kit of links. What a build leaves in the crate's out/ is put back afterwards.
compile_proved() {
    say "the proved library first (./gridlay library builds it where it is not built)"
    "$top/gridlay" library >/dev/null || return 1
    say "compiling it once more to catch its module: some minutes"
    wrap_kit "$kit" "$work"
    mkdir "$work/before"
    cp -p "$top"/crates/gridlay_c/out/libgridlay_c.a "$work/before/"
    touch "$work/is_kept"
    (cd "$top/crates/gridlay_c" && "$work/kit/bin/rt" lib </dev/null >"$work/log" 2>&1) || status=1
    put_back
    module=$(caught_module "$work")
}

# Puts back what the build before had left, also where the script is broken off.
put_back() {
    [ ! -f "$work/is_kept" ] || cp -p "$work"/before/* "$top/crates/gridlay_c/out/"
    rm -f "$work/is_kept"
}

compile_unproved() {
    say "compiling the sources as they are, without any proof: some minutes"
    catch_library "$kit" "$work" "$top" || status=1
    module=$work/library.ll
}

# The module for wasm64, and its link: the stack lies lowest, so that what overflows it traps.
build_engine() {
    local module='' status=0 exports
    if $is_proved; then compile_proved; else compile_unproved; fi
    if [ "$status" -ne 0 ] || [ -z "$module" ]; then
        cat "$work/log" >&2
        say "the library was not compiled"
        return 1
    fi
    say "compiling its module for wasm64: some minutes"
    local clang=$kit/toolchain/bin/clang flags=(--target=wasm64-unknown-unknown --no-default-config -O2 -c)
    # (of each function it warns that it does not know x86-64, for which the module was written)
    "$clang" "${flags[@]}" -x ir "$module" -o "$work/library.o" 2>"$work/log" || {
        cat "$work/log" >&2
        return 1
    }
    "$clang" "${flags[@]}" -Wall -Wextra -Werror -fno-builtin "$view/engine/shim.c" -o "$work/shim.o"
    mapfile -t exports < <(sed -nE 's/^(uint8_t|void) (gridlay_[a-z_]+)\(.*/--export=\2/p' "$top/include/gridlay.h")
    (exec -a wasm-ld "$clang" -mwasm64 --no-entry "${exports[@]}" --gc-sections --strip-all --import-undefined \
        --stack-first -z stack-size=4194304 --max-memory=2147483648 -o "$work/engine.wasm" "$work/library.o" "$work/shim.o")
    gzip -9 -n -c "$work/engine.wasm" >"$work/engine.gz"
    mv "$work/engine.gz" "$out/engine.wasm.gz"
}

# The page: the editor, the viewer, the examples and the engine.
write_page() {
    local example
    printf '{"isProved":%s,"kit":"%s"}' "$is_proved" "$kit_version" >"$work/made"
    page_head " 'wasm-unsafe-eval' blob:; worker-src blob:"
    cat "$view/page/page.css" "$view/page/play.css"
    printf '</style>\n'
    cat "$view/page/editor.html" "$view/page/viewer.html"
    data_block made "$work/made"
    data_block engine "$out/engine.wasm.gz"
    for example in cards toolbar form hit undo first edits; do
        data_block "example-$example" "$top/examples/$example.gridlay" | sed "s/^<script /&data-example=\"$example\" /"
    done
    printf '<script type="text/plain" id="worker">\n'
    cat "$view/page/changes.js" "$view/page/worker.js"
    printf '</script>\n'
    page_scripts "$view/page" engine editor edges dragging play_page
}

mkdir -p "$out"
work=$(mktemp -d)
trap 'put_back; rm -rf "$work"' EXIT
sum=$(sum_of_sources | sha256sum)
if [ -f "$out/engine.wasm.gz" ] && [ "$(cat "$out/engine.sum" 2>/dev/null)" = "$sum" ]; then
    say "the engine is built already from these sources"
else
    rm -f "$out/engine.sum"
    build_engine || exit 70
    printf '%s\n' "$sum" >"$out/engine.sum"
fi
write_page >"$work/play.html"
mv "$work/play.html" "$page"
say "the page is $page"
printf '%s\n' "$page"
