# shellcheck shell=bash
# Catches the LLVM module of a crate on its way to the kit's clang, by a wrapper that stands in a copy of the kit made of links. The
# kit itself is not touched. (tools/library.sh and view/build_engine.sh read this file.)

# wrap_kit KIT WORK [only]: a kit made of links to the real one, in WORK/kit, whose clang keeps the modules that it is given in
# WORK/caught. With `only` the clang compiles no module of a crate, which takes most of the time: then the kit says that it failed.
wrap_kit() {
    local kit=$1 work=$2 it name stop=''
    # shellcheck disable=SC2016
    [ $# -lt 3 ] || stop='[ -z "$(find "${0%/kit/*}/caught" -name "*.bc" -size +100k)" ] || exit 1'
    mkdir -p "$work/kit/bin" "$work/kit/toolchain/bin" "$work/caught"
    for it in "$kit"/*; do
        name=${it##*/}
        case "$name" in bin | toolchain) ;; *) ln -s "$it" "$work/kit/$name" ;; esac
    done
    for it in "$kit"/bin/*; do
        # rt and its parts are copied, since they look for the kit where they themselves stand.
        if [ "$(head -c 2 "$it")" = '#!' ] || [[ $it == *.py ]]; then cp "$it" "$work/kit/bin/"; else ln -s "$it" "$work/kit/bin/"; fi
    done
    for it in "$kit"/toolchain/*; do
        [ "${it##*/}" = bin ] || ln -s "$it" "$work/kit/toolchain/"
    done
    for it in "$kit"/toolchain/bin/*; do
        [ "${it##*/}" = clang ] || ln -s "$it" "$work/kit/toolchain/bin/"
    done
    cat >"$work/kit/toolchain/bin/clang" <<WRAPPER
#!/bin/bash
for word; do
    case "\$word" in *.bc) cp -- "\$word" "$work/caught/\$\$.bc" ;; esac
done
$stop
exec -a "\$0" "$kit/toolchain/bin/clang" "\$@"
WRAPPER
    chmod +x "$work/kit/toolchain/bin/clang"
}

# caught_module WORK: the crate's module among those that were caught; beside it, clang may be given a small one of settings.
caught_module() {
    find "$1/caught" -name '*.bc' -size +100k -printf '%s %p\n' | sort -n | tail -n 1 | cut -d ' ' -f 2-
}

# catch_library KIT WORK TOP: the module of the library gridlay_c of the checkout TOP, of which nothing is proved, in WORK/library.ll.
# The kit compiles no library without its proofs, but a program of its tests. So in a copy of the sources it has one test more, which
# makes each call once, and the module of the tests is caught; the calls are given their names again, and the program's own entry
# goes. What the kit said is in WORK/log.
catch_library() {
    local kit=$1 work=$2 top=$3 folder=$2/sources/crates/gridlay_c module
    wrap_kit "$kit" "$work" only
    mkdir "$work/sources"
    tar -C "$top" --exclude=out -cf - crates crates.txt HANDLES | tar -C "$work/sources" -xf - || return 1
    cp -- "$top/tools/library/all_calls.txt" "$folder/src/all_calls.rt"
    printf '\n#[cfg(test)]\nmod all_calls;\n' >>"$folder/src/lib.rt"
    # (it ends where the module is caught, and with a failure)
    (cd "$folder" && "$work/kit/bin/rt" try --test) </dev/null >"$work/log" 2>&1 || true
    module=$(caught_module "$work")
    [ -n "$module" ] || return 1
    "$kit/toolchain/bin/clang" --target=x86_64-unknown-linux-gnu --no-default-config -S -emit-llvm -x ir "$module" -o - |
        LC_ALL=C sed -E \
            -e 's/^define internal (.*)@"gridlay_c::(gridlay_[a-z_]+)"\(/define \1@\2(/' \
            -e 's/@"gridlay_c::(gridlay_[a-z_]+)"\(/@\1(/g' \
            -e 's/^define i32 @main\(/define internal i32 @"the tests"(/' >"$work/library.ll"
}
