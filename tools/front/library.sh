# shellcheck shell=bash disable=SC2034,SC2154
# Tests of how the library is proved and built: small scripts stand for the kit's commands rt, clang and llvm-ar.
# (test_front.sh reads this file, after build.sh, whose checkout it goes on with.)

mkdir -p "$works/crates/gridlay_c/src" "$works/tools/library" "$works/toolchain/bin" "$works/c"
cp "$top/tools/library.sh" "$top/tools/module.sh" "$works/tools/"
echo "all calls" >"$works/tools/library/all_calls.txt"
echo handles >"$works/HANDLES"
echo 'gridlay_c staticlib: low' >>"$works/crates.txt"
echo code >"$works/crates/gridlay_c/src/lib.rt"
echo heap >"$works/c/liblibc_c.a"
cat >"$works/bin/rt" <<'STUB'
#!/usr/bin/env bash
crate=${PWD##*/}
echo "$crate $*" >>"$WORKS/calls"
fails=$(cat "$WORKS/fails" 2>/dev/null)
case $1 in
    lib)
        echo "this is what the lib of $crate said"
        [ "$fails" != "$crate" ] || exit 1
        [ "$crate" != gridlay_c ] || { mkdir -p out && echo proved >out/libgridlay_c.a; } ;;
    try)
        echo "this is what try said"
        [ "$fails" != try ] || exit 1
        [ "$(cat src/all_calls.rt)" = "all calls" ] && grep -qx "mod all_calls;" src/lib.rt || exit 1
        head -c 200000 /dev/zero >"$WORKS/module.bc"
        "$(dirname -- "$0")/../toolchain/bin/clang" "$WORKS/module.bc"
        exit 1 ;;
esac
STUB
# It writes the text of a module, or copies the one that it compiles.
cat >"$works/toolchain/bin/clang" <<'STUB'
#!/usr/bin/env bash
case " $* " in
    *" -emit-llvm "*)
        cat <<'MODULE'
define internal noundef i8 @"gridlay_c::gridlay_open"(ptr noundef %a0) #0 {
  %1 = call i8 @"gridlay_c::gridlay_edit"(ptr %a0)
define internal noundef i8 @"gridlay_c::told::of"(ptr noundef %a0) #0 {
define i32 @main() #0 {
MODULE
        ;;
    *" -c "*)
        while [ "$1" != ir ]; do shift; done
        cp -- "$2" "$4" ;;
esac
STUB
# It writes the script, and after it what it joins.
cat >"$works/toolchain/bin/llvm-ar" <<'STUB'
#!/usr/bin/env bash
cat - >joined.a
cat parts/* >>joined.a
STUB
chmod +x "$works/bin/rt" "$works/toolchain/bin/clang" "$works/toolchain/bin/llvm-ar"

works_call --help
wants "--help tells the word library" out "./gridlay library"
works_call library
wants_status "the library" 0
wants "the library: how far it is" err "proving low, 1 of 2"
wants "the library: where it lies" err "gcc -Iinclude PROGRAM.c out/libgridlay.a"
holds "the library: its path on standard output" [ "$(cat "$room/out")" = "$works/out/libgridlay.a" ]
calls "the library" "low lib --jobs 2" "gridlay_c lib --jobs 2"
printf '%s\n' "create joined.a" "addlib parts/libgridlay_c.a" "addlib parts/liblibc_c.a" save end proved heap >"$room/wanted"
sort "$room/wanted" >"$room/wanted.sorted"
sort "$works/out/libgridlay.a" >"$room/joined.sorted"
wants_same "the library has the crate's and the kit's code" "$room/joined.sorted" "$room/wanted.sorted"
works_call library
wants_status "the library again" 0
wants "the library again" err "is built already"
holds "the library again: nothing is built" [ ! -e "$works/calls" ]
works_call library x
wants_status "a word after library" 64
wants "a word after library" err "nothing stands after library"

works_call --unproved library
wants_status "the library, unproved" 0
wants "the library, unproved, says so" err "nothing is proved of this library"
holds "the library, unproved: its path" [ "$(cat "$room/out")" = "$works/out/unproved/libgridlay.a" ]
calls "the library, unproved" "gridlay_c try --test"
wants_exports() {
    holds "the library, unproved: $1" grep -qxF -- "$2" "$works/out/unproved/libgridlay.a"
}
wants_exports "a call is exported" 'define noundef i8 @gridlay_open(ptr noundef %a0) #0 {'
wants_exports "it is called by its name" '  %1 = call i8 @gridlay_edit(ptr %a0)'
wants_exports "no other function is" 'define internal noundef i8 @"gridlay_c::told::of"(ptr noundef %a0) #0 {'
wants_exports "the entry of the tests is not" 'define internal i32 @"the tests"() #0 {'
works_call --unproved library
wants "the library, unproved, again" err "is compiled already"

touch -d '1 minute' "$works/crates/low/src/lib.rt"
for what in low gridlay_c; do
    echo "$what" >"$works/fails"
    works_call library
    wants_status "the library, where $what fails" 70
    wants_nothing "the library, where $what fails: no path" out
    holds "the library, where $what fails: none is left" [ ! -e "$works/out/libgridlay.a" ]
done
echo try >"$works/fails"
works_call --unproved library
wants_status "the library, unproved, where it does not compile" 70
wants "the library, unproved, where it does not compile: what was said" err "this is what try said"
rm "$works/fails"
no_kit library
wants_status "the library without its script" 64
