# shellcheck shell=bash disable=SC2034,SC2154
# Tests of how the program is proved and built where it is not: a small script stands for the kit's command rt.
# (test_front.sh reads this file.)

works=$room/works
mkdir -p "$works/bin" "$works/crates/gridlay/src" "$works/crates/low/src"
cp -R "$top/gridlay" "$top/front" "$works/"
printf 'low:\ngridlay: low\nother: low\n' >"$works/crates.txt"
echo code >"$works/crates/low/src/lib.rt"
echo code >"$works/crates/gridlay/src/main.rt"
# It notes its calls. `lib` and `check` fail in the crate that $works/fails names; `run` builds a program, but where that file says
# `run`.
cat >"$works/bin/rt" <<'STUB'
#!/usr/bin/env bash
crate=${PWD##*/}
echo "$crate $*" >>"$WORKS/calls"
fails=$(cat "$WORKS/fails" 2>/dev/null)
case $1 in
    version) echo "rattle-kit-of-tests" ;;
    lib | check)
        echo "this is what the $1 of $crate said"
        [ "$fails" != "$crate" ] ;;
    run)
        [ "$fails" != run ] || exit 1
        mkdir -p out
        printf '#!/bin/sh\necho "program called with $*"\ncat >/dev/null\n' >out/gridlay
        chmod +x out/gridlay
        exit 64 ;;
    try)
        shift 2
        echo "tried with $*"
        cat >/dev/null ;;
esac
STUB
chmod +x "$works/bin/rt"
works_call() {
    rm -f "$works/calls"
    try env PATH="$works/bin:$PATH" WORKS="$works" GRIDLAY_JOBS=2 "$works/gridlay" "$@"
}
# calls TITLE CALL..: the calls of rt
calls() {
    printf '%s\n' "${@:2}" >"$room/wanted"
    [ -e "$works/calls" ] || : >"$works/calls"
    wants_same "$1: the calls of rt" "$works/calls" "$room/wanted"
}

works_call --version
wants "--version with a kit" out "kit     rattle-kit-of-tests"
wants "--version before the program is built" out "not built here"
works_call "$first"
wants_status "a first call" 0
wants "a first call runs the program" out "program called with layout"
wants "a first call says how long it takes" err "more than an hour"
wants "a first call says how far it is" err "proving low, 1 of 2"
calls "a first call" "low lib --jobs 2" "gridlay check" "gridlay run -- build"
works_call "$first"
wants "a second call runs the program" out "program called with layout"
wants_nothing "a second call says nothing" err
holds "a second call builds nothing" [ ! -e "$works/calls" ]
works_call --version
wants "--version of a built program" out "proved and built"
wants "--version tells where it is" out "$works/crates/gridlay/out/gridlay"

touch -d '1 minute' "$works/crates/low/src/lib.rt"
works_call --version
wants "--version of a program that is older" out "older than its sources"
echo low >"$works/fails"
works_call "$first"
wants_status "a proof that fails" 70
wants "a proof that fails: what was said" err "this is what the lib of low said"
wants "a proof that fails" err "low was not proved, so the program was not built"
wants_nothing "a proof that fails: nothing is run" out
works_call --version
wants "after a proof that fails the program is older" out "older than its sources"
touch -d '1 minute ago' "$works/crates/low/src/lib.rt"
touch -d '1 minute' "$works/crates/gridlay/src/main.rt"
for what in gridlay run; do
    echo "$what" >"$works/fails"
    works_call "$first"
    wants_status "the program's own crate, where $what fails" 70
    wants_nothing "the program's own crate, where $what fails: nothing is run" out
    works_call --version
    lacks "the program's own crate, where $what fails: nothing is taken for built" grep -q "proved and built" "$room/out"
done
rm "$works/fails"
touch -d '1 minute ago' "$works/crates/gridlay/src/main.rt"
works_call "$first"
wants "after it is mended the program runs" out "program called with layout"

works_call --unproved "$first" --stats
wants "--unproved FILE --stats" out "tried with layout --stats"
wants "--unproved says so" err "nothing is proved of this run"
calls "--unproved" "gridlay try -- layout --stats"
works_call --unproved make --seed 1 --nodes 2
wants "--unproved make" out "tried with make --seed 1 --nodes 2"
