# shellcheck shell=bash disable=SC2034,SC2154
# Tests of the words: they are read before anything is built, on a machine without the kit too. (test_front.sh reads this file.)

no_kit --help
wants_status "--help" 0
wants "--help tells the words" out "./gridlay check FILE"
wants "--help has an example" out "./gridlay --unproved examples/first.gridlay"
wants "--help tells where the docs are" out "docs/FORMAT.md"
wants_nothing "--help says no more" err
wants "--help tells the word that writes documents" out "./gridlay write FILE"
for word in picture play library; do
    lacks "--help tells no word that is not here" grep -q "gridlay $word" "$room/out"
done
cp "$room/out" "$room/help"
no_kit -h
wants_same "-h is --help" "$room/out" "$room/help"
no_kit --version
wants_status "--version" 0
wants "--version tells that there is no kit" out "rt is not installed here"
wants "--version tells that nothing is built" out "not built here"

# what would build the program stops where there is no kit, and says so
for call in "" layout "make --seed 1 --nodes 2" "$fresh/examples/first.gridlay" "--unproved $fresh/examples/first.gridlay" \
    "--unproved make --seed 1 --nodes 2" "check $fresh/examples/first.gridlay" write "write $fresh/examples/first.gridlay"; do
    # shellcheck disable=SC2086
    no_kit $call
    wants_status "without a kit: $call" 69
    wants "without a kit: $call" err "rt of Rattle's kit is not installed"
    wants_nothing "without a kit: $call" out
done

# slip TEXT WORD..: a call that is not understood, and what is said of it
slip() {
    local text=$1
    shift
    no_kit "$@"
    wants_status "slip $*" 64
    wants "slip $*" err "$text"
    wants "slip $*: where to read on" err "./gridlay --help"
    holds "slip $*: one line" [ "$(wc -l <"$room/err")" -eq 1 ]
    wants_nothing "slip $* prints nothing" out
}

slip "no such file: examples/first.gridlay" examples/first.gridlay
slip "no such file: nowhere.gridlay" --unproved nowhere.gridlay
slip "$fresh/examples is a folder: name a file in it" "$fresh/examples"
slip "no such word or file: chek; did you mean check?" chek
slip "no such word or file: layuot; did you mean layout?" layuot
slip "no such word: chek; did you mean check?" chek examples/first.gridlay
slip "no such option: --unprovd; did you mean --unproved?" --unprovd examples/first.gridlay
slip "no such option: --hlep; did you mean --help?" --hlep
slip "layout has no option --stat; did you mean --stats?" layout --stat
slip "layout has no option --help" layout --help
slip "layout reads standard input: ./gridlay layout < a.gridlay, or ./gridlay a.gridlay" layout a.gridlay
slip "nothing stands after layout --stats" layout --stats --stats
slip "one FILE at a time, and these are a and b" a b
slip "no FILE stands beside --stats" --stats
slip "a number stands after --nodes" make --seed 1 --nodes
slip "make wants a number after --seed" make --seed x --nodes 1
slip "make wants a number after --seed" make --nodes 1
slip "make wants a number from 1 to 20000 after --nodes" make --seed=1
slip "make has no option --sed" make --sed 1
slip "check wants a FILE: ./gridlay check FILE" check
slip "write takes one FILE, and these are 2" write a b
slip "no such file: a" write a
slip "check takes one FILE, and these are 2" check a b
slip "no such file: a" check a
slip "an empty word is no FILE" ""
if [ "$(id -u)" -ne 0 ]; then
    : >"$room/shut"
    chmod 000 "$room/shut"
    slip "cannot be read" "$room/shut"
else
    skip "a file that cannot be read: root reads all"
fi
for word in picture play library; do
    no_kit "$word" x
    wants_status "$word, which is not here" 64
    wants "$word, which is not here" err "this checkout has no word $word yet"
done
try env GRIDLAY_PROGRAM="$room/nothing" "$top/gridlay" "$first"
wants_status "GRIDLAY_PROGRAM that is none" 69
wants "GRIDLAY_PROGRAM that is none" err "which is no program"

# a link to the script, and a call from another folder
ln -s "$fresh/gridlay" "$room/link"
try env -i PATH="$room/bin" HOME="$room" "$room/link" --help
wants_same "--help through a link" "$room/out" "$room/help"

# words that come with other parts of the checkout
later=$room/later
mkdir -p "$later/view" "$later/tools"
cp -R "$top/gridlay" "$top/front" "$top/crates.txt" "$later/"
# shellcheck disable=SC2016
printf '#!/bin/sh\necho "the page of $1 by $GRIDLAY_PROGRAM"\n' >"$later/view/picture"
printf '#!/bin/sh\necho playing $*\n' >"$later/view/build_engine.sh"
chmod +x "$later/view/picture" "$later/view/build_engine.sh"
later_program() {
    rm -f "$stub/words" "$stub/input"
    try env GRIDLAY_PROGRAM="$room/program" STUB="$stub" STUB_STATUS=0 "$later/gridlay" "$@"
}
later_program --help
for word in "picture FILE" "play"; do
    wants "--help tells a word that came" out "./gridlay $word"
done
later_program picture "$first"
wants "picture FILE" out "the page of $first by $room/program"
later_program picture nowhere
wants "picture of no file" err "no such file: nowhere"
later_program play
wants "play" out "playing"
later_program --unproved play
wants "play, unproved" out "playing --unproved"
