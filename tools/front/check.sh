# shellcheck shell=bash disable=SC2034,SC2154
# Tests of the word `check`. (test_front.sh reads this file.)

# check_of TITLE BYTES TEXT: what check says of a file of these bytes, which needs no program
check_of() {
    printf '%b' "$2" >"$room/a file"
    no_kit check "$room/a file"
    wants_status "check: $1" 2
    wants "check: $1" out "$3"
}

# mended TITLE BYTES: the command that check tells makes the file as these bytes
mended() {
    local command locale
    command=$(grep '^    sed -i' "$room/out")
    printf '%b' "$2" >"$room/wanted"
    cp "$room/a file" "$room/kept"
    for locale in C C.UTF-8; do
        LC_ALL=$locale bash -c "$command" 2>"$room/err" || bad "check: $1: the command" "$command" "$(cat "$room/err")"
        wants_same "check: $1: mended ($locale)" "$room/a file" "$room/wanted"
        cp "$room/kept" "$room/a file"
    done
}

check_of "carriage returns" 'gridlay 1\r\nviewport 1 1\r\nmain grid\r\n' \
    "a file:1: lines end with a carriage return and a line feed; in a document they end with a line feed alone (here first, and 3 times in all)"
mended "carriage returns" 'gridlay 1\nviewport 1 1\nmain grid\n'
check_of "a tab" 'gridlay 1\nviewport 1 1\nmain grid\n\ta leaf 1 1\n' "a file:4: a tab stands in a line"
mended "a tab" 'gridlay 1\nviewport 1 1\nmain grid\n  a leaf 1 1\n'
check_of "a byte order mark" '\xef\xbb\xbfgridlay 1\n' "a file:1: the file begins with a byte order mark"
mended "a byte order mark" 'gridlay 1\n'
check_of "all of these" '\xef\xbb\xbfgridlay 1\r\nviewport 1 1\r\nmain grid\r\n\ta leaf 1 1\r\n' "This mends them"
mended "all of these" 'gridlay 1\nviewport 1 1\nmain grid\n  a leaf 1 1\n'
check_of "old line ends" 'gridlay 1\rviewport 1 1\rmain grid\n' "a file:1: a carriage return stands within a line"
mended "old line ends" 'gridlay 1\nviewport 1 1\nmain grid\n'
check_of "letters" 'gridlay 1 # h\xc3\xb6he\n' "a file:1: characters that are no ASCII stand in a line"
check_of "a byte 0" 'gridlay 1\nx\x00y\n' "a file:2: bytes that are no text stand in a line"
check_of "UTF-16" '\xff\xfeg\x00\n\x00' "the text is UTF-16"
check_of "a long line" "gridlay 1\n#$(head -c 70000 /dev/zero | tr '\0' 'x')\n" "a file:2: a line has more than 65536 bytes"

printf 'layout 0\nmain 0 0 1 1\na 0 0 1 1\nlayout 1\nmain 0 0 1 1\na 0 0 1 1\nrefused 2 9:5 unknown-name\n' >"$stub/print"
wanted_status=3
with_program check "$top/examples/edits.gridlay"
wants_status "check: a refused edit" 3
wants "check: a refused edit" out "edits.gridlay:9:5: unknown-name (edit 2)"
wants "check: what there is" out "edits.gridlay: a document of 2 nodes and 2 edits, of which 1 is refused"
wants_nothing "check: all is said on standard output" err
had "check runs layout" "layout"
printf 'layout 0\nlayout 0 0 1 1\nrefused 0 0 1 1\nlayout 1\nlayout 0 0 1 1\nrefused 0 0 1 1\n' >"$stub/print"
wanted_status=0
with_program check "$first"
wants "check: boxes that are called as answers are" out "first.gridlay: a document of 2 nodes and 1 edit, all well"
holds "check: boxes that are called as answers are: no refusal is told" [ "$(wc -l <"$room/out")" -eq 1 ]
printf 'layout 0\nmain 0 0 1 1\nhit 1 main\nhit 2 -\nrefused 3 9:5 bad-value\nlayout 4\nmain 0 0 1 1\nhit 5 main\n' >"$stub/print"
with_program check "$first"
wants "check: a hit is a line of the script, and no node" out "first.gridlay: a document of 1 node and 5 edits, of which 1 is refused"
printf 'layout 0\nmain 0 0 1 1\n' >"$stub/print"
with_program check "$first"
wants_status "check: all well" 0
wants "check: all well" out "first.gridlay: a document of 1 node, all well"
printf 'refused 0 3:1 no-root\n' >"$stub/print"
wanted_status=2
with_program check "$first"
wants_status "check: a refused document" 2
wants "check: a refused document" out "first.gridlay: the document is refused"
wanted_status=6
with_program check "$first"
wants_status "check: trouble" 6
wants "check: trouble" err "memory was wanting"
rm "$stub/print"
wanted_status=0
