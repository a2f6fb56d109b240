# shellcheck shell=bash disable=SC2034,SC2154
# Tests of what is said of refusals. (test_front.sh reads this file.)

printf 'gridlay 1\nviewport 1 1\nmain grid\n---\nset mian width: 1px\nunset main width\nundoo\n' >"$room/two.gridlay"
printf 'layout 0\nmain 0 0 1 1\nrefused 1 5:5 unknown-name\nlayout 2\nmain 0 0 1 1\nrefused 3 7:1 unknown-edit\n' >"$stub/print"
wanted_status=3
with_program --explain "$room/two.gridlay"
wants_status "two refusals" 3
wants_same "two refusals: the output is the program's" "$stub/print" "$room/out"
cat >"$room/wanted" <<TEXT
$room/two.gridlay:5:5: unknown-name (edit 1)
    set mian width: 1px
        ^
  no node is called \`mian\`: did you mean \`main\`?
$room/two.gridlay:7:1: unknown-edit (edit 3)
    undoo
    ^
TEXT
head -n 7 "$room/err" >"$room/begin"
wants_same "two refusals: what is said" "$room/begin" "$room/wanted"
with_program "$room/two.gridlay"
wants_nothing "where standard error is no terminal nothing is said" err
tail -c +1 "$room/two.gridlay" | as_program "$top/gridlay" layout --explain >"$room/out" 2>"$room/err"
wants "an input from a pipe has no name" err "<stdin>:5:5: unknown-name (edit 1)"
wants "an input from a pipe is explained" err "did you mean \`main\`?"
(cd "$room" && as_program "$top/gridlay" layout --explain <two.gridlay >out 2>err)
wants "an input from a file has its name" err "two.gridlay:5:5: unknown-name (edit 1)"
lacks "an input from a file here has a short name" grep -q "$room" "$room/err"

{
    printf 'layout 0\nmain 0 0 1 1\n'
    for k in $(seq 50); do echo "refused $k 5:5 unknown-name"; done
} >"$stub/print"
with_program --explain "$room/two.gridlay"
holds "twenty refusals are explained" [ "$(grep -c 'unknown-name (edit' "$room/err")" -eq 20 ]
wants "the others are counted" err "30 more edits are refused"

awk 'BEGIN {
    printf "gridlay 1\nviewport 1 1\nmain grid { grid-template-columns:"
    for (i = 0; i < 5000; i++) printf " 10px"
    print " 10 }"
}' >"$room/long.gridlay"
printf 'refused 0 3:36 bad-value\n' >"$stub/print"
wanted_status=2
with_program --explain "$room/long.gridlay"
wants "of a long value the form is told" err "\`grid-template-columns\` takes"
holds "of a long line a part is shown" [ "$(awk '{ if (length($0) > most) most = length($0) } END { print most }' "$room/err")" -lt 250 ]
rm "$stub/print"
wanted_status=0

if command -v script >/dev/null; then
    printf 'refused 0 3:1 no-root\n' >"$stub/print"
    as_program timeout 10 script -qec "'$top/gridlay' '$first'" /dev/null </dev/null >"$room/out" 2>/dev/null
    wants "on a terminal refusals are explained" out "no node stands after the two header lines"
    rm "$stub/print"
else
    skip "a terminal: the command script is not here"
fi

printf 'refused 1 7:1 unknown-edit\n' >"$stub/print"
with_program --explain "$room/two.gridlay"
wants "the edits that there are" err "set unset insert remove move content viewport undo redo hit: did you mean \`undo\`?"
rm "$stub/print"
# shellcheck source=../../front/explain.sh
. "$top/front/explain.sh"

# ---- each mistake of the table

# expand LINE: a line of the table as it stands in a text
expand() {
    case $1 in
        @) printf 'gridlay 1\nviewport 300 200\n' ;;
        @2) printf 'gridlay 2\nviewport 300 200\n' ;;
        *) printf '%b\n' "$1" ;;
    esac
}

mistakes=0
# told TITLE REFUSAL TEXT: what is said of the text in $room/mistake, and whether the program refuses it so
told() {
    local edit place name
    mistakes=$((mistakes + 1))
    read -r _ edit place name <<<"$2"
    explain_refusal mistake "$room/mistake" "$edit" "$place" "$name" >"$room/err" 2>&1
    wants "$1" err "$3"
    wants "$1: its place" err "mistake:$place: $name"
    holds "$1: four lines" [ "$(wc -l <"$room/err")" -eq 4 ]
    [ -z "$real" ] || holds "$1: what the program says" [ "$("$real" layout <"$room/mistake" | grep '^refused' | tail -n 1)" = "$2" ]
}

title='' refusal=''
while IFS= read -r text; do
    case $text in
        '== '*)
            title=${text#== }
            : >"$room/mistake" ;;
        'refused '*) refusal=$text ;;
        'says '*)
            told "$title" "$refusal" "${text#says }"
            title='' ;;
        *) [ -z "$title" ] || expand "$text" >>"$room/mistake" ;;
    esac
done <"$top/tools/front/mistakes.txt"
holds "all mistakes are read" [ "$mistakes" -eq "$(grep -c '^== ' "$top/tools/front/mistakes.txt")" ]
holds "there are mistakes" [ "$mistakes" -ge 150 ]
[ -n "$real" ] || skip "that the program refuses the $mistakes mistakes so: no program is built"

# ---- the tables of this script, the sources and FORMAT.md are of the same faults and properties

read_properties
if [ -e "$top/crates/session/specs/FaultNames.antt" ]; then
    while read -r name; do
        holds "each fault has its words: $name" grep -q "^        $name) " "$top/front/explain.sh"
        holds "each fault stands in FORMAT.md: $name" grep -q "^| [0-9]* | \`$name\`" "$top/docs/FORMAT.md"
    done < <(grep -o 'codes "[a-z-]*"' "$top/crates/session/specs/FaultNames.antt" | awk -F'"' '{ print $2 }')
    grep -oE 'codes "[a-z-]+", property.(Longhand|Shorthand|Unsupported)' "$top/crates/value_text/specs/Properties.antt" |
        awk -F'"' '{ print ($3 ~ /Unsupported/ ? "unsupported" : "takes"), $2 }' | sort >"$room/theirs"
    awk '$1 == "takes" || $1 == "unsupported" { print $1, $2 }' "$top/front/properties.txt" | sort >"$room/ours"
    wants_same "the properties are those of the reader" "$room/ours" "$room/theirs"
    while read -r _ name; do
        holds "each property stands in FORMAT.md: $name" grep -q "\`$name\`" "$top/docs/FORMAT.md"
    done <"$room/ours"
    for name in "${!form_of[@]}"; do
        holds "each form has its words: $name" [ -n "${form_text[${form_of[$name]}]-}" ]
    done
    for name in "${!instead[@]}"; do
        lacks "a property that is in no table is in none: $name" grep -qx "[a-z]* $name" "$room/ours"
    done
else
    skip "the tables of faults and properties: the sources are not here"
fi

# a FILE that is no plain file, and one that is standard input
printf 'refused 1 5:5 unknown-name\n' >"$stub/print"
wanted_status=3
for call in --explain check; do
    (as_program timeout 10 "$top/gridlay" "$call" <(tail -c +1 "$room/two.gridlay") </dev/null >"$room/out" 2>&1)
    wants "a FILE from a pipe: $call" out "did you mean \`main\`?"
    (as_program timeout 10 "$top/gridlay" "$call" /dev/stdin <"$room/two.gridlay" >"$room/out" 2>&1)
    wants "a FILE that is standard input: $call" out "/dev/stdin:5:5: unknown-name"
    wants "a FILE that is standard input: $call" out "did you mean \`main\`?"
done
rm "$stub/print"
wanted_status=0
