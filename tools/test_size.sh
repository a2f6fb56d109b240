#!/usr/bin/env bash
# Tries a program at size, with ample memory:
#     tools/test_size.sh [PROGRAM]
# A document of 131,072 nodes, as many as a version lets in, and an edit of it, with all boxes worked by hand; the same, written by
# the word `write`; the same with a node more, which is refused; and documents of 200 and of 2,000 nodes with eight edits, drawn here
# as `make` draws them: what `make` tells of them is summed of the boxes that `layout` has. It tells how many seconds each run took.
# PROGRAM is the built program; without it $GRIDLAY_PROGRAM, else the one that the gate leaves in crates/gridlay/out.
# The status is 0 where all is as it should be, 1 where something is not, 2 where there is nothing to try. It needs awk and cmp.
set -u

# shellcheck source=program.sh
. "$(dirname -- "$(readlink -f -- "${BASH_SOURCE[0]}")")/program.sh"
take_program "$@"
bad=0

# check TITLE STATUS WORD..: runs the program on $room/in, and compares its status and its output with $room/due.
check() {
    local title=$1 due=$2 status=0 begun=$SECONDS
    shift 2
    "$program" "$@" <"$room/in" >"$room/out" || status=$?
    if [ "$status" -eq "$due" ] && cmp -s "$room/out" "$room/due"; then
        printf '%-44s well, %d s\n' "$title" $((SECONDS - begun))
    else
        bad=1
        printf '%-44s the status is %d, due is %d; the output is %s\n' "$title" "$status" "$due" \
            "$(cmp -s "$room/out" "$room/due" && echo well || echo another)"
    fi
}

# document MORE: a column of two grids of leaves, 131,072 nodes and so many more. The leaves fill rows of 100 cells of 10 px by 2 px.
document() {
    awk -v more="$1" 'BEGIN {
        grid = "grid { grid-template-columns: repeat(100, 10px); grid-auto-rows: 2px }"
        print "gridlay 2\nviewport 1000 800\nmain flex { flex-direction: column }"
        print "  a " grid
        for (i = 0; i < 65535; i++) print "    a" i " leaf 1 1"
        print "  b " grid
        for (i = 0; i < 65534 + more; i++) print "    b" i " leaf 1 1"
    }'
}

# boxes: 656 rows of the first grid, and as many of the second below it. The edit makes the columns 8 px wide.
boxes() {
    awk 'function grid(name, count, top, width,   i) {
        print name, 0, top, 1000, 1312
        for (i = 0; i < count; i++) print name i, i % 100 * width, top + int(i / 100) * 2, width, 2
    }
    BEGIN {
        for (k = 0; k < 2; k++) {
            print "layout", k
            print "main 0 0 1000 2624"
            grid("a", 65535, 0, 10)
            grid("b", 65534, 1312, k == 0 ? 10 : 8)
        }
    }'
}

{
    document 0
    printf '%s\n' --- 'set b grid-template-columns: repeat(100, 8px)'
} >"$room/in"
boxes >"$room/due"
check "131,072 nodes and an edit" 0 layout

# (the document stands in canonical form, with the edit or without)
document 0 | sed 's/^\(  b grid .*\)repeat(100, 10px)/\1repeat(100, 8px)/' >"$room/due"
check "131,072 nodes and an edit, written" 0 write

document 1 >"$room/in"
printf 'refused 0 131075:5 too-many-nodes\n' >"$room/due"
check "131,073 nodes" 2 layout

# draw COUNT: the next number below COUNT, in `drawn`, by the steps of docs/FORMAT.md.
draw() {
    ((x = x * 6364136223846793005 + 1442695040888963407, drawn = (x >> 33 & 0x7fffffff) % $1)) || true
}

# draw_leaf: the kind of a leaf, in `kind`.
draw_leaf() {
    draw 50
    kind="leaf $((drawn + 1))"
    draw 30
    kind+=" $((drawn + 1))"
}

# draw_kind I NODES: the kind of a node, in `kind`.
draw_kind() {
    local n
    if ((8 * $1 + 1 < $2)); then
        draw 3
        case $drawn in
            0) kind='grid { grid-column: span 2; grid-template-columns: subgrid }' ;;
            1) kind='flex { flex-wrap: wrap; column-gap: 2px }' ;;
            2) kind='grid { grid-template-columns: 1fr 2fr; row-gap: 3px }' ;;
        esac
        return
    fi
    draw 2
    if ((drawn == 0)); then
        draw_leaf
        return
    fi
    kind='words 12 3'
    for ((n = 0; n < 5; n++)); do
        draw 40
        kind+=" $((drawn + 5))"
    done
}

# write_node I NODES INDENT: the line of a node, and those below it.
write_node() {
    local child
    printf '%sn%d %s\n' "$3" "$1" "${kinds[$1]}"
    for ((child = 8 * $1 + 1; child <= 8 * $1 + 8 && child < $2; child++)); do
        write_node "$child" "$2" "$3  "
    done
}

# generated SEED NODES: the document that `make` draws, with its edits.
generated() {
    local x=$1 nodes=$2 drawn kind i kinds=('grid { grid-template-columns: repeat(auto-fill, minmax(100px, 1fr)); gap: 4px }')
    for ((i = 1; i < nodes; i++)); do
        draw_kind "$i" "$nodes"
        kinds[i]=$kind
    done
    printf '%s\n' 'gridlay 1' 'viewport 1000 600'
    write_node 0 "$nodes" ''
    echo ---
    for i in 1 2 3 4 5 6 7 8; do
        draw "$nodes"
        local edited=$drawn
        if ((edited == 0 || 8 * edited + 1 < nodes)); then
            draw 5
            echo "set n$edited order: $drawn"
        else
            draw_leaf
            echo "content n$edited $kind"
        fi
    done
}

# sums: what `make` tells of the layouts that stand on standard input.
sums() {
    awk 'function tell() { if (count != "") printf "made %d %d %.0f\n", k, count, sum }
    $1 == "layout" { tell(); k = $2; count = sum = 0; next }
    { count++; sum += 64 * ($2 + 3 * $3 + 5 * $4 + 7 * $5) }
    END { tell() }'
}

# check_generated TITLE SEED NODES: `make` sums the boxes that `layout` has of the document that is drawn here.
check_generated() {
    generated "$2" "$3" >"$room/in"
    "$program" layout <"$room/in" | sums >"$room/due"
    : >"$room/in"
    check "$1" 0 make --seed "$2" --nodes "$3"
}

check_generated "200 generated nodes, summed as laid out" 7 200
check_generated "2,000 generated nodes, summed as laid out" 7 2000
exit "$bad"
