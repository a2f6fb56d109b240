# shellcheck shell=bash disable=SC2034,SC2154
# Tests of the documents: each command prints what stands below it. (test_front.sh reads this file.)

# commands_of FILE FOLDER: the lines of a document that begin with four spaces and `$ ` go to FOLDER/commands, and the lines below
# each, up to one that is not indented or is a command, to FOLDER/1, FOLDER/2 and so on.
commands_of() {
    awk -v folder="$2" '
        function end() { if (file != "") close(file); file = "" }
        /^    \$ / { end(); print substr($0, 7) > (folder "/commands"); file = folder "/" ++count; printf "" > file; next }
        /^    / && file != "" { print substr($0, 5) > file; next }
        { end() }' "$1"
}

if [ -n "$real" ]; then
    for document in README.md docs/FORMAT.md CONTRIBUTING.md; do
        rm -rf "$room/commands"
        mkdir "$room/commands"
        : >"$room/commands/commands"
        commands_of "$top/$document" "$room/commands"
        number=0
        while IFS= read -r command; do
            number=$((number + 1))
            (cd "$top" && GRIDLAY_PROGRAM=$real timeout 60 bash -c "$command") >"$room/out" 2>&1 </dev/null
            wants_same "$document: $command" "$room/out" "$room/commands/$number"
        done <"$room/commands/commands"
        [ "$document" = CONTRIBUTING.md ] || holds "$document has commands" [ "$number" -gt 2 ]
    done
else
    skip "the commands in README.md and docs/FORMAT.md: no program is built"
fi

# the table of roots in FORMAT.md: each row is a root around one leaf, and its box
if [ -n "$real" ]; then
    rows=0
    while IFS='`' read -r _ root _ box _; do
        rows=$((rows + 1))
        printf 'gridlay 1\nviewport 300 200\n%s\n  a leaf 40 20\n' "$root" >"$room/root"
        holds "FORMAT.md: the box of $root" [ "$("$real" layout <"$room/root" | sed -n 's/^main //p')" = "$box" ]
    done < <(grep '^| `main grid' "$top/docs/FORMAT.md")
    holds "FORMAT.md has a table of roots" [ "$rows" -eq 8 ]
fi

# what a document links to is there
for document in README.md CONTRIBUTING.md CHANGELOG.md docs/FORMAT.md docs/MAP.md docs/RULES.md docs/PROVED.md docs/PROMISES.md docs/DECISIONS.md cases/README.md; do
    [ -e "$top/$document" ] || continue
    while read -r target; do
        target=${target%%#*}
        [ -n "$target" ] || continue
        if [ "$target" = docs/cards.png ] && [ ! -e "$top/$target" ]; then
            skip "the picture of README.md: $target is not here"
            continue
        fi
        holds "$document links to $target" [ -e "$top/$(dirname -- "$document")/$target" ]
    done < <(grep -o '](\([^)]*\))' "$top/$document" | sed 's/^](//; s/)$//' | grep -v '^https*:')
done
