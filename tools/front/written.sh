# shellcheck shell=bash disable=SC2034,SC2154
# Tests of tools/test_write.sh on small programs: one that does right, and ones that do not. (test_front.sh reads this file.)

# A program for documents of plain lines: it writes a document without comments and script, and lays each node out as a box.
cat >"$room/writer" <<'STUB'
#!/usr/bin/env bash
text=$(sed '/^---$/,$d; s/ *#.*//; /^$/d')
case $text in
    *refused*) echo "refused 0 3:1 bad-name"; exit 2 ;;
    *long*) exit 8 ;;
esac
if [ "$1" = write ]; then printf '%s\n' "$text${WORSE-}"; else echo "layout 0"; sed '1,2d; s/ .*/ 0 0 1 1/' <<<"$text"; fi
STUB
chmod +x "$room/writer"
few=$room/few
mkdir -p "$few/tools" "$few/crates/corpus/data/rows"
cp "$top/tools/test_write.sh" "$top/tools/program.sh" "$few/tools/"
for name in plain refused long; do
    printf 'gridlay 1 # one\nviewport 1 1\n%s grid\n---\n' "$name" >"$few/crates/corpus/data/rows/$name.in"
done
try "$few/tools/test_write.sh" "$room/writer"
wants_status "written documents" 0
wants "written documents: the inputs" out "3 inputs: 1 documents are refused, 1 have a line that is too long, 0 inputs are too long"
wants "written documents: what was written" out "1 documents were written: 1 are written again as the same bytes, 1 are laid out as the document of the input"
try env WORSE=' x' "$few/tools/test_write.sh" "$room/writer"
wants_status "documents that are written otherwise the second time" 1
wants "documents that are written otherwise the second time" out "rows/plain.in: written again it ends with status 0, and "
try env WORSE=$'\nmore grid' "$few/tools/test_write.sh" "$room/writer"
wants "a document that is written with a further node" out "rows/plain.in: what is written is laid out with status 0, and not as"
try "$few/tools/test_write.sh" "$room/nothing"
wants_status "no program that writes" 2
