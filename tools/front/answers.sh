# shellcheck shell=bash disable=SC2034,SC2154
# Tests of how the program is run: its words, input, output and status go through. (test_front.sh reads this file.)

printf 'layout 0\nmain 0 0 1 1\nno end of line' >"$stub/print"
with_program "$first"
had "FILE" "layout"
wants_same "FILE: the program has all of it" "$first" "$stub/input"
wants_same "FILE: the output is the program's" "$room/out" "$stub/print"
wants_nothing "FILE: nothing else is said" err
with_program --explain "$first"
wants_same "FILE --explain: the output is the program's" "$room/out" "$stub/print"
wants_same "FILE --explain: the program has all of it" "$first" "$stub/input"
with_program "$first" --stats
had "FILE --stats" "layout --stats"
with_program --stats "$first"
had "--stats FILE" "layout --stats"
with_program layout --stats --explain
had "layout --stats" "layout --stats"
with_program
had "no word" "layout"
with_program make --nodes=3 --seed 18446744073709551616
had "make, whose numbers are the program's" "make --nodes=3 --seed 18446744073709551616"

# the document that a program writes goes through, and edits that were refused are told of
printf 'gridlay 1\nviewport 1 1\nrefused leaf 1 1\n' >"$stub/print"
with_program write "$first"
had "write FILE" "write"
wants_same "write FILE: the program has all of it" "$first" "$stub/input"
wants_same "write FILE: the output is the program's" "$room/out" "$stub/print"
wants_nothing "write FILE: nothing else is said" err
with_program write
had "write" "write"
wanted_status=3
for how in --explain ''; do
    with_program write "$first" ${how:+"$how"}
    wants_status "write with edits that are refused $how" 3
    wants "write with edits that are refused $how" err "some edits were refused, and the document is written without them"
    holds "write with edits that are refused $how: one line" [ "$(wc -l <"$room/err")" -eq 1 ]
done
wanted_status=0
rm "$stub/print"

# any bytes go through
head -c 300000 /dev/urandom >"$room/random"
cp "$room/random" "$stub/print"
as_program timeout 20 "$top/gridlay" layout --explain <"$room/random" >"$room/out" 2>"$room/err"
wants_same "any bytes go through, from a file" "$room/random" "$stub/input"
wants_same "any bytes come out, from a file" "$room/random" "$room/out"
tail -c +1 "$room/random" | as_program timeout 20 "$top/gridlay" layout --explain >"$room/out" 2>"$room/err"
wants_same "any bytes go through, from a pipe" "$room/random" "$stub/input"
wants_same "any bytes come out, from a pipe" "$room/random" "$room/out"
rm "$stub/print"

# statuses: each is the program's, and those that tell of trouble have a line
while read -r wanted_status text; do
    for how in --explain ''; do
        with_program ${how:+"$how"} "$first"
        wants_status "status $wanted_status $how" "$wanted_status"
        if [ -n "$text" ]; then
            wants "status $wanted_status has a line" err "$text"
            holds "status $wanted_status has one line" [ "$(wc -l <"$room/err")" -eq 1 ]
        else
            wants_nothing "status $wanted_status says nothing" err
        fi
    done
done <<'STATUSES'
0
2
3
4 the input could not be read to its end
5 the output could not be written
6 memory was wanting
7 the input has more than 67108864 bytes
8 a line of the document would have more than 65536 bytes
64 the program does not take these words
134 the program was ended by signal 6
139 the stack is too small
STATUSES
wanted_status=0

if [ -w /dev/full ]; then
    head -c 100000 /dev/zero | tr '\0' '\n' >"$stub/print"
    status=0
    as_program timeout 10 "$top/gridlay" --explain "$first" >/dev/full 2>"$room/err" || status=$?
    wants_status "an output that is full, explained" 5
    wants "an output that is full, explained" err "the output could not be written"
    rm "$stub/print"
else
    skip "an output that is full: there is no /dev/full"
fi

# each line is answered as soon as it is whole, also where refusals are explained
cat >"$room/lively" <<'STUB'
#!/usr/bin/env bash
while IFS= read -r line; do
    case $line in
        ---) echo "layout 0" ;;
        set*) echo "refused 1 5:5 unknown-name" ;;
    esac
done
STUB
chmod +x "$room/lively"
# next_line TITLE DESCRIPTOR TEXT: the next line that comes there, within ten seconds
next_line() {
    local line=''
    IFS= read -t 10 -r -u "$2" line
    holds "$1" [ "$line" = "$3" ]
}
for how in '' --explain; do
    mkfifo "$room/in" "$room/from" "$room/said"
    GRIDLAY_PROGRAM="$room/lively" "$top/gridlay" layout ${how:+"$how"} <"$room/in" >"$room/from" 2>"$room/said" &
    exec 7>"$room/in" 8<"$room/from" 9<"$room/said"
    printf 'gridlay 1\nviewport 1 1\nmain grid\n---\n' >&7
    next_line "answered at once $how" 8 "layout 0"
    printf 'set mian width: 1px\n' >&7
    next_line "refused at once $how" 8 "refused 1 5:5 unknown-name"
    if [ -n "$how" ]; then
        next_line "explained at once" 9 "<stdin>:5:5: unknown-name (edit 1)"
        next_line "explained with its line" 9 "    set mian width: 1px"
    fi
    exec 7>&- 8<&- 9<&-
    wait
    rm "$room/in" "$room/from" "$room/said"
done

# a program that ends before its input does: the script ends too
cat >"$room/hasty" <<'STUB'
#!/usr/bin/env bash
read -r line
echo "refused 0 1:1 bad-header"
exit 2
STUB
chmod +x "$room/hasty"
mkfifo "$room/in"
GRIDLAY_PROGRAM="$room/hasty" timeout 10 "$top/gridlay" layout --explain <"$room/in" >"$room/out" 2>"$room/err" &
hasty=$!
exec 7>"$room/in"
echo hello >&7
status=0
wait "$hasty" || status=$?
exec 7>&-
wants_status "a program that ends early" 2
wants "a program that ends early is explained" err "the first line is \`gridlay 1\`"
