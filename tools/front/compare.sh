# shellcheck shell=bash disable=SC2034,SC2154
# Tests of tools/compare_cases.sh: it tells what differs. (test_front.sh reads this file.)

cat >"$room/other" <<'STUB'
#!/usr/bin/env bash
cat >/dev/null
echo "layout 0"
STUB
chmod +x "$room/other"
small=$room/checkout
cases=$small/crates/corpus/data
mkdir -p "$small/tools" "$cases/"{small,usual,late,rows,examples} "$small/examples"
cp "$top/tools/compare_cases.sh" "$top/tools/program.sh" "$small/tools/"
for folder in small usual late rows examples; do
    printf 'x\n' >"$cases/$folder/plain-1.in"
    printf 'layout 0\n' >"$cases/$folder/plain-1.out"
    echo 0 >"$cases/$folder/plain-1.status"
done
for ending in in:gridlay out:out status:status; do
    cp "$cases/examples/plain-1.${ending%:*}" "$small/examples/plain-1.${ending#*:}"
done
compared() {
    try "$small/tools/compare_cases.sh" "$@"
}

compared "$room/other"
wants_status "a program that agrees" 0
wants "a program that agrees" out "in all 5 of 5 agree"
echo 3 >"$cases/usual/plain-1.status"
printf 'layout 0\nmore\n' >"$cases/rows/plain-1.out"
compared "$room/other"
wants_status "a program that differs" 1
wants "a program that differs: the status" out "the status is 0, wanted is 3"
wants "a program that differs: the line" out "line 2 is the end, wanted is \"more\""
wants "a program that differs: how many" out "in all 3 of 5 agree"
printf '# what waits\nrows/plain-1\nusual/plain-1\n' >"$cases/later.txt"
compared "$room/other"
wants_status "cases that wait" 0
wants "cases that wait are counted" out "not yet: 2 runs"
printf 'rows/gone-1\n' >>"$cases/later.txt"
compared "$room/other"
wants_status "a case that waits and is not there" 1
wants "a case that waits and is not there" out "names rows/gone-1, and there is no such case"
printf 'layout 0\nmore\n' >"$cases/small/plain-1.some"
rm "$cases/small/plain-1.out" "$cases/later.txt"
compared "$room/other"
wants "lines that are missing" out "no line \"more\" behind those before it"
printf 'layout 1\n' >"$cases/examples/plain-1.out"
compared "$room/other"
wants_status "two copies of an example that differ" 1
wants "two copies of an example that differ" out "crates/corpus/data/examples/plain-1.out is not as examples/plain-1.out"
compared "$room/nothing"
wants_status "no program to compare" 2
rm "$cases/small/plain-1.some"
compared "$room/other"
wants_status "a case without an output" 2

# ---- .ci/run: the gate first, then the comparison; the gate's last line stays the last

gate=$room/gate
mkdir -p "$gate/tools" "$gate/.ci" "$gate/bin" "$gate/crates/gridlay/out"
cp "$top/.ci/run" "$gate/.ci/"
# shellcheck disable=SC2016
printf '#!/bin/sh\necho "rt $*"\necho "40 passed, $RT_FAILS failed"\nexit "$RT_STATUS"\n' >"$gate/bin/rt"
# shellcheck disable=SC2016
printf '#!/bin/sh\necho "compared $*"\nexit "$COMPARED"\n' >"$gate/tools/compare_cases.sh"
cp "$gate/bin/rt" "$gate/crates/gridlay/out/gridlay"
chmod +x "$gate/bin/rt" "$gate/tools/compare_cases.sh" "$gate/crates/gridlay/out/gridlay"
gated() {
    try env PATH="$gate/bin:$PATH" RT_FAILS="$1" RT_STATUS="$2" COMPARED="$3" "$gate/.ci/run"
}
gated 0 0 0
wants_status "a gate that passes" 0
holds "a gate that passes: rt ci without names" grep -qx "rt ci" "$room/out"
wants "a gate that passes: the program of the gate is compared" out "compared crates/gridlay/out/gridlay"
holds "a gate that passes: its last line" [ "$(tail -n 1 "$room/out")" = "40 passed, 0 failed" ]
gated 2 1 0
wants_status "a gate that fails" 1
holds "a gate that fails: its last line" [ "$(tail -n 1 "$room/out")" = "40 passed, 2 failed" ]
lacks "a gate that fails: nothing is compared" grep -q compared "$room/out"
gated 0 0 1
wants_status "a program that differs from the cases" 1
rm "$gate/crates/gridlay/out/gridlay"
gated 0 0 0
wants_status "a gate that leaves no program" 0
lacks "a gate that leaves no program: nothing is compared" grep -q "^compared" "$room/out"
