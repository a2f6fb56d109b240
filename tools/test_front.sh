#!/usr/bin/env bash
# Tests the script `gridlay`, the files in front/, and those in tools/ that try a program:
#     tools/test_front.sh [PROGRAM]
# Most of it needs no kit and no built program: a small script stands for the program. With PROGRAM (or $GRIDLAY_PROGRAM, or the
# one in crates/gridlay/out) it is also tested that the program refuses each mistake as tools/front/mistakes.txt says, and that the
# commands of README.md and docs/FORMAT.md print what stands below them there. What was not tested is said at the end.
# The status is 0 where all tests passed. It needs bash, awk, sed, cmp and timeout; script (util-linux) for one test.
set -u

top=$(dirname -- "$(dirname -- "$(readlink -f -- "${BASH_SOURCE[0]}")")")
real=${1-${GRIDLAY_PROGRAM-$top/crates/gridlay/out/gridlay}}
if [ -x "$real" ]; then
    real=$(readlink -f -- "$real")
else
    real=
fi
unset GRIDLAY_PROGRAM
room=$(mktemp -d) || exit 2
trap 'rm -rf -- "$room"' EXIT
passed=0 failed=0 skipped=()
first=$top/examples/first.gridlay

# ---- what a test says

good() {
    passed=$((passed + 1))
}

bad() {
    failed=$((failed + 1))
    printf 'FAILED: %s\n' "$1"
    shift
    [ $# -eq 0 ] || printf '    %s\n' "$@"
}

skip() {
    skipped+=("$1")
}

# holds TITLE COMMAND..: the command ends well.
holds() {
    local title=$1
    shift
    if "$@"; then
        good
    else
        bad "$title" "does not hold: $*"
    fi
}

# lacks TITLE COMMAND..: the command ends with another status than 0.
lacks() {
    local title=$1
    shift
    if "$@"; then
        bad "$title" "holds: $*"
    else
        good
    fi
}

# wants_status TITLE STATUS: the status of the command before.
wants_status() {
    holds "$1: its status" [ "$status" = "$2" ]
}

# wants TITLE FILE TEXT: what was written to out or err holds the text.
wants() {
    if grep -qF -- "$3" "$room/$2"; then
        good
    else
        bad "$1" "wanted in $2: $3" "it is: $(head -c 500 "$room/$2")"
    fi
}

# wants_nothing TITLE FILE
wants_nothing() {
    if [ -s "$room/$2" ]; then
        bad "$1" "wanted nothing in $2" "it is: $(head -c 500 "$room/$2")"
    else
        good
    fi
}

# wants_same TITLE FILE FILE
wants_same() {
    if cmp -s -- "$2" "$3"; then
        good
    else
        bad "$1" "$(diff -- "$2" "$3" | head -n 6)"
    fi
}

# ---- calls

# try WORD..: runs a command with nothing to read, for at most four minutes, also on a busy machine. What it wrote is in $room/out and
# $room/err, its status in $status.
try() {
    status=0
    timeout 240 "$@" </dev/null >"$room/out" 2>"$room/err" || status=$?
}

# A checkout without what is built, and a machine that has a few tools and no kit.
fresh=$room/fresh
mkdir -p "$fresh/examples" "$room/bin"
cp -R "$top/gridlay" "$top/front" "$top/crates.txt" "$fresh/"
cp "$first" "$fresh/examples/"
for tool in bash env awk sed grep cat tr cut head tail od sort wc find mktemp mkfifo tee rm ls dirname readlink realpath timeout git; do
    at=$(command -v "$tool") && ln -s "$at" "$room/bin/$tool"
done
no_kit() {
    try env -i -C "$room" PATH="$room/bin" HOME="$room" "$fresh/gridlay" "$@"
}

# A script that stands for the program: it keeps its words and its input, prints the file `print`, and ends with $wanted_status.
stub=$room/stub
wanted_status=0
mkdir "$stub"
cat >"$room/program" <<'STUB'
#!/usr/bin/env bash
printf '%s' "$*" >"$STUB/words"
cat >"$STUB/input"
[ ! -e "$STUB/print" ] || cat "$STUB/print"
exit "$STUB_STATUS"
STUB
chmod +x "$room/program"
as_program() {
    env GRIDLAY_PROGRAM="$room/program" STUB="$stub" STUB_STATUS="$wanted_status" "$@"
}
with_program() {
    rm -f "$stub/words" "$stub/input"
    try env GRIDLAY_PROGRAM="$room/program" STUB="$stub" STUB_STATUS="$wanted_status" "$top/gridlay" "$@"
}

# had TITLE WORDS: the words that the program was given.
had() {
    holds "$1: the words of the program" [ "$(cat "$stub/words" 2>/dev/null)" = "$2" ]
}

# ---- the tests

# shellcheck source=front/words.sh
. "$top/tools/front/words.sh"
# shellcheck source=front/build.sh
. "$top/tools/front/build.sh"
# shellcheck source=front/library.sh
. "$top/tools/front/library.sh"
# shellcheck source=front/answers.sh
. "$top/tools/front/answers.sh"
# shellcheck source=front/refusals.sh
. "$top/tools/front/refusals.sh"
# shellcheck source=front/check.sh
. "$top/tools/front/check.sh"
# shellcheck source=front/compare.sh
. "$top/tools/front/compare.sh"
# shellcheck source=front/memory.sh
. "$top/tools/front/memory.sh"
# shellcheck source=front/again.sh
. "$top/tools/front/again.sh"
# shellcheck source=front/size.sh
. "$top/tools/front/size.sh"
# shellcheck source=front/written.sh
. "$top/tools/front/written.sh"
# shellcheck source=front/documents.sh
. "$top/tools/front/documents.sh"

printf '%d tests passed, %d failed\n' "$passed" "$failed"
for text in ${skipped[@]+"${skipped[@]}"}; do
    printf 'not tested: %s\n' "$text"
done
[ "$failed" -eq 0 ]
