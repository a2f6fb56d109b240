# shellcheck shell=bash disable=SC2034,SC2154
# Tests of tools/refuse_memory.sh on small programs: one that does right, and ones that do not. (test_front.sh reads this file.)

# taker NAME LINES..: a program that takes memory three times and writes two lines; LINES are what it does where some is refused.
taker() {
    local name=$1
    shift
    cat >"$room/$name.c" <<TAKER
#include <stdio.h>
#include <stdlib.h>
#include <unistd.h>
static void say(const char *text, int size) { if (write(1, text, size) != size) _exit(5); }
static void take(int number) { char *volatile got = malloc(100); if (got == NULL) { (void)number; $* } free(got); }
int main(void) { take(1); say("layout 0\\n", 9); take(2); say("main 0 0 1 1\\n", 13); take(3); return 0; }
TAKER
    gcc -o "$room/$name" "$room/$name.c"
}

if command -v gcc >/dev/null; then
    taker right '_exit(6);'
    try "$top/tools/refuse_memory.sh" "$room/right"
    wants_status "refused memory: a program that does right" 0
    wants "refused memory: a program that does right: what is told" out "     3 requests,      3 refusals changed the outcome, the last is 3"
    holds "refused memory: each input is told" [ "$(grep -c ' requests, ' "$room/out")" -eq 9 ]
    taker spared 'if (number < 3) _exit(6);'
    try "$top/tools/refuse_memory.sh" "$room/spared"
    wants_status "refused memory: a program that can do without" 0
    wants "refused memory: a program that can do without: what is told" out "     3 requests,      2 refusals changed the outcome, the last is 2"
    taker wrong 'if (number == 2) { say("main 9\\n", 7); _exit(6); } if (number == 3) abort(); _exit(6);'
    try "$top/tools/refuse_memory.sh" "$room/wrong"
    wants_status "refused memory: a program that does wrong" 1
    wants "refused memory: an output that is no beginning" out "cards: with request 2 refused the status is 6, and what is written is no beginning"
    wants "refused memory: a program that is ended" out "cards: with request 3 refused the status is 134"
    wants "refused memory: how many" out "runs that ended otherwise: 18"
    gcc -static -o "$room/alone" "$room/right.c" 2>/dev/null && {
        try "$top/tools/refuse_memory.sh" "$room/alone"
        wants_status "refused memory: a program with a malloc of its own" 2
        wants "refused memory: a program with a malloc of its own" err "the shim saw no request for memory"
    }
else
    skip "tools/refuse_memory.sh: gcc is not installed"
fi
