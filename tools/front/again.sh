# shellcheck shell=bash disable=SC2154
# Tests of tools/lay_out_again.sh and tools/warm_layout_asks_little.sh on small libraries: one that does right, and ones that do not.
# (test_front.sh reads this file.)

cat >"$room/small.c" <<'SMALL'
#include <gridlay.h>
#include <stdlib.h>
#include <string.h>
/* At each layout so many requests for memory; and whether a layout that wanted memory is laid out wrongly the next time. */
#ifndef ASKS
#define ASKS 2
#endif
#ifndef FORGETS
#define FORGETS 0
#endif
static uint8_t tell(const char *text, uint8_t *room, size_t size, size_t *length)
{
    *length = strlen(text);
    if (size < *length)
        return GRIDLAY_ROOM;
    memcpy(room, text, *length);
    return GRIDLAY_OK;
}
uint8_t gridlay_open(gridlay *page, const uint8_t *text, size_t size, gridlay_fault *fault)
{
    *fault = (gridlay_fault){0};
    page->at = malloc(size + 1);
    if (page->at == NULL)
        return GRIDLAY_MEMORY;
    memcpy(page->at, text, size);
    ((char *)page->at)[size] = '\0';
    page->full = false;
    return GRIDLAY_OK;
}
uint8_t gridlay_edit(gridlay *page, const uint8_t *line, size_t size, gridlay_fault *fault)
{
    (void)page, (void)line, (void)size;
    *fault = (gridlay_fault){0};
    return GRIDLAY_OK;
}
uint8_t gridlay_layout(gridlay *page, gridlay_counts *counts)
{
    *counts = (gridlay_counts){0};
    for (int i = 0; i < ASKS; i++) {
        void *volatile got = malloc(8);
        if (got == NULL) {
            page->full = FORGETS;
            return GRIDLAY_MEMORY;
        }
        free(got);
    }
    return GRIDLAY_OK;
}
uint8_t gridlay_print(gridlay *page, uint8_t *room, size_t size, size_t *length)
{
    return tell(page->full ? "layout 0\n" : "layout 0\nmain 0 0 1 1\n", room, size, length);
}
uint8_t gridlay_write(gridlay *page, uint8_t *room, size_t size, size_t *length)
{
    return tell(page->at, room, size, length);
}
void gridlay_close(gridlay *page)
{
    free(page->at);
    *page = (gridlay){0};
}
SMALL

# library NAME [FLAG..]: a small library, as an archive.
library() {
    gcc -std=c11 -I "$top/include" "${@:2}" -c "$room/small.c" -o "$room/$1.o" && ar rcs "$room/$1.a" "$room/$1.o"
}

try "$top/tools/lay_out_again.sh" "$room/none.a"
wants_status "laid out again: no library" 2
try "$top/tools/warm_layout_asks_little.sh" "$room/none.a"
wants_status "a warm layout: no library" 2
if command -v gcc >/dev/null && command -v ar >/dev/null; then
    library well
    library forgetful -DFORGETS=1
    library greedy -DASKS=33
    try "$top/tools/lay_out_again.sh" "$room/well.a"
    wants_status "laid out again: a library that does right" 0
    wants "laid out again: a library that does right: what is told" out "2 layouts, 4 requests, 4 refusals are answered by want of memory"
    holds "laid out again: each input is told" [ "$(grep -c ' requests, ' "$room/out")" -eq 7 ]
    try "$top/tools/lay_out_again.sh" "$room/forgetful.a"
    wants_status "laid out again: a library that lays out wrongly" 1
    wants "laid out again: a library that lays out wrongly: what is told" out "the boxes at the second layout, after 0 edits, with request 1 refused"
    try "$top/tools/warm_layout_asks_little.sh" "$room/well.a"
    wants_status "a warm layout: a library that asks little" 0
    wants "a warm layout: a library that asks little: what is told" out "3 requests with one layout, 5 with two; made are 3 and 5"
    try "$top/tools/warm_layout_asks_little.sh" "$room/greedy.a"
    wants_status "a warm layout: a library that asks much" 1
    wants "a warm layout: a library that asks much: what is told" out "34 requests with one layout, 67 with two"
else
    skip "tools/lay_out_again.sh and tools/warm_layout_asks_little.sh: gcc or ar is not installed"
fi
