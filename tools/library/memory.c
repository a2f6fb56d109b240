/* Refuses each request for memory of a run of calls in turn. The call that it hits answers as if nothing had
 * been, or GRIDLAY_MEMORY, and then nothing is changed; made again it answers well, and the run ends with the
 * boxes and the text of one with all of its memory. After each run all memory is given back. (Of `undo N` and
 * `redo N`, N above 1, some may be made.) Link it with -Wl,--wrap=malloc,--wrap=realloc,--wrap=free: so the
 * requests of the library come here, and this file's own too. */
#include "expect.h"
#include "refused.h"

/* ---- a run of calls */

static const char document[] =
    "gridlay 1\n"
    "viewport 300 200\n"
    "main grid { grid-template-columns: repeat(auto-fill, minmax(80px, 1fr)); grid-template-areas: none; gap: 4px }\n"
    "  a words 20 8 30 40 50\n"
    "  b grid { grid-column: 1 / -1; grid-template-columns: subgrid }\n"
    "    c leaf 20 10\n"
    "    d leaf 90 10\n"
    "  e flex { flex-wrap: wrap }\n"
    "    f leaf 70 10 { flex: 1 1 auto }\n"
    "    g leaf 70 10\n";

static const char *const lines[] = {
    "content a words 20 8 30 40 50 60", "set b column-gap: 9px", "insert e 1 h words 10 4 20 20", "move d main 0", "remove c",
    "unset e flex-wrap", "viewport 200 200", "undo 1", "redo 1", "undo 3", "redo 2", "set z width: 1px",
};
enum { LINES = sizeof lines / sizeof *lines };

static gridlay page;
static gridlay_fault fault;
static uint8_t room[4096];
static size_t indices[64], changes;
static const char *line;

static uint8_t call_open(void)
{
    return gridlay_open(&page, (const uint8_t *)document, strlen(document), &fault);
}

static uint8_t call_edit(void)
{
    return gridlay_edit(&page, (const uint8_t *)line, strlen(line), &fault);
}

static uint8_t call_layout(void)
{
    gridlay_counts counts;
    return gridlay_layout(&page, &counts);
}

static uint8_t call_changed(void)
{
    size_t count;
    uint8_t answer = gridlay_changed(&page, indices, 64, &count);
    for (size_t i = 0; answer == GRIDLAY_OK && i < count; i++)
        changes = 31 * changes + indices[i] + 1;
    return answer;
}

static uint8_t call_hit(void)
{
    size_t index;
    return gridlay_hit(&page, 64, 64, &index);
}

static uint8_t call_print(void)
{
    size_t length;
    return gridlay_print(&page, room, sizeof room, &length);
}

static uint8_t call_write(void)
{
    size_t length;
    return gridlay_write(&page, room, sizeof room, &length);
}

static uint8_t call_answer(void)
{
    size_t length;
    return gridlay_answer((const uint8_t *)document, strlen(document), room, sizeof room, &length);
}

/* The text of the document and its boxes; no text where there is none. */
struct state {
    char *text, *boxes;
};

static struct state look(void)
{
    counts_now = 0;
    return (struct state){text_by(gridlay_write, &page), text_by(gridlay_print, &page)};
}

static int is_same(const char *one, const char *other)
{
    return one == NULL || other == NULL ? one == other : strcmp(one, other) == 0;
}

static void forget(struct state it)
{
    free(it.text);
    free(it.boxes);
}

/* Makes a call, which may be the one that is hit: then it is made once more, but where it may have made some of
 * many. */
static void make(uint8_t (*call)(void), uint8_t due, int moves_many, const char *what)
{
    struct state before = look();
    was_refused = 0;
    counts_now = 1;
    uint8_t answer = call();
    counts_now = 0;
    if (answer == GRIDLAY_MEMORY) {
        struct state after = look();
        expect(was_refused, "%s wants memory with request %u refused, which is another call's", what, refused);
        expect(moves_many || is_same(before.text, after.text), "%s leaves the document, with request %u refused", what, refused);
        expect(moves_many || is_same(before.boxes, after.boxes), "%s leaves the boxes, with request %u refused", what, refused);
        forget(after);
        answer = moves_many ? due : call();
    }
    expect(answer == due, "%s answers %u with request %u refused", what, answer, refused);
    forget(before);
}

/* The edits and what is read after each; it stops where one of `undo N` or `redo N` was hit, and then answers
 * no. */
static int make_edits(void)
{
    for (int i = 0; i < LINES; i++) {
        line = lines[i];
        int many = strstr(line, "do 2") != NULL || strstr(line, "do 3") != NULL;
        make(call_edit, i == LINES - 1 ? GRIDLAY_REFUSED : GRIDLAY_OK, many, line);
        if (many && was_refused)
            return 0;
        make(call_layout, GRIDLAY_OK, 0, "layout");
        make(call_changed, GRIDLAY_OK, 0, "changed");
        make(call_hit, GRIDLAY_OK, 0, "hit");
    }
    return 1;
}

/* What a run ends with, and the sum of all that changed in it; nothing where it was stopped. */
struct ending {
    struct state last;
    size_t changes;
};

/* All calls, with the request of a number refused. */
static struct ending run(unsigned number)
{
    struct ending it = {{NULL, NULL}, 0};
    requests = 0;
    refused = number;
    changes = 0;
    make(call_open, GRIDLAY_OK, 0, "open");
    make(call_layout, GRIDLAY_OK, 0, "layout");
    if (make_edits()) {
        make(call_print, GRIDLAY_OK, 0, "print");
        make(call_write, GRIDLAY_OK, 0, "write");
        it = (struct ending){look(), changes};
        make(call_open, GRIDLAY_OK, 0, "open again");
        make(call_answer, 0, 0, "answer");
    }
    gridlay_close(&page);
    return it;
}

int main(void)
{
    long at_first = blocks;
    struct ending whole = run(0);
    unsigned all = requests;
    expect(all > 0 && whole.last.text != NULL && whole.last.boxes != NULL, "requests for memory come here");
    for (unsigned number = 1; number <= all; number++) {
        long before = blocks;
        struct ending it = run(number);
        if (it.last.text != NULL) {
            expect(is_same(it.last.text, whole.last.text), "the document at the end, with request %u refused", number);
            expect(is_same(it.last.boxes, whole.last.boxes), "the boxes at the end, with request %u refused", number);
            expect(it.changes == whole.changes, "what changed, with request %u refused", number);
        }
        forget(it.last);
        expect(blocks == before, "%ld blocks are left, with request %u refused", blocks - before, number);
    }
    forget(whole.last);
    expect(blocks == at_first, "%ld blocks are left at the end", blocks - at_first);
    printf("%u requests, each refused in turn\n", all);
    return told();
}
