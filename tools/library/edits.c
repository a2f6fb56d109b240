/* Tests each kind of edit by its boxes, and each fault of documents and of edits with its place. The values are
 * worked by hand. */
#include "expect.h"

/* ---- each kind of edit */

/* An edit, and the boxes after it. */
struct step {
    const char *line, *boxes;
};

/* A flex container of 300 px with gaps of 10: its items stand side by side, and are as high as the highest. */
static const struct step steps[] = {
    {"set title flex-grow: 1", "bar 0 0 300 20\nback 0 0 40 20\ntitle 50 0 180 20\nsave 240 0 60 20\n"},
    {"unset title flex-grow", "bar 0 0 300 20\nback 0 0 40 20\ntitle 50 0 80 20\nsave 140 0 60 20\n"},
    {"insert bar 1 new leaf 30 30", "bar 0 0 300 30\nback 0 0 40 30\nnew 50 0 30 30\ntitle 90 0 80 30\nsave 180 0 60 30\n"},
    {"move save bar 0", "bar 0 0 300 30\nsave 0 0 60 30\nback 70 0 40 30\nnew 120 0 30 30\ntitle 160 0 80 30\n"},
    {"remove new", "bar 0 0 300 20\nsave 0 0 60 20\nback 70 0 40 20\ntitle 120 0 80 20\n"},
    /* one line of 40 + 8 + 50 */
    {"content title words 20 8 40 50", "bar 0 0 300 20\nsave 0 0 60 20\nback 70 0 40 20\ntitle 120 0 98 20\n"},
    /* all are as narrow as they can be, so the words stand in two lines */
    {"viewport 100 100", "bar 0 0 100 40\nsave 0 0 60 40\nback 70 0 40 40\ntitle 120 0 50 40\n"},
    {"undo 2", "bar 0 0 300 20\nsave 0 0 60 20\nback 70 0 40 20\ntitle 120 0 80 20\n"},
    {"redo 1", "bar 0 0 300 20\nsave 0 0 60 20\nback 70 0 40 20\ntitle 120 0 98 20\n"},
    {"set bar gap: 0.015625px # a comment", "bar 0 0 300 20\nsave 0 0 60 20\nback 60.015625 0 40 20\ntitle 100.03125 0 98 20\n"},
};

static void test_edits(void)
{
    gridlay page = laid_out(
        "gridlay 1\n"
        "viewport 300 100\n"
        "bar flex { gap: 10px }\n"
        "  back leaf 40 20\n"
        "  title leaf 80 20\n"
        "  save leaf 60 20\n");
    for (size_t i = 0; i < sizeof steps / sizeof *steps; i++) {
        const char *line = steps[i].line;
        gridlay_fault fault;
        gridlay_counts counts;
        expect(edit_text(&page, line, &fault) == GRIDLAY_OK, "%s: fault %u at %u", line, fault.fault, fault.column);
        expect(gridlay_layout(&page, &counts) == GRIDLAY_OK && prints(&page, steps[i].boxes), "the boxes after: %s", line);
    }
    gridlay_close(&page);
}

/* ---- faults */

/* A text that is refused, and where, and by which fault. */
struct refusal {
    const char *text;
    uint32_t line, column;
    uint8_t fault;
};

#define HEAD "gridlay 1\nviewport 1 1\n"

static const struct refusal documents[] = {
    {"gridlay 1\r\nviewport 1 1\nm leaf 1 1\n", 1, 10, GRIDLAY_FAULT_BAD_BYTE},
    {"", 1, 1, GRIDLAY_FAULT_BAD_HEADER},
    {"gridlay 3\nviewport 1 1\nm leaf 1 1\n", 1, 1, GRIDLAY_FAULT_BAD_HEADER},
    {"gridlay 1\n", 2, 1, GRIDLAY_FAULT_BAD_HEADER},
    {HEAD "  m leaf 1 1\n", 3, 3, GRIDLAY_FAULT_BAD_INDENT},
    {HEAD "m grid\n    n leaf 1 1\n", 4, 5, GRIDLAY_FAULT_BAD_INDENT},
    {HEAD "1m leaf 1 1\n", 3, 1, GRIDLAY_FAULT_BAD_NAME},
    {HEAD "m grid\n---\n", 4, 1, GRIDLAY_FAULT_BAD_NAME},
    {HEAD "m grid\n  m leaf 1 1\n", 4, 3, GRIDLAY_FAULT_DUPLICATE_NAME},
    {HEAD "m div\n", 3, 3, GRIDLAY_FAULT_UNKNOWN_KIND},
    {HEAD "m grid { grid-gap: 1px }\n", 3, 10, GRIDLAY_FAULT_UNKNOWN_PROPERTY},
    {HEAD "m grid { gap: 1 }\n", 3, 15, GRIDLAY_FAULT_BAD_VALUE},
    {HEAD "m leaf 1", 3, 9, GRIDLAY_FAULT_BAD_VALUE},
    {HEAD "m grid { width: 1px; width: 2px }\n", 3, 22, GRIDLAY_FAULT_DUPLICATE_PROPERTY},
    {HEAD "m grid { display: grid }\n", 3, 10, GRIDLAY_FAULT_UNSUPPORTED},
    {HEAD "m leaf 1 1\n  n leaf 1 1\n", 4, 3, GRIDLAY_FAULT_LEAF_HAS_CHILDREN},
    {HEAD "m grid\nn grid\n", 4, 1, GRIDLAY_FAULT_SECOND_ROOT},
    {HEAD, 3, 1, GRIDLAY_FAULT_NO_ROOT},
};

/* Edits of a document with a box `a`, and a grid `b` around `c`. */
static const struct refusal edits[] = {
    {"set a width: 1px\t", 1, 17, GRIDLAY_FAULT_BAD_BYTE},
    {"set a width: 1px\n", 1, 17, GRIDLAY_FAULT_BAD_BYTE},
    {"insert main 0 1x leaf 1 1", 1, 15, GRIDLAY_FAULT_BAD_NAME},
    {"insert main 0 a leaf 1 1", 1, 15, GRIDLAY_FAULT_DUPLICATE_NAME},
    {"content a div 1 1", 1, 11, GRIDLAY_FAULT_UNKNOWN_KIND},
    {"set a grid-gap: 1px", 1, 7, GRIDLAY_FAULT_UNKNOWN_PROPERTY},
    {"unset a grid-gap", 1, 9, GRIDLAY_FAULT_UNKNOWN_PROPERTY},
    {"set a width: 1", 1, 14, GRIDLAY_FAULT_BAD_VALUE},
    {"viewport 1", 1, 11, GRIDLAY_FAULT_BAD_VALUE},
    {"undo 0", 1, 6, GRIDLAY_FAULT_BAD_VALUE},
    {"insert main 0 d leaf 1 1 { width: 1px; width: 2px }", 1, 40, GRIDLAY_FAULT_DUPLICATE_PROPERTY},
    {"set a display: grid", 1, 7, GRIDLAY_FAULT_UNSUPPORTED},
    {"set a width: 1em", 1, 14, GRIDLAY_FAULT_UNSUPPORTED},
    {"insert a 0 d leaf 1 1", 1, 8, GRIDLAY_FAULT_LEAF_HAS_CHILDREN},
    {"move b a 0", 1, 8, GRIDLAY_FAULT_LEAF_HAS_CHILDREN},
    {"content b leaf 1 1", 1, 9, GRIDLAY_FAULT_LEAF_HAS_CHILDREN},
    {"delete a", 1, 1, GRIDLAY_FAULT_UNKNOWN_EDIT},
    {"", 1, 1, GRIDLAY_FAULT_UNKNOWN_EDIT},
    {"---", 1, 1, GRIDLAY_FAULT_UNKNOWN_EDIT},
    {"hit 1 1", 1, 1, GRIDLAY_FAULT_UNKNOWN_EDIT},
    {"set z width: 1px", 1, 5, GRIDLAY_FAULT_UNKNOWN_NAME},
    {"move c z 0", 1, 8, GRIDLAY_FAULT_UNKNOWN_NAME},
    {"remove main", 1, 8, GRIDLAY_FAULT_ROOT},
    {"move b b 0", 1, 8, GRIDLAY_FAULT_CYCLE},
    {"move c main 3", 1, 13, GRIDLAY_FAULT_BAD_INDEX},
    {"insert b 2 d leaf 1 1", 1, 10, GRIDLAY_FAULT_BAD_INDEX},
    {"undo 1", 1, 6, GRIDLAY_FAULT_NOTHING_TO_UNDO},
    {"redo 1", 1, 6, GRIDLAY_FAULT_NOTHING_TO_REDO},
};

/* Whether a fault is the one that is due. */
static int is(gridlay_fault fault, uint32_t line, uint32_t column, uint8_t number)
{
    if (fault.line == line && fault.column == column && fault.fault == number)
        return 1;
    printf("fault %u at %u:%u\n", fault.fault, fault.line, fault.column);
    return 0;
}

/* Opens a text that is refused. */
static void expect_refused(const char *text, uint32_t line, uint32_t column, uint8_t number)
{
    gridlay page = {0};
    gridlay_fault fault;
    size_t count;
    expect(open_text(&page, text, &fault) == GRIDLAY_REFUSED, "refused is: %.60s", text);
    expect(is(fault, line, column, number), "fault %u at %u:%u is of: %.60s", number, line, column, text);
    expect(gridlay_count(&page, &count) == GRIDLAY_CLOSED, "there is no document after: %.60s", text);
    gridlay_close(&page);
}

/* Makes an edit that is refused, which leaves the text of the document and the boxes. */
static void expect_refused_edit(gridlay *page, const char *line, uint32_t column, uint8_t number)
{
    gridlay_fault fault;
    char *text = text_by(gridlay_write, page), *boxes = text_by(gridlay_print, page);
    expect(edit_text(page, line, &fault) == GRIDLAY_REFUSED, "refused is: %.60s", line);
    expect(is(fault, 1, column, number), "fault %u at %u is of: %.60s", number, column, line);
    char *text_after = text_by(gridlay_write, page), *boxes_after = text_by(gridlay_print, page);
    expect(text && text_after && strcmp(text, text_after) == 0, "the document is the same after: %.60s", line);
    expect(boxes && boxes_after && strcmp(boxes, boxes_after) == 0, "the boxes are read as before after: %.60s", line);
    free(text);
    free(boxes);
    free(text_after);
    free(boxes_after);
}

static void test_refusals(void)
{
    for (size_t i = 0; i < sizeof documents / sizeof *documents; i++)
        expect_refused(documents[i].text, documents[i].line, documents[i].column, documents[i].fault);
    gridlay page = laid_out("gridlay 1\nviewport 300 200\nmain grid { }\n  a leaf 10 10\n  b grid\n    c leaf 5 5\n");
    for (size_t i = 0; i < sizeof edits / sizeof *edits; i++)
        expect_refused_edit(&page, edits[i].text, edits[i].column, edits[i].fault);
    gridlay_close(&page);
}

static void test_null_texts(void)
{
    gridlay page = {0};
    gridlay_fault fault;
    size_t length = 0;
    uint8_t room[64];
    expect(gridlay_open(&page, NULL, 0, &fault) == GRIDLAY_REFUSED && is(fault, 1, 1, GRIDLAY_FAULT_BAD_HEADER), "no text at all");
    page = laid_out(HEAD "m leaf 1 1\n");
    expect(gridlay_edit(&page, NULL, 0, &fault) == GRIDLAY_REFUSED && is(fault, 1, 1, GRIDLAY_FAULT_UNKNOWN_EDIT), "no line at all");
    gridlay_close(&page);
    expect(gridlay_answer(NULL, 0, room, sizeof room, &length) == 2, "no input at all");
    expect(length == 25 && memcmp(room, "refused 0 1:1 bad-header\n", 25) == 0, "its answer");
    expect(gridlay_answer(NULL, 0, NULL, 0, &length) == GRIDLAY_ROOM && length == 25, "and no room");
}

/* ---- limits */

/* A text of so many lines, of which each is written by `put` with its number, after the header lines. */
static char *text_of(int lines, size_t most, int (*put)(char *, int))
{
    char *text = malloc(sizeof HEAD + lines * most);
    if (text == NULL)
        abort();
    size_t at = strlen(strcpy(text, HEAD));
    for (int i = 1; i <= lines; i++)
        at += put(text + at, i);
    return text;
}

static int put_level(char *at, int level)
{
    return sprintf(at, "%*sn%d grid\n", 2 * (level - 1), "", level);
}

static int put_child(char *at, int number)
{
    return sprintf(at, number == 1 ? "n1 grid\n" : "  n%d leaf 1 1\n", number);
}

/* One level and one node more than there can be. */
static void test_most_nodes(void)
{
    char *text = text_of(65, 150, put_level);
    expect_refused(text, 67, 129, GRIDLAY_FAULT_TOO_DEEP);
    free(text);
    text = text_of(64, 150, put_level);
    gridlay page = laid_out(text);
    expect_refused_edit(&page, "insert n64 0 x leaf 1 1", 14, GRIDLAY_FAULT_TOO_DEEP);
    gridlay_close(&page);
    free(text);
    text = text_of(32769, 24, put_child);
    expect_refused(text, 32771, 3, GRIDLAY_FAULT_TOO_MANY_NODES);
    free(text);
    text = text_of(32768, 24, put_child);
    page = laid_out(text);
    expect_refused_edit(&page, "insert n1 0 x leaf 1 1", 13, GRIDLAY_FAULT_TOO_MANY_NODES);
    gridlay_close(&page);
    free(text);
}

/* Lines of 65,536 and 65,537 bytes, and a text of 2^26 and of 2^26 + 1. */
static void test_most_bytes(void)
{
    enum { LINE = 65536, TEXT = 1 << 26 };
    char *line = malloc(LINE + 2), *text = malloc(TEXT + 2);
    gridlay page = laid_out(HEAD "m leaf 1 1\n");
    gridlay_fault fault;
    if (line == NULL || text == NULL)
        abort();
    memset(line, ' ', LINE + 1);
    memcpy(line, "set m width: 1px", 16);
    line[LINE] = '\0';
    expect(edit_text(&page, line, &fault) == GRIDLAY_OK, "a line of 65,536 bytes");
    line[LINE] = ' ';
    line[LINE + 1] = '\0';
    expect(edit_text(&page, line, &fault) == GRIDLAY_REFUSED && is(fault, 1, LINE + 1, GRIDLAY_FAULT_LINE_TOO_LONG), "one byte more");
    memset(text, '\n', TEXT + 1);
    memcpy(text, HEAD "m leaf 1 1", strlen(HEAD "m leaf 1 1"));
    expect(gridlay_open(&page, (const uint8_t *)text, TEXT, &fault) == GRIDLAY_OK, "a text of 2^26 bytes");
    expect(gridlay_open(&page, (const uint8_t *)text, TEXT + 1, &fault) == GRIDLAY_LIMIT, "one byte more");
    expect(is(fault, 0, 0, 0) && edit_text(&page, "set m width: 2px", &fault) == GRIDLAY_OK, "and the document before is there");
    gridlay_close(&page);
    free(line);
    free(text);
}

int main(void)
{
    test_edits();
    test_refusals();
    test_null_texts();
    test_most_nodes();
    test_most_bytes();
    return told();
}
