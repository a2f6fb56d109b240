/* Tests the life of a document: which calls answer at which time, rooms of each size, changes, hits, names. */
#include "expect.h"

static const char toolbar[] =
    "gridlay 1\n"
    "viewport 300 100\n"
    "bar flex { gap: 10px }\n"
    "  back leaf 40 20\n"
    "  title leaf 80 20\n"
    "  save leaf 60 20\n";

static const char toolbar_boxes[] = "bar 0 0 300 20\nback 0 0 40 20\ntitle 50 0 80 20\nsave 140 0 60 20\n";

/* ---- which calls answer */

/* All calls that read boxes, but for their rooms. */
static void expect_readers(gridlay *page, uint8_t answer, const char *when)
{
    uint8_t byte;
    size_t number;
    gridlay_rect rect;
    expect(gridlay_count(page, &number) == answer, "count, %s", when);
    expect(gridlay_boxes(page, NULL, 0, &number) == answer, "boxes, %s", when);
    expect(gridlay_box_of(page, (const uint8_t *)"bar", 3, &rect) == answer, "box_of, %s", when);
    expect(gridlay_name(page, 0, &byte, 0, &number) == answer, "name, %s", when);
    expect(gridlay_changed(page, NULL, 0, &number) == answer, "changed, %s", when);
    expect(gridlay_hit(page, 0, 0, &number) == answer, "hit, %s", when);
    expect(gridlay_print(page, NULL, 0, &number) == answer, "print, %s", when);
}

static void expect_closed(gridlay *page, const char *when)
{
    size_t length;
    gridlay_fault fault = {7, 7, 7};
    gridlay_counts counts;
    expect_readers(page, GRIDLAY_CLOSED, when);
    expect(edit_text(page, "undo 1", &fault) == GRIDLAY_CLOSED, "edit, %s", when);
    expect(fault.line == 0 && fault.column == 0 && fault.fault == 0, "edit tells no fault, %s", when);
    expect(gridlay_layout(page, &counts) == GRIDLAY_CLOSED, "layout, %s", when);
    expect(gridlay_write(page, NULL, 0, &length) == GRIDLAY_CLOSED, "write, %s", when);
}

static void test_life(void)
{
    gridlay page = {0};
    gridlay_fault fault;
    gridlay_counts counts;
    expect_closed(&page, "never opened");
    gridlay_close(&page);
    expect_closed(&page, "never opened, and closed");
    expect(open_text(&page, toolbar, &fault) == GRIDLAY_OK, "open");
    expect(fault.line == 0 && fault.column == 0 && fault.fault == 0, "open tells no fault");
    expect_readers(&page, GRIDLAY_STALE, "opened");
    expect(gridlay_layout(&page, &counts) == GRIDLAY_OK, "layout");
    expect(counts.measured > 0 && counts.added > 0, "the first layout measures and keeps");
    expect(prints(&page, toolbar_boxes), "the boxes of the document");
    expect(edit_text(&page, "remove z", &fault) == GRIDLAY_REFUSED, "a refused edit");
    expect(prints(&page, toolbar_boxes), "a refused edit leaves the boxes");
    expect(edit_text(&page, "set bar gap: 20px", &fault) == GRIDLAY_OK, "an edit");
    expect_readers(&page, GRIDLAY_STALE, "edited");
    expect(gridlay_layout(&page, &counts) == GRIDLAY_OK, "layout again");
    expect(prints(&page, "bar 0 0 300 20\nback 0 0 40 20\ntitle 60 0 80 20\nsave 160 0 60 20\n"), "the boxes after the edit");
    expect(gridlay_layout(&page, &counts) == GRIDLAY_OK && counts.measured == 0 && counts.added == 0, "a layout of nothing");
    gridlay_close(&page);
    expect_closed(&page, "closed");
    gridlay_close(&page);
    expect_closed(&page, "closed twice");
}

/* Another document takes the place of one; what is refused does not. */
static void test_open_again(void)
{
    static const char small[] = "gridlay 1\nviewport 10 10\nbar leaf 1 1\n";
    gridlay page = laid_out(toolbar);
    gridlay_fault fault;
    gridlay_counts counts;
    expect(open_text(&page, "gridlay 1\nviewport 1 1\n1 leaf 1 1\n", &fault) == GRIDLAY_REFUSED, "open a text that is none");
    expect(prints(&page, toolbar_boxes), "the document before is left with its boxes");
    expect(open_text(&page, small, &fault) == GRIDLAY_OK, "open over an open document");
    expect_readers(&page, GRIDLAY_STALE, "opened again");
    expect(edit_text(&page, "undo 1", &fault) == GRIDLAY_REFUSED && fault.fault == GRIDLAY_FAULT_NOTHING_TO_UNDO, "nothing to undo");
    expect(gridlay_layout(&page, &counts) == GRIDLAY_OK && prints(&page, "bar 0 0 10 1\n"), "its boxes");
    gridlay_close(&page);
    expect(open_text(&page, toolbar, &fault) == GRIDLAY_OK, "open what was closed");
    gridlay_close(&page);
}

/* Two documents do not touch each other. */
static void test_two(void)
{
    gridlay one = laid_out(toolbar), other = laid_out(toolbar);
    edit_and_lay_out(&one, "remove title");
    expect(prints(&other, toolbar_boxes), "the other document");
    gridlay_close(&one);
    expect(prints(&other, toolbar_boxes), "the other document, where one is closed");
    gridlay_close(&other);
}

/* ---- rooms */

/* A text in rooms that are too short, and in one that is longer: what is written, and nothing behind it. */
static void expect_bytes(uint8_t (*call)(gridlay *, uint8_t *, size_t, size_t *), gridlay *page, const char *what)
{
    char *whole = text_by(call, page);
    size_t all = whole == NULL ? 0 : strlen(whole);
    for (size_t size = 0; size <= all + 2; size++) {
        uint8_t *room = malloc(size + 1);
        size_t length = 0, fits = size < all ? size : all;
        if (room == NULL)
            abort();
        memset(room, 250, size + 1);
        expect(call(page, room, size, &length) == (size < all ? GRIDLAY_ROOM : GRIDLAY_OK), "%s in a room of %zu", what, size);
        expect(length == all, "%s in a room of %zu: %zu of %zu", what, size, length, all);
        expect(memcmp(room, whole, fits) == 0 && room[fits] == 250, "%s in a room of %zu: what stands there", what, size);
        free(room);
    }
    free(whole);
}

static uint8_t name_of_title(gridlay *page, uint8_t *room, size_t size, size_t *length)
{
    return gridlay_name(page, 2, room, size, length);
}

static uint8_t answer_of_toolbar(gridlay *page, uint8_t *room, size_t size, size_t *length)
{
    (void)page;
    return gridlay_answer((const uint8_t *)toolbar, strlen(toolbar), room, size, length);
}

static void test_rooms(void)
{
    static const int64_t widths[] = {300, 40, 80, 60};
    gridlay page = laid_out(toolbar);
    expect_bytes(gridlay_print, &page, "print");
    expect_bytes(gridlay_write, &page, "write");
    expect_bytes(name_of_title, &page, "name");
    expect_bytes(answer_of_toolbar, &page, "answer");
    for (size_t size = 0; size <= 5; size++) {
        gridlay_rect *boxes = malloc((size + 1) * sizeof *boxes);
        size_t *changed = malloc((size + 1) * sizeof *changed), count = 9, many = 9, fits = size < 4 ? size : 4;
        if (boxes == NULL || changed == NULL)
            abort();
        boxes[fits].x = 77;
        changed[fits] = 77;
        uint8_t due = size < 4 ? GRIDLAY_ROOM : GRIDLAY_OK;
        expect(gridlay_boxes(&page, boxes, size, &count) == due && count == 4, "boxes in a room of %zu", size);
        expect(gridlay_changed(&page, changed, size, &many) == due && many == 4, "changed in a room of %zu", size);
        expect(boxes[fits].x == 77 && changed[fits] == 77, "nothing stands behind a room of %zu", size);
        for (size_t i = 0; i < fits; i++)
            expect(changed[i] == i && boxes[i].width == widths[i] * 64, "box %zu in a room of %zu", i, size);
        free(boxes);
        free(changed);
    }
    gridlay_close(&page);
}

/* ---- what is read */

/* Whether just the boxes of these indices changed, which are written as digits. */
static int changes(gridlay *page, const char *indices)
{
    size_t room[8], many = 0;
    char text[9] = "";
    if (gridlay_changed(page, room, 8, &many) != GRIDLAY_OK)
        return 0;
    for (size_t i = 0; i < many; i++)
        text[i] = (char)('0' + room[i]);
    if (strcmp(text, indices) != 0)
        printf("changed is %s\n", text);
    return strcmp(text, indices) == 0;
}

static void test_changed(void)
{
    gridlay page = laid_out(toolbar);
    gridlay_counts counts;
    expect(changes(&page, "0123"), "after the first layout all boxes changed");
    expect(gridlay_layout(&page, &counts) == GRIDLAY_OK && changes(&page, ""), "no edit, no change");
    edit_and_lay_out(&page, "set title width: 90px");
    expect(changes(&page, "23"), "`title` is wider, and `save` moves");
    edit_and_lay_out(&page, "set title width: 90px");
    expect(changes(&page, ""), "the same again");
    edit_and_lay_out(&page, "insert bar 3 more leaf 10 20");
    expect(changes(&page, "4"), "a box that is new, behind the others");
    edit_and_lay_out(&page, "insert bar 0 first leaf 10 20");
    expect(changes(&page, "12345"), "a box that is new, before the others");
    edit_and_lay_out(&page, "remove more");
    expect(changes(&page, ""), "the last one went");
    edit_and_lay_out(&page, "remove first");
    expect(changes(&page, "123"), "the first one went");
    edit_and_lay_out(&page, "move save bar 0");
    expect(changes(&page, "123"), "another order");
    edit_and_lay_out(&page, "undo 1");
    expect(changes(&page, "123"), "and back");
    edit_and_lay_out(&page, "set title width: 100px");
    gridlay_fault fault;
    expect(edit_text(&page, "undo 1", &fault) == GRIDLAY_OK, "an edit");
    expect(edit_text(&page, "set back height: 21px", &fault) == GRIDLAY_OK, "and another");
    expect(gridlay_layout(&page, &counts) == GRIDLAY_OK && changes(&page, "0123"), "two edits before one layout");
    gridlay_close(&page);
}

static void test_names(void)
{
    gridlay page = laid_out(toolbar);
    gridlay_rect rect = {0};
    uint8_t name[58];
    size_t length = 9;
    expect(gridlay_box_of(&page, (const uint8_t *)"save", 4, &rect) == GRIDLAY_OK, "the box of a name");
    expect(rect.x == 140 * 64 && rect.y == 0 && rect.width == 60 * 64 && rect.height == 20 * 64, "in 1/64 px");
    expect(gridlay_box_of(&page, (const uint8_t *)"sav", 3, &rect) == GRIDLAY_NONE && rect.x == 140 * 64, "no such name");
    expect(gridlay_box_of(&page, (const uint8_t *)"saved", 5, &rect) == GRIDLAY_NONE, "a longer name");
    expect(gridlay_box_of(&page, NULL, 0, &rect) == GRIDLAY_NONE, "the empty name");
    expect(gridlay_name(&page, 3, name, sizeof name, &length) == GRIDLAY_OK, "the name of an index");
    expect(length == 4 && memcmp(name, "save", 4) == 0, "it is `save`");
    expect(gridlay_name(&page, 4, name, sizeof name, &length) == GRIDLAY_NONE && length == 4, "no such index");
    expect(gridlay_name(&page, SIZE_MAX, name, sizeof name, &length) == GRIDLAY_NONE, "the greatest index");
    expect(gridlay_count(&page, &length) == GRIDLAY_OK && length == 4, "how many boxes");
    gridlay_close(&page);
}

/* The page of docs/FORMAT.md, "A hit": where `note` lies over `side`. */
static void test_hits(void)
{
    static const struct { int64_t x, y; int box; } rows[] = {
        {60 * 64, 50 * 64, 3}, {90 * 64, 20 * 64, 2}, {70 * 64, 20 * 64, 0}, {150 * 64, 115 * 64, -1},
        {175 * 64 - 1, 20 * 64, 2}, {175 * 64, 20 * 64, 0}, {75 * 64, 5 * 64, 2}, {75 * 64 - 1, 5 * 64, 0},
        {90 * 64, 45 * 64 - 1, 2}, {90 * 64, 45 * 64, 0}, {-1, 0, -1}, {0, 0, 0}, {INT64_MAX, INT64_MIN, -1},
    };
    gridlay page = laid_out(
        "gridlay 1\n"
        "viewport 200 120\n"
        "page grid { grid-template-columns: 60px 100px; grid-template-rows: 40px 50px; gap: 10px; padding: 5px }\n"
        "  side leaf 60 100 { grid-row: 1 / 3 }\n"
        "  head leaf 100 40\n"
        "  note leaf 30 20 { margin: -10px 0 0 -20px; justify-self: start; align-self: start }\n");
    for (size_t i = 0; i < sizeof rows / sizeof *rows; i++) {
        size_t index = 9;
        uint8_t answer = gridlay_hit(&page, rows[i].x, rows[i].y, &index);
        if (rows[i].box < 0)
            expect(answer == GRIDLAY_NONE && index == 9, "hit %zu: %u, %zu", i, answer, index);
        else
            expect(answer == GRIDLAY_OK && index == (size_t)rows[i].box, "hit %zu: %u, %zu", i, answer, index);
    }
    gridlay_close(&page);
}

int main(void)
{
    test_life();
    test_open_again();
    test_two();
    test_rooms();
    test_changed();
    test_names();
    test_hits();
    return told();
}
