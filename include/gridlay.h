/* gridlay.h: the layout engine as a library. `./gridlay library` proves and builds it and tells where it lies:
 *
 *     gcc -Iinclude page.c out/libgridlay.a -o page
 *
 * A document is opened, edited by lines of text, laid out, and asked for its boxes. Documents and edits are the
 * text of docs/FORMAT.md, of either version.
 *
 * Text needs no callback: the caller measures each word once, in its own font, and passes the widths. The engine
 * fills the lines. So a paragraph that was typed into is one edit: the height of a line, the width of a space,
 * and the widths of the words, in px:
 *
 *     const char *line = "content note words 24 6 60 40.5 80";
 *     gridlay_edit(&page, (const uint8_t *)line, strlen(line), &fault);
 *
 * What does not fit this stays outside: a widget whose height follows from its width by a rule of its own. Lay
 * out with a guess, read the width of its box, and pass `content NAME leaf WIDTH HEIGHT`.
 *
 * Units. Lengths in a text are in px. Those in a `gridlay_rect`, and a point, are in units of 1/64 px: all
 * results are whole units.
 *
 * Memory. A document is owned by its `gridlay` from gridlay_open to gridlay_close; it takes memory from malloc.
 * Texts, rooms and results are the caller's: they are read or written during the call and not kept. Nothing that
 * a call writes has to be freed. Each edit is kept, so that it can be taken back; who wants none of that writes
 * the document, and opens the text again.
 *
 * Pointers. Where a size is 0 its text or room may be null. No other pointer may be, and rooms and results do
 * not overlap.
 *
 * Threads. A document stays on its thread, and there is one call on it at a time. Two documents share nothing.
 *
 * Rooms. A call that writes a list into a room tells how many elements there are. Where these are more than the
 * room has, the answer is GRIDLAY_ROOM, and the room is full of the first ones. So a room of size 0 asks for the
 * count.
 *
 * Results are written with GRIDLAY_OK, counts with GRIDLAY_ROOM too. With another answer they are left as they
 * are, but a `gridlay_fault` is always written: zeros where nothing is refused. */
#ifndef GRIDLAY_H
#define GRIDLAY_H

#include <stdbool.h>
#include <stddef.h>
#include <stdint.h>

#ifdef __cplusplus
extern "C" {
#endif

/* A document with what was found of it. It begins as zeros, `gridlay page = {0};`, and then is handed to the
 * calls and never read or written. It may be moved, but a copy is no second document. */
typedef struct gridlay {
    bool full;
    void *at;
} gridlay;

/* A box: the border box of a node, in 1/64 px. `x` and `y` are the distances of its left and its upper edge from
 * the upper left corner of the viewport, whatever the node stands in. */
typedef struct gridlay_rect {
    int64_t x;
    int64_t y;
    int64_t width;
    int64_t height;
} gridlay_rect;

/* Why a text was refused, and where: the line and the byte of the text, both counted from 1, and the number of
 * the fault. */
typedef struct gridlay_fault {
    uint32_t line;
    uint32_t column;
    uint8_t fault;
} gridlay_fault;

/* What a layout took: how often a leaf was measured, and how many answers were kept. */
typedef struct gridlay_counts {
    uint64_t measured;
    uint64_t added;
} gridlay_counts;

/* The answers of the calls. Where the answer is another than GRIDLAY_OK, the document is as before, but where a
 * call says so. */
enum {
    GRIDLAY_OK = 0,
    GRIDLAY_ROOM = 1,    /* the room is too short; the count tells what is needed */
    GRIDLAY_NONE = 2,    /* no node has this name or index, or no box contains the point */
    GRIDLAY_REFUSED = 3, /* the text is refused; the fault tells why and where */
    GRIDLAY_CLOSED = 4,  /* no document: it was never opened, or it was closed */
    GRIDLAY_STALE = 5,   /* the document was not laid out since it was opened or edited last */
    GRIDLAY_MEMORY = 6,  /* memory was wanting */
    GRIDLAY_LIMIT = 7,   /* the text has more than 2^26 bytes */
    GRIDLAY_LONG = 8     /* a line of the text would have more than 65,536 bytes */
};

/* The numbers of the faults. docs/FORMAT.md, "Faults", says when each comes. */
enum {
    GRIDLAY_FAULT_BAD_BYTE = 1,
    GRIDLAY_FAULT_LINE_TOO_LONG = 2,
    GRIDLAY_FAULT_BAD_HEADER = 3,
    GRIDLAY_FAULT_BAD_INDENT = 4,
    GRIDLAY_FAULT_BAD_NAME = 5,
    GRIDLAY_FAULT_DUPLICATE_NAME = 6,
    GRIDLAY_FAULT_UNKNOWN_KIND = 7,
    GRIDLAY_FAULT_UNKNOWN_PROPERTY = 8,
    GRIDLAY_FAULT_BAD_VALUE = 9,
    GRIDLAY_FAULT_DUPLICATE_PROPERTY = 10,
    GRIDLAY_FAULT_UNSUPPORTED = 11,
    GRIDLAY_FAULT_TOO_DEEP = 12,
    GRIDLAY_FAULT_TOO_MANY_NODES = 13,
    GRIDLAY_FAULT_LEAF_HAS_CHILDREN = 14,
    GRIDLAY_FAULT_SECOND_ROOT = 15,
    GRIDLAY_FAULT_NO_ROOT = 16,
    GRIDLAY_FAULT_UNKNOWN_EDIT = 20,
    GRIDLAY_FAULT_UNKNOWN_NAME = 21,
    GRIDLAY_FAULT_ROOT = 22,
    GRIDLAY_FAULT_CYCLE = 23,
    GRIDLAY_FAULT_BAD_INDEX = 24,
    GRIDLAY_FAULT_NOTHING_TO_UNDO = 25,
    GRIDLAY_FAULT_NOTHING_TO_REDO = 26
};

/* Reads a document: its two header lines and its nodes, without a script.
 *   GRIDLAY_OK       `page` has the document, and nothing is laid out yet; the one that stood there before is let go
 *   GRIDLAY_REFUSED  the text has a fault, and the first one is told; `page` is as before
 *   GRIDLAY_LIMIT, GRIDLAY_MEMORY   `page` is as before */
uint8_t gridlay_open(gridlay *page, const uint8_t *text, size_t size, gridlay_fault *fault);

/* Makes one edit: a line of a script, without its line feed. The edits are `set`, `unset`, `insert`, `remove`,
 * `move`, `content`, `viewport`, `undo` and `redo`. A `hit` is refused as an unknown edit: gridlay_hit asks it.
 * An empty line is one too.
 *   GRIDLAY_OK       the document is the edited one; its boxes are read after the next layout
 *   GRIDLAY_REFUSED  nothing is changed, and the boxes are read as before; the line of the fault is 1
 *   GRIDLAY_CLOSED
 *   GRIDLAY_MEMORY   nothing is changed; but of `undo N` and `redo N` some of the N may be made, each whole */
uint8_t gridlay_edit(gridlay *page, const uint8_t *line, size_t size, gridlay_fault *fault);

/* Lays out what the edits since the last layout reach. The boxes are then read until the next edit that is made.
 *   GRIDLAY_OK, GRIDLAY_CLOSED
 *   GRIDLAY_MEMORY   the document is as before, and not laid out */
uint8_t gridlay_layout(gridlay *page, gridlay_counts *counts);

/* How many boxes there are, one for each node.
 *   GRIDLAY_OK, GRIDLAY_CLOSED, GRIDLAY_STALE */
uint8_t gridlay_count(gridlay *page, size_t *count);

/* All boxes, in the order of the lines of the document: each node before its children. The first has index 0.
 *   GRIDLAY_OK, GRIDLAY_ROOM, GRIDLAY_CLOSED, GRIDLAY_STALE */
uint8_t gridlay_boxes(gridlay *page, gridlay_rect *room, size_t size, size_t *count);

/* The box of a node, by its name, which is looked for from the first box on: who asks for many reads gridlay_boxes
 * once.
 *   GRIDLAY_OK, GRIDLAY_CLOSED, GRIDLAY_STALE
 *   GRIDLAY_NONE     no node has this name */
uint8_t gridlay_box_of(gridlay *page, const uint8_t *name, size_t size, gridlay_rect *box);

/* The name of the node whose box has this index. A name has at most 58 bytes; no zero is written after it.
 *   GRIDLAY_OK, GRIDLAY_ROOM, GRIDLAY_CLOSED, GRIDLAY_STALE
 *   GRIDLAY_NONE     there is no such box */
uint8_t gridlay_name(gridlay *page, size_t index, uint8_t *room, size_t size, size_t *length);

/* What the last layout changed, which is what a toolkit paints again: the indices of the boxes, in order, that
 * the layout before it did not have with the same name and the same rectangle. After the first layout these are
 * all of them. A node that went has no box, and one whose words are others may have the box that it had.
 *   GRIDLAY_OK, GRIDLAY_ROOM, GRIDLAY_CLOSED, GRIDLAY_STALE */
uint8_t gridlay_changed(gridlay *page, size_t *room, size_t size, size_t *count);

/* Which box is at a point: the index of the last one, in document order, that contains it. The left and the
 * upper edge belong to a box, the right and the lower one do not.
 *   GRIDLAY_OK, GRIDLAY_CLOSED, GRIDLAY_STALE, GRIDLAY_MEMORY
 *   GRIDLAY_NONE     no box contains the point */
uint8_t gridlay_hit(gridlay *page, int64_t x, int64_t y, size_t *index);

/* The boxes as text, in px: the line `layout 0`, and a line `NAME x y width height` for each box, as the program
 * prints them.
 *   GRIDLAY_OK, GRIDLAY_ROOM, GRIDLAY_CLOSED, GRIDLAY_STALE, GRIDLAY_MEMORY */
uint8_t gridlay_print(gridlay *page, uint8_t *room, size_t size, size_t *length);

/* The document as text, in its one canonical form, which reads as the same document. It need not be laid out.
 *   GRIDLAY_OK, GRIDLAY_ROOM, GRIDLAY_CLOSED, GRIDLAY_MEMORY
 *   GRIDLAY_LONG     there is no such text: a line of it would be too long */
uint8_t gridlay_write(gridlay *page, uint8_t *room, size_t size, size_t *length);

/* Lets the document go, if there is one. The `page` can be opened again. */
void gridlay_close(gridlay *page);

/* What the program writes: the output of `gridlay layout` for an input of these bytes, a document and its
 * script. No `gridlay` is wanted. The answer is the program's status (docs/FORMAT.md, "Output and statuses"):
 *   0                all edits were made
 *   2                the document is refused
 *   3                edits are refused
 *   6                memory was wanting
 *   7                there are more than 2^26 bytes
 *   GRIDLAY_ROOM     the room is too short; `length` tells what is needed */
uint8_t gridlay_answer(const uint8_t *input, size_t size, uint8_t *room, size_t room_size, size_t *length);

#ifdef __cplusplus
}
#endif

#endif
