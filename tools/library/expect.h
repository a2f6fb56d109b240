/* What the C tests of the library share. Each test file has a `main` that ends with `return told();`. */
#ifndef EXPECT_H
#define EXPECT_H

#include <gridlay.h>

#include <stdio.h>
#include <stdlib.h>
#include <string.h>

static int wanted, failed;

/* expect(TRUTH, FORMAT, ..): counts a test, and says which one failed. */
#define expect(truth, ...)                                   \
    do {                                                     \
        wanted++;                                            \
        if (!(truth)) {                                      \
            failed++;                                        \
            printf("FAILED, %s:%d: ", __FILE__, __LINE__);   \
            printf(__VA_ARGS__);                             \
            putchar('\n');                                   \
        }                                                    \
    } while (0)

static inline int told(void)
{
    printf("%d of %d hold\n", wanted - failed, wanted);
    return failed > 0;
}

/* The calls with texts that end with a zero. */
static inline uint8_t open_text(gridlay *page, const char *text, gridlay_fault *fault)
{
    return gridlay_open(page, (const uint8_t *)text, strlen(text), fault);
}

static inline uint8_t edit_text(gridlay *page, const char *line, gridlay_fault *fault)
{
    return gridlay_edit(page, (const uint8_t *)line, strlen(line), fault);
}

/* Reads a text that a call writes, in just the room that it needs, with a zero behind it; NULL where the call
 * has none. */
static inline char *text_by(uint8_t (*call)(gridlay *, uint8_t *, size_t, size_t *), gridlay *page)
{
    size_t length = 0, again = 0;
    if (call(page, NULL, 0, &length) != GRIDLAY_ROOM)
        return NULL;
    uint8_t *exact = malloc(length);
    char *text = malloc(length + 1);
    if (exact == NULL || text == NULL || call(page, exact, length, &again) != GRIDLAY_OK || again != length)
        abort();
    memcpy(text, exact, length);
    text[length] = '\0';
    free(exact);
    return text;
}

/* Whether the boxes are printed so, below `layout 0`. */
static inline int prints(gridlay *page, const char *boxes)
{
    static const char head[] = "layout 0\n";
    char *text = text_by(gridlay_print, page);
    int same = text != NULL && strncmp(text, head, strlen(head)) == 0 && strcmp(text + strlen(head), boxes) == 0;
    if (!same)
        printf("printed is:\n%s", text == NULL ? "nothing\n" : text);
    free(text);
    return same;
}

/* A document that is opened and laid out. */
static inline gridlay laid_out(const char *text)
{
    gridlay page = {0};
    gridlay_fault fault;
    gridlay_counts counts;
    if (open_text(&page, text, &fault) != GRIDLAY_OK || gridlay_layout(&page, &counts) != GRIDLAY_OK)
        abort();
    return page;
}

/* Edits, and lays out. */
static inline void edit_and_lay_out(gridlay *page, const char *line)
{
    gridlay_fault fault;
    gridlay_counts counts;
    if (edit_text(page, line, &fault) != GRIDLAY_OK || gridlay_layout(page, &counts) != GRIDLAY_OK)
        abort();
}

#endif
