/* A text that is typed, key by key: after each key the boxes that changed are printed.
 *
 *     ./gridlay library
 *     gcc -Iinclude examples/c/typing.c out/libgridlay.a -o typing && ./typing
 */
#include <gridlay.h>

#include <stdio.h>
#include <stdlib.h>
#include <string.h>

static const char document[] =
    "gridlay 1\n"
    "viewport 200 100\n"
    "page grid { grid-template-columns: 120px 60px; gap: 10px }\n"
    "  note words 20 8\n"
    "  side leaf 60 10\n";

static const char typed[] = "grids in grids stay aligned";

/* The font: each of its characters is so wide, and a line so high. A real one is asked for the width of a word. */
enum { CHARACTER = 8, LINE = 20 };

static size_t width_of(const char *word, size_t length)
{
    (void)word;
    return CHARACTER * length;
}

/* Ends with a word where an answer is not the one that is due. */
static void want(uint8_t answer, const char *call)
{
    if (answer == GRIDLAY_OK)
        return;
    fprintf(stderr, "%s answers %u\n", call, answer);
    exit(1);
}

/* The edit that gives `note` the first `length` bytes of the text: the widths of their words, which the engine
 * fills into lines. */
static void say_words(char line[1000], size_t length)
{
    int at = sprintf(line, "content note words %d %d", LINE, CHARACTER);
    for (size_t start = 0, end; start < length; start = end + 1) {
        end = start + strcspn(typed + start, " ");
        if (end > length)
            end = length;
        at += sprintf(line + at, " %zu", width_of(typed + start, end - start));
    }
}

static double px(int64_t units)
{
    return units / 64.0;
}

/* Lays out, and prints each box that changed. */
static void show_changes(gridlay *page, const char *title)
{
    gridlay_counts counts;
    gridlay_rect boxes[3];
    size_t changed[3], all, many;

    want(gridlay_layout(page, &counts), "gridlay_layout");
    want(gridlay_boxes(page, boxes, 3, &all), "gridlay_boxes");
    want(gridlay_changed(page, changed, 3, &many), "gridlay_changed");
    if (many > 0)
        puts(title);
    for (size_t i = 0; i < many; i++) {
        gridlay_rect box = boxes[changed[i]];
        uint8_t name[58];
        size_t length;
        want(gridlay_name(page, changed[i], name, sizeof name, &length), "gridlay_name");
        printf("  %.*s", (int)length, (const char *)name);
        printf(" %g %g %g %g\n", px(box.x), px(box.y), px(box.width), px(box.height));
    }
}

int main(void)
{
    gridlay page = {0};
    gridlay_fault fault;
    char line[1000], title[100];

    want(gridlay_open(&page, (const uint8_t *)document, strlen(document), &fault), "gridlay_open");
    show_changes(&page, "opened");
    for (size_t length = 1; length <= strlen(typed); length++) {
        say_words(line, length);
        want(gridlay_edit(&page, (const uint8_t *)line, strlen(line), &fault), "gridlay_edit");
        sprintf(title, "%.*s", (int)length, typed);
        show_changes(&page, title);
    }
    gridlay_close(&page);
    return 0;
}
