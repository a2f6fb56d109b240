/* Makes ten thousand edits of each kind that leaves nothing behind, and looks that no memory is left behind; and as
 * many of which each can be taken back, which may take a little. All is given back when the document is opened again.
 * Link it with -Wl,--wrap=malloc,--wrap=realloc,--wrap=free: so all requests for memory come here. */
#include "expect.h"

#include <malloc.h>

enum { EDITS = 10000, MOST_OF_AN_EDIT = 2048, LITTLE = 4096 };

void *__real_malloc(size_t size);
void *__real_realloc(void *place, size_t size);
void __real_free(void *place);

/* What is taken and not given back. */
static long blocks, bytes;

static void *taken(void *place)
{
    blocks += place != NULL;
    bytes += (long)malloc_usable_size(place);
    return place;
}

static void given_back(void *place)
{
    blocks -= place != NULL;
    bytes -= (long)malloc_usable_size(place);
}

void *__wrap_malloc(size_t size)
{
    return taken(__real_malloc(size));
}

void *__wrap_realloc(void *place, size_t size)
{
    size_t had = malloc_usable_size(place);
    void *got = __real_realloc(place, size);
    if (got == NULL)
        return NULL;
    blocks -= place != NULL;
    bytes -= (long)had;
    return taken(got);
}

void __wrap_free(void *place)
{
    given_back(place);
    __real_free(place);
}

static const char page_of_cards[] =
    "gridlay 2\n"
    "viewport 400 300\n"
    "main grid { grid-template-columns: repeat(auto-fill, minmax(100px, 1fr)); gap: 4px }\n"
    "  a words 20 8 30 40 50\n"
    "  b flex { flex-wrap: wrap }\n"
    "    c leaf 70 10\n"
    "    d leaf 70 10\n";

static gridlay page;

static void set_and_undo(int number)
{
    char line[100];
    sprintf(line, "set c width: %dpx", 50 + number % 7);
    edit_and_lay_out(&page, line);
    edit_and_lay_out(&page, "undo 1");
}

static void type(int number)
{
    char line[100];
    sprintf(line, "content a words 20 8 30 40 50 %d", 10 + number % 30);
    edit_and_lay_out(&page, line);
}

static void type_and_undo(int number)
{
    type(number);
    edit_and_lay_out(&page, "undo 1");
}

static void insert_and_undo(int number)
{
    edit_and_lay_out(&page, number % 2 ? "insert b 0 e leaf 10 10" : "insert main 1 e words 10 4 20 20");
    edit_and_lay_out(&page, "undo 1");
}

static void be_refused(int number)
{
    gridlay_fault fault;
    if (edit_text(&page, number % 2 ? "remove main" : "set a width: 1", &fault) != GRIDLAY_REFUSED)
        abort();
}

static void open_again(int number)
{
    gridlay_fault fault;
    gridlay_counts counts;
    (void)number;
    if (open_text(&page, page_of_cards, &fault) != GRIDLAY_OK || gridlay_layout(&page, &counts) != GRIDLAY_OK)
        abort();
}

static void read_all(int number)
{
    size_t index;
    if (gridlay_hit(&page, 64 * number, 64, &index) == GRIDLAY_MEMORY)
        abort();
    free(text_by(gridlay_print, &page));
    free(text_by(gridlay_write, &page));
}

/* After a hundred of them, ten thousand more take no memory. */
static void expect_no_growth(void (*make)(int), const char *what)
{
    for (int i = 0; i < 100; i++)
        make(i);
    long before = blocks, bytes_before = bytes;
    for (int i = 0; i < EDITS; i++)
        make(i);
    expect(blocks == before, "%s %d times leaves %ld blocks", what, EDITS, blocks - before);
    expect(labs(bytes - bytes_before) <= LITTLE, "%s %d times leaves %ld bytes", what, EDITS, bytes - bytes_before);
}

int main(void)
{
    open_again(0);
    expect_no_growth(set_and_undo, "a set that is taken back");
    expect_no_growth(type_and_undo, "words that are taken back");
    expect_no_growth(insert_and_undo, "an insert that is taken back");
    expect_no_growth(be_refused, "a refused edit");
    expect_no_growth(read_all, "reading");
    expect_no_growth(open_again, "opening again");
    long before = blocks, bytes_before = bytes;
    for (int i = 0; i < EDITS; i++)
        type(i);
    long each = (bytes - bytes_before) / EDITS;
    expect(each <= MOST_OF_AN_EDIT, "an edit that can be taken back takes %ld bytes", each);
    printf("an edit that can be taken back takes %ld bytes\n", each);
    open_again(0);
    expect(blocks == before, "opening again leaves %ld blocks", blocks - before);
    gridlay_close(&page);
    expect(blocks == 0 && bytes == 0, "%ld blocks are left at the end", blocks);
    return told();
}
