/* Lays out the document of an input for a second time:
 *     twice again <INPUT    after want of memory. Each request of each layout, the first and that after each edit,
 *                           is refused in turn; where the layout then answers GRIDLAY_MEMORY, a second one has the
 *                           boxes of the document from scratch.
 *     twice warm <INPUT     where all is kept. The requests of a run are the greatest number whose refusal changes
 *                           what it ends with; they are counted of a run with one layout and of one with two.
 * Link it with -Wl,--wrap=malloc,--wrap=realloc,--wrap=free: so the requests of the library come here. */
#include "expect.h"
#include "input.h"
#include "refused.h"

/* The second layout of a document of which all is kept may take so many requests. */
enum { MOST_OF_A_WARM_LAYOUT = 32, MOST_EDITS = 64 };

/* The document, without the line `---`, and the lines of its script; each ends with a zero. */
static char *document, *edits[MOST_EDITS];
static unsigned edit_count;

/* Cuts an input into its document and the lines after it. */
static void cut(char *text, size_t size)
{
    text[size] = '\0';
    document = text;
    char *end = strstr(text, "\n---\n");
    if (end == NULL)
        return;
    end[1] = '\0';
    for (char *line = strtok(end + 5, "\n"); line != NULL && edit_count < MOST_EDITS; line = strtok(NULL, "\n"))
        edits[edit_count++] = line;
}

static uint8_t lay_out(gridlay *page)
{
    gridlay_counts counts;
    return gridlay_layout(page, &counts);
}

static gridlay opened(const char *text)
{
    gridlay page = {0};
    gridlay_fault fault;
    if (open_text(&page, text, &fault) != GRIDLAY_OK)
        abort();
    return page;
}

/* A document after so many edits, laid out before each of them. */
static gridlay edited(unsigned count)
{
    gridlay page = opened(document);
    gridlay_fault fault;
    for (unsigned i = 0; i < count; i++)
        if (lay_out(&page) != GRIDLAY_OK || edit_text(&page, edits[i], &fault) == GRIDLAY_MEMORY)
            abort();
    return page;
}

/* The boxes of a document from scratch: of its text, which is opened as another one. */
static char *boxes_afresh(gridlay *page)
{
    char *text = text_by(gridlay_write, page);
    if (text == NULL)
        abort();
    gridlay other = opened(text);
    free(text);
    if (lay_out(&other) != GRIDLAY_OK)
        abort();
    char *boxes = text_by(gridlay_print, &other);
    gridlay_close(&other);
    return boxes;
}

static void expect_boxes(gridlay *page, const char *due, const char *what, unsigned count)
{
    char *boxes = text_by(gridlay_print, page);
    expect(boxes != NULL && strcmp(boxes, due) == 0, "the boxes %s, after %u edits, with request %u refused", what, count, refused);
    free(boxes);
}

/* Whether the layout after so many edits makes a request of this number. It is refused; `wanting` counts those of
 * which memory was wanting. */
static int refuse(unsigned count, unsigned number, unsigned *wanting)
{
    gridlay page = edited(count);
    char *due = boxes_afresh(&page);
    requests = 0;
    refused = number;
    was_refused = 0;
    counts_now = 1;
    uint8_t answer = lay_out(&page);
    counts_now = 0;
    if (answer == GRIDLAY_MEMORY) {
        ++*wanting;
        expect(was_refused, "want of memory after %u edits, where nothing was refused", count);
        answer = lay_out(&page);
    }
    expect(answer == GRIDLAY_OK, "a layout answers %u after %u edits, with request %u refused", answer, count, number);
    expect_boxes(&page, due, was_refused ? "at the second layout" : "where nothing is refused", count);
    free(due);
    gridlay_close(&page);
    return was_refused;
}

static void lay_out_again(void)
{
    unsigned all = 0, wanting = 0;
    for (unsigned count = 0; count <= edit_count; count++) {
        unsigned number = 1;
        while (refuse(count, number, &wanting))
            number++;
        all += number - 1;
    }
    expect(all > 0, "requests for memory come here");
    printf("%u layouts, %u requests, %u refusals are answered by want of memory\n", edit_count + 1, all, wanting);
}

/* Whether a run of so many layouts ends as with all of its memory, where the request of this number is refused. */
static int ends_well(unsigned layouts, unsigned number, const char *due)
{
    gridlay page = {0};
    gridlay_fault fault;
    requests = 0;
    refused = number;
    counts_now = 1;
    uint8_t answer = open_text(&page, document, &fault);
    for (unsigned i = 0; i < layouts && answer == GRIDLAY_OK; i++)
        answer = lay_out(&page);
    counts_now = 0;
    char *boxes = answer == GRIDLAY_OK ? text_by(gridlay_print, &page) : NULL;
    int well = boxes != NULL && strcmp(boxes, due) == 0;
    free(boxes);
    gridlay_close(&page);
    return well;
}

/* The greatest number of a request whose refusal changes what a run of so many layouts ends with; `all` are the
 * requests that it makes. */
static unsigned requests_of(unsigned layouts, unsigned *all)
{
    gridlay page = opened(document);
    char *due = boxes_afresh(&page);
    unsigned last = 0;
    gridlay_close(&page);
    expect(ends_well(layouts, 0, due), "a run of %u layouts ends well", layouts);
    *all = requests;
    for (unsigned number = 1; number <= *all; number++)
        if (!ends_well(layouts, number, due))
            last = number;
    free(due);
    return last;
}

static void lay_out_warm(void)
{
    unsigned all_once, all_twice;
    unsigned once = requests_of(1, &all_once), twice = requests_of(2, &all_twice);
    expect(once > 0, "requests for memory come here");
    expect(twice <= once + MOST_OF_A_WARM_LAYOUT, "the second layout takes more than %d requests", MOST_OF_A_WARM_LAYOUT);
    printf("%u requests with one layout, %u with two; made are %u and %u\n", once, twice, all_once, all_twice);
}

int main(int count, char **words)
{
    size_t size;
    char *text = read_all(&size);
    cut(text, size);
    if (count != 2)
        return BAD_WORDS;
    if (strcmp(words[1], "again") == 0)
        lay_out_again();
    else if (strcmp(words[1], "warm") == 0)
        lay_out_warm();
    else
        return BAD_WORDS;
    free(text);
    return told();
}
