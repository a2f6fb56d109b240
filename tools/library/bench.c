/* Times a page that is typed into: PAGE is a document, perhaps with a script, which is left out, and NAME one of
 * its leaves, which gets one word more or less with each edit. One line is written: the number of boxes;
 * milliseconds to open the page and for its first layout; and microseconds for an edit, its layout and all boxes
 * read, and for the same with what changed read alone. Times are those of the processor; of an edit the middle
 * one of all.
 *     bench PAGE NAME [EDITS] */
#include <gridlay.h>

#include <stdio.h>
#include <stdlib.h>
#include <string.h>
#include <time.h>

enum { MOST_WORDS = 24, LINE_ROOM = 300 };

static double now(void)
{
    struct timespec at;
    clock_gettime(CLOCK_PROCESS_CPUTIME_ID, &at);
    return at.tv_sec * 1e6 + at.tv_nsec / 1e3;
}

static void want(uint8_t answer, const char *what)
{
    if (answer == GRIDLAY_OK)
        return;
    fprintf(stderr, "bench: %s answers %u\n", what, answer);
    exit(1);
}

/* Memory for so many bytes. */
static void *room_of(size_t size)
{
    void *room = malloc(size);
    if (room == NULL)
        abort();
    return room;
}

/* The document in a file, up to the line `---`. */
static char *read_page(const char *path, size_t *size)
{
    FILE *file = fopen(path, "rb");
    if (file == NULL || fseek(file, 0, SEEK_END) != 0) {
        fprintf(stderr, "bench: %s cannot be read\n", path);
        exit(1);
    }
    long all = ftell(file);
    char *text = room_of(all + 1);
    rewind(file);
    text[fread(text, 1, all, file)] = '\0';
    fclose(file);
    char *end = strstr(text, "\n---\n");
    *size = end == NULL ? strlen(text) : (size_t)(end + 1 - text);
    return text;
}

/* The edit of a number: the words of the leaf are one more with each, up to the most, and then one less. */
static size_t say_words(char line[LINE_ROOM], const char *name, int number)
{
    int words = number % (2 * MOST_WORDS);
    int at = snprintf(line, LINE_ROOM, "content %.58s words 16 4", name);
    if (words > MOST_WORDS)
        words = 2 * MOST_WORDS - words;
    for (int i = 0; i < words; i++)
        at += snprintf(line + at, LINE_ROOM - at, " %d", 30 + 7 * i % 31);
    return at;
}

static int is_less(const void *one, const void *other)
{
    double a = *(const double *)one, b = *(const double *)other;
    return (a > b) - (a < b);
}

/* What is read after each edit: all boxes, or the indices of those that changed and their boxes' room is left
 * alone. */
struct rooms {
    gridlay_rect *boxes;
    size_t *changed, count;
};

/* The middle one of the times of so many edits, in microseconds. */
static double time_edits(gridlay *page, const char *name, int edits, struct rooms rooms, int reads_all)
{
    double *times = room_of(edits * sizeof *times);
    for (int i = 0; i < edits; i++) {
        char line[LINE_ROOM];
        gridlay_fault fault;
        gridlay_counts counts;
        size_t many, length = say_words(line, name, i);
        double start = now();
        want(gridlay_edit(page, (const uint8_t *)line, length, &fault), "gridlay_edit");
        want(gridlay_layout(page, &counts), "gridlay_layout");
        if (reads_all)
            want(gridlay_boxes(page, rooms.boxes, rooms.count, &many), "gridlay_boxes");
        else
            want(gridlay_changed(page, rooms.changed, rooms.count, &many), "gridlay_changed");
        times[i] = now() - start;
    }
    qsort(times, edits, sizeof *times, is_less);
    double middle = times[edits / 2];
    free(times);
    return middle;
}

int main(int count, char **words)
{
    if (count < 3 || count > 4) {
        fprintf(stderr, "call it as  bench PAGE NAME [EDITS]\n");
        return 64;
    }
    int edits = count == 4 ? atoi(words[3]) : 500;
    size_t size;
    char *text = read_page(words[1], &size);
    gridlay page = {0};
    gridlay_fault fault;
    gridlay_counts counts;
    struct rooms rooms;
    double start = now();
    want(gridlay_open(&page, (uint8_t *)text, size, &fault), "gridlay_open");
    double opened = now();
    want(gridlay_layout(&page, &counts), "gridlay_layout");
    double laid_out = now();
    want(gridlay_count(&page, &rooms.count), "gridlay_count");
    rooms.boxes = room_of(rooms.count * sizeof *rooms.boxes);
    rooms.changed = room_of(rooms.count * sizeof *rooms.changed);
    double all = time_edits(&page, words[2], edits, rooms, 1), changed = time_edits(&page, words[2], edits, rooms, 0);
    printf("%zu %.1f %.1f %.0f %.0f\n", rooms.count, (opened - start) / 1e3, (laid_out - opened) / 1e3, all, changed);
    gridlay_close(&page);
    free(rooms.boxes);
    free(rooms.changed);
    free(text);
    return 0;
}
