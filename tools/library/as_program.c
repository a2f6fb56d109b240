/* Answers the words `layout` and `write` as the program does, by a document that is kept open, so that it can be
 * compared with the cases that the program is compared with. */
#include "input.h"

static const char *const fault_names[] = {
    [1] = "bad-byte", [2] = "line-too-long", [3] = "bad-header", [4] = "bad-indent", [5] = "bad-name", [6] = "duplicate-name",
    [7] = "unknown-kind", [8] = "unknown-property", [9] = "bad-value", [10] = "duplicate-property", [11] = "unsupported",
    [12] = "too-deep", [13] = "too-many-nodes", [14] = "leaf-has-children", [15] = "second-root", [16] = "no-root",
    [20] = "unknown-edit", [21] = "unknown-name", [22] = "root", [23] = "cycle", [24] = "bad-index", [25] = "nothing-to-undo",
    [26] = "nothing-to-redo",
};

/* Ends with the status of want of memory, or tells of an answer that is not due. */
static void stop_at(uint8_t answer)
{
    if (answer != GRIDLAY_MEMORY)
        fprintf(stderr, "a call answers %u\n", answer);
    exit(answer == GRIDLAY_MEMORY ? NO_MEMORY : 70);
}

/* The bytes of a line without its line feed, and where the next one begins. */
struct line {
    const char *at;
    size_t length, next;
};

static struct line line_at(const char *text, size_t size, size_t at)
{
    const char *end = memchr(text + at, '\n', size - at);
    size_t length = end == NULL ? size - at : (size_t)(end - (text + at));
    return (struct line){text + at, length, at + length + (end != NULL)};
}

static int is_end(struct line it)
{
    return it.length == 3 && memcmp(it.at, "---", 3) == 0;
}

/* Whether a line of a script counts for nothing: spaces, perhaps a comment, and no fault of a line. */
static int is_skipped(struct line it)
{
    size_t spaces = 0;
    while (spaces < it.length && it.at[spaces] == ' ')
        spaces++;
    if (it.length > 65536 || (spaces < it.length && it.at[spaces] != '#'))
        return 0;
    for (size_t i = 0; i < it.length; i++)
        if (it.at[i] < ' ' || it.at[i] > '~')
            return 0;
    return 1;
}

/* Writes the text that a call writes: all of it, or without its first line. */
static void put(uint8_t (*call)(gridlay *, uint8_t *, size_t, size_t *), gridlay *page, int skips_a_line)
{
    size_t length = 0;
    uint8_t answer = call(page, NULL, 0, &length);
    if (answer == GRIDLAY_LONG)
        exit(TOO_LONG);
    char *text = room_of(length);
    if (answer == GRIDLAY_ROOM)
        answer = call(page, (uint8_t *)text, length, &length);
    if (answer != GRIDLAY_OK)
        stop_at(answer);
    char *from = skips_a_line ? memchr(text, '\n', length) + 1 : text;
    fwrite(from, 1, length - (from - text), stdout);
    free(text);
}

static void lay_out(gridlay *page, unsigned number)
{
    gridlay_counts counts;
    uint8_t answer = gridlay_layout(page, &counts);
    if (answer != GRIDLAY_OK)
        stop_at(answer);
    printf("layout %u\n", number);
    put(gridlay_print, page, 1);
}

/* The number after the spaces at a place, in units: multiplied by 64 and truncated toward zero. */
static int64_t units_at(const char **at)
{
    const char *it = *at + strspn(*at, " ");
    int below = *it == '-';
    int64_t whole = 0, part = 0, scale = 1000000;
    it += *it == '-' || *it == '+';
    for (; *it >= '0' && *it <= '9'; it++)
        whole = 10 * whole + (*it - '0');
    if (*it == '.')
        for (it++; *it >= '0' && *it <= '9'; it++)
            part += (scale /= 10) * (*it - '0');
    *at = it + (strncmp(it, "px", 2) == 0 ? 2 : 0);
    int64_t units = whole * 64 + part * 64 / 1000000;
    return below ? -units : units;
}

/* Answers a hit that reads. */
static void hit(gridlay *page, struct line it, unsigned number)
{
    char text[200], name[58];
    const char *at = text;
    size_t index, length = 0;
    snprintf(text, sizeof text, "%.*s", (int)it.length, it.at);
    at += strspn(at, " ") + 3;
    int64_t x = units_at(&at), y = units_at(&at);
    uint8_t answer = gridlay_hit(page, x, y, &index);
    if (answer == GRIDLAY_OK)
        answer = gridlay_name(page, index, (uint8_t *)name, sizeof name, &length);
    if (answer != GRIDLAY_OK && answer != GRIDLAY_NONE)
        stop_at(answer);
    printf("hit %u %.*s\n", number, answer == GRIDLAY_OK ? (int)length : 1, answer == GRIDLAY_OK ? name : "-");
}

static int is_hit(struct line it)
{
    size_t spaces = 0;
    while (spaces < it.length && it.at[spaces] == ' ')
        spaces++;
    return it.length - spaces > 3 && memcmp(it.at + spaces, "hit", 3) == 0 && it.at[spaces + 3] == ' ';
}

/* Makes one edit of a script, and answers whether it was made. */
static int edit(gridlay *page, struct line it, unsigned line, unsigned number, int lays_out)
{
    gridlay_fault fault;
    uint8_t answer = gridlay_edit(page, (const uint8_t *)it.at, it.length, &fault);
    if (answer == GRIDLAY_REFUSED && fault.fault == GRIDLAY_FAULT_UNKNOWN_EDIT && is_hit(it)) {
        if (lays_out)
            hit(page, it, number);
        return 1;
    }
    if (answer == GRIDLAY_REFUSED && lays_out)
        printf("refused %u %u:%u %s\n", number, line, fault.column, fault_names[fault.fault]);
    else if (answer == GRIDLAY_OK && lays_out)
        lay_out(page, number);
    else if (answer != GRIDLAY_OK && answer != GRIDLAY_REFUSED)
        stop_at(answer);
    return answer == GRIDLAY_OK;
}

/* Opens the text before a place, or tells its refusal. */
static int open_text(gridlay *page, const char *text, size_t size)
{
    gridlay_fault fault;
    uint8_t answer = gridlay_open(page, (const uint8_t *)text, size, &fault);
    if (answer == GRIDLAY_REFUSED)
        printf("refused 0 %u:%u %s\n", fault.line, fault.column, fault_names[fault.fault]);
    else if (answer != GRIDLAY_OK)
        stop_at(answer);
    return answer == GRIDLAY_OK;
}

/* Answers a document and its script. */
static int run(gridlay *page, const char *text, size_t size, int lays_out)
{
    size_t at = 0;
    unsigned lines = 0, number = 0;
    int status = DONE;
    struct line it = {text, 0, 0};
    while (at < size && (it = line_at(text, size, at), lines++, !is_end(it)))
        at = it.next;
    if (!open_text(page, text, at))
        return BAD_DOCUMENT;
    if (lays_out)
        lay_out(page, 0);
    for (at = it.next; at < size; at = it.next) {
        it = line_at(text, size, at);
        lines++;
        if (!is_skipped(it) && !edit(page, it, lines, ++number, lays_out))
            status = SOME_REFUSED;
    }
    if (!lays_out)
        put(gridlay_write, page, 0);
    return status;
}

int main(int count, char **words)
{
    size_t size;
    gridlay page = {0};
    if (count != 2 || (strcmp(words[1], "layout") != 0 && strcmp(words[1], "write") != 0))
        return BAD_WORDS;
    char *text = read_all(&size);
    int status = run(&page, text, size, strcmp(words[1], "layout") == 0);
    gridlay_close(&page);
    free(text);
    return status;
}
