/* What the programs share that answer an input as the program does. */
#ifndef INPUT_H
#define INPUT_H

#include <gridlay.h>

#include <stdio.h>
#include <stdlib.h>
#include <string.h>

/* The statuses of the program. */
enum { DONE = 0, BAD_DOCUMENT = 2, SOME_REFUSED = 3, NO_MEMORY = 6, TOO_LONG = 8, BAD_WORDS = 64 };

/* Memory for so many bytes, and one more. */
static inline void *room_of(size_t size)
{
    void *room = malloc(size + 1);
    if (room == NULL)
        exit(NO_MEMORY);
    return room;
}

/* All of standard input. */
static inline char *read_all(size_t *size)
{
    size_t room = 1 << 16, got;
    char *text = room_of(room);
    *size = 0;
    while ((got = fread(text + *size, 1, room - *size, stdin)) > 0) {
        *size += got;
        if (*size == room) {
            room *= 2;
            text = realloc(text, room);
            if (text == NULL)
                exit(NO_MEMORY);
        }
    }
    return text;
}

#endif
