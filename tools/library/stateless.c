/* Answers the word `layout` as the program does, by gridlay_answer alone. */
#include "input.h"

int main(int count, char **words)
{
    size_t size, length = 0;
    if (count != 2 || strcmp(words[1], "layout") != 0)
        return BAD_WORDS;
    char *input = read_all(&size), *room = NULL;
    uint8_t status = gridlay_answer((uint8_t *)input, size, NULL, 0, &length);
    if (status == GRIDLAY_ROOM) {
        room = room_of(length);
        status = gridlay_answer((uint8_t *)input, size, (uint8_t *)room, length, &length);
        fwrite(room, 1, length, stdout);
    }
    free(room);
    free(input);
    return status;
}
