/* Stands before the requests for memory of the library and of the test that reads this file: counts them, refuses
 * the one of a number, and counts what is not given back. Link with -Wl,--wrap=malloc,--wrap=realloc,--wrap=free. */
#ifndef REFUSED_H
#define REFUSED_H

#include <stddef.h>

void *__real_malloc(size_t size);
void *__real_realloc(void *place, size_t size);
void __real_free(void *place);

static long blocks;                  /* so many are taken and not given back */
static unsigned requests, refused;   /* so many were made in this run; the one of this number is refused */
static int counts_now, was_refused;  /* requests are those of the library; the last call was hit */

static int is_refused(void)
{
    if (!counts_now || ++requests != refused)
        return 0;
    was_refused = 1;
    return 1;
}

void *__wrap_malloc(size_t size)
{
    void *got = is_refused() ? NULL : __real_malloc(size);
    blocks += got != NULL;
    return got;
}

void *__wrap_realloc(void *place, size_t size)
{
    void *got = is_refused() ? NULL : __real_realloc(place, size);
    blocks += got != NULL && place == NULL;
    return got;
}

void __wrap_free(void *place)
{
    blocks -= place != NULL;
    __real_free(place);
}

#endif
