/* Stands before the C library's requests for memory: counts them, and refuses the one of a number.
 *
 *     LD_PRELOAD=shim.so MEMORY_COUNT=FILE [MEMORY_REFUSED=N] PROGRAM
 *
 * FILE has eight bytes, in which the number of requests stands when the program has ended, however it ended. Requests count from
 * 1, each of malloc, calloc, realloc and the aligned ones; those before the program's own start are not counted. */
#include <errno.h>
#include <fcntl.h>
#include <stddef.h>
#include <stdlib.h>
#include <sys/mman.h>
#include <unistd.h>

/* The C library's own calls behind the public names. */
extern void *__libc_malloc(size_t size);
extern void *__libc_calloc(size_t count, size_t size);
extern void *__libc_realloc(void *place, size_t size);
extern void *__libc_memalign(size_t alignment, size_t size);

static unsigned long *count;
static unsigned long refused;

__attribute__((constructor)) static void start(void)
{
    const char *file = getenv("MEMORY_COUNT"), *number = getenv("MEMORY_REFUSED");
    int handle = file == NULL ? -1 : open(file, O_RDWR);
    if (number != NULL)
        refused = strtoul(number, NULL, 10);
    if (handle < 0)
        return;
    void *place = mmap(NULL, sizeof *count, PROT_READ | PROT_WRITE, MAP_SHARED, handle, 0);
    close(handle);
    if (place != MAP_FAILED)
        count = place;
}

/* Counts a request, and answers whether it is the one that is refused. */
static int is_refused(void)
{
    if (count == NULL)
        return 0;
    *count += 1;
    if (*count != refused)
        return 0;
    errno = ENOMEM;
    return 1;
}

void *malloc(size_t size)
{
    return is_refused() ? NULL : __libc_malloc(size);
}

void *calloc(size_t many, size_t size)
{
    return is_refused() ? NULL : __libc_calloc(many, size);
}

void *realloc(void *place, size_t size)
{
    return is_refused() ? NULL : __libc_realloc(place, size);
}

void *aligned_alloc(size_t alignment, size_t size)
{
    return is_refused() ? NULL : __libc_memalign(alignment, size);
}

void *memalign(size_t alignment, size_t size)
{
    return is_refused() ? NULL : __libc_memalign(alignment, size);
}

int posix_memalign(void **place, size_t alignment, size_t size)
{
    if (is_refused())
        return ENOMEM;
    void *got = __libc_memalign(alignment, size);
    if (got == NULL)
        return ENOMEM;
    *place = got;
    return 0;
}
