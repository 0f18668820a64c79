/* Refuses one request for memory. A library with this in it is preloaded, so that its malloc, calloc and realloc replace
 * those of the C library. */
#include <errno.h>
#include <stddef.h>

void *__libc_malloc(size_t size);
void *__libc_calloc(size_t count, size_t size);
void *__libc_realloc(void *at, size_t size);

/* how many requests are still granted, or less than 0 if all are; and whether one was refused */
static long granted = -1;
static int refused;

static int is_refused(void)
{
    if (granted < 0 || granted-- > 0)
        return 0;
    errno = ENOMEM;
    return refused = 1;
}

void *malloc(size_t size)
{
    return is_refused() ? NULL : __libc_malloc(size);
}

void *calloc(size_t count, size_t size)
{
    return is_refused() ? NULL : __libc_calloc(count, size);
}

void *realloc(void *at, size_t size)
{
    return is_refused() ? NULL : __libc_realloc(at, size);
}
