/* The heap as the toolchain's code calls it, for processors for which the toolchain has no C code of its own. It does
 * what the toolchain's liblibc_c.a does for x86-64. Nothing proves it: the proofs rest on what is said here. */
#include <stdbool.h>
#include <stdlib.h>

/* Whether there is memory, and where; without memory, the address of a byte that nobody reads or writes. */
struct tried {
    bool ok;
    void *at;
};

static char nothing;

static struct tried tried(void *at)
{
    return (struct tried){at != NULL, at != NULL ? at : &nothing};
}

/* malloc(0) may return NULL, so a block is never empty. The alignment, at most 16, is malloc's own. */
struct tried rattle_alloc(size_t size, size_t alignment)
{
    return tried(malloc(size != 0 ? size : alignment));
}

/* The first `kept` bytes stay as they are. If there is no memory, the block stays where it is. */
struct tried rattle_realloc(void *at, size_t kept, size_t size, size_t alignment)
{
    (void)kept;
    return tried(realloc(at, size != 0 ? size : alignment));
}

void rattle_dealloc(void *at)
{
    free(at);
}
