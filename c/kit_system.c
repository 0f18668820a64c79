/* The arguments and errno as the toolchain's code asks for them, for processors for which the toolchain has no C code
 * of its own. It does what the toolchain's libos_c.a does for x86-64. Nothing proves it: the proofs rest on what is
 * said here. */
#include <errno.h>
#include <string.h>
#include <sys/types.h>

static size_t count;
static char **words;

/* The C library passes the arguments of main to constructors, too. */
__attribute__((constructor)) static void keep(int argc, char **argv)
{
    count = argc > 0 ? (size_t)argc : 0;
    words = argv;
}

size_t rattle_arg_count(void)
{
    return count;
}

/* Copies an argument to the beginning of `out`, and returns its length; -1 if there is none at this index; -2 if it is
 * longer than `out`, which it fills. */
ssize_t rattle_arg(size_t index, char *out, size_t out_len)
{
    if (index >= count || words[index] == NULL)
        return -1;
    size_t len = strlen(words[index]);
    memcpy(out, words[index], len <= out_len ? len : out_len);
    return len <= out_len ? (ssize_t)len : -2;
}

int rattle_errno(void)
{
    return errno;
}

void rattle_set_errno(int number)
{
    errno = number;
}
