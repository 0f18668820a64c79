/* Preloaded into a program, this says what its reads of standard input and its writes to standard output do, call by
 * call. What one call does is a byte of the variable READS or WRITES, its turn: a digit moves so many bytes at most, `*`
 * all, and other letters fail: `i` is interrupted, `b` would block, `m` is out of memory, and `x` is broken.
 * After the last turn, all is moved. */
#include <errno.h>
#include <stdlib.h>
#include <sys/syscall.h>
#include <unistd.h>

static const char *reads = "", *writes = "";

__attribute__((constructor)) static void begin(void)
{
    reads = getenv("READS");
    writes = getenv("WRITES");
}

/* How many of these bytes the next call moves, or -1 with an error. */
static ssize_t moved(const char **turns, size_t len)
{
    if (!**turns)
        return (ssize_t)len;
    char turn = *(*turns)++;
    if (turn == '*')
        return (ssize_t)len;
    if (turn >= '0' && turn <= '9')
        return (size_t)(turn - '0') < len ? turn - '0' : (ssize_t)len;
    errno = turn == 'i' ? EINTR : turn == 'b' ? EAGAIN : turn == 'm' ? ENOMEM : EIO;
    return -1;
}

ssize_t read(int file, void *bytes, size_t len)
{
    ssize_t count = file == STDIN_FILENO ? moved(&reads, len) : (ssize_t)len;
    return count > 0 ? syscall(SYS_read, file, bytes, count) : count;
}

ssize_t write(int file, const void *bytes, size_t len)
{
    ssize_t count = file == STDOUT_FILENO ? moved(&writes, len) : (ssize_t)len;
    return count > 0 ? syscall(SYS_write, file, bytes, count) : count;
}
