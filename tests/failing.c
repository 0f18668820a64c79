/* Preloaded into a program, this makes calls fail: those of the function in the variable CALL, with the error number in
 * the variable ERROR. "half" is a write of which only a half is done before the next one fails. Standard streams are left
 * alone. */
#define _GNU_SOURCE
#include <dlfcn.h>
#include <errno.h>
#include <fcntl.h>
#include <stdarg.h>
#include <stdlib.h>
#include <string.h>
#include <sys/stat.h>
#include <unistd.h>

#define REAL(name, type) ((type)dlsym(RTLD_NEXT, name))

static int fails(const char *name)
{
    const char *call = getenv("CALL");
    if (call == NULL || strcmp(call, name) != 0)
        return 0;
    errno = atoi(getenv("ERROR"));
    return 1;
}

ssize_t write(int file, const void *bytes, size_t count)
{
    static int halves;
    if (file > 2 && fails("write"))
        return -1;
    if (file > 2 && fails("half")) {
        if (halves++ > 0)
            return -1;
        count /= 2;
    }
    return REAL("write", ssize_t (*)(int, const void *, size_t))(file, bytes, count);
}

int fsync(int file)
{
    return fails("fsync") ? -1 : REAL("fsync", int (*)(int))(file);
}

int fchmod(int file, mode_t mode)
{
    return fails("fchmod") ? -1 : REAL("fchmod", int (*)(int, mode_t))(file, mode);
}

int fchown(int file, uid_t owner, gid_t group)
{
    return fails("fchown") ? -1 : REAL("fchown", int (*)(int, uid_t, gid_t))(file, owner, group);
}

int rename(const char *from, const char *to)
{
    return fails("rename") ? -1 : REAL("rename", int (*)(const char *, const char *))(from, to);
}

static int opened(const char *name, const char *path, int flags, mode_t mode)
{
    if ((flags & O_CREAT) && fails("create"))
        return -1;
    return REAL(name, int (*)(const char *, int, ...))(path, flags, mode);
}

int open(const char *path, int flags, ...)
{
    va_list more;
    va_start(more, flags);
    mode_t mode = (flags & O_CREAT) ? va_arg(more, mode_t) : 0;
    va_end(more);
    return opened("open", path, flags, mode);
}

int open64(const char *path, int flags, ...)
{
    va_list more;
    va_start(more, flags);
    mode_t mode = (flags & O_CREAT) ? va_arg(more, mode_t) : 0;
    va_end(more);
    return opened("open64", path, flags, mode);
}
