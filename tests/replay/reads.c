/* A C library's read as a test wants it, for LD_PRELOAD: it gives READ_MOST bytes at most, and fails from the READ_FAILS-th read of a byte or more on. */
#define _GNU_SOURCE
#include <errno.h>
#include <stdlib.h>
#include <sys/syscall.h>
#include <unistd.h>

static long set(const char *name)
{
    const char *value = getenv(name);
    return value ? atol(value) : 0;
}

ssize_t read(int fd, void *bytes, size_t count)
{
    static long reads;
    long most = set("READ_MOST"), fails = set("READ_FAILS");
    if (count > 0 && ++reads >= fails && fails > 0) {
        errno = EIO;
        return -1;
    }
    if (most > 0 && count > (size_t)most)
        count = (size_t)most;
    return syscall(SYS_read, fd, bytes, count);
}
