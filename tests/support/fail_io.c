// Loaded before the C library. The read with the number FAIL_READ, from 1, or the write to standard output with the number FAIL_WRITE
// fails with the error FAIL_ERROR; with FAIL_SHORT each of them moves one byte. With FAIL_SYNC what was written to a file cannot be
// written out.
#define _GNU_SOURCE
#include <dlfcn.h>
#include <errno.h>
#include <stdlib.h>
#include <unistd.h>

static long number_in(const char *name)
{
    const char *text = getenv(name);
    return text ? atol(text) : 0;
}

static int fails(long *turns, const char *name)
{
    if (++*turns != number_in(name))
        return 0;
    errno = (int)number_in("FAIL_ERROR");
    return 1;
}

static size_t moved(size_t size)
{
    return size > 1 && getenv("FAIL_SHORT") ? 1 : size;
}

ssize_t read(int file, void *text, size_t size)
{
    static ssize_t (*next)(int, void *, size_t);
    static long turns;
    if (!next)
        next = (ssize_t (*)(int, void *, size_t))dlsym(RTLD_NEXT, "read");
    return fails(&turns, "FAIL_READ") ? -1 : next(file, text, moved(size));
}

ssize_t write(int file, const void *text, size_t size)
{
    static ssize_t (*next)(int, const void *, size_t);
    static long turns;
    if (!next)
        next = (ssize_t (*)(int, const void *, size_t))dlsym(RTLD_NEXT, "write");
    if (file != 1)
        return next(file, text, size);
    return fails(&turns, "FAIL_WRITE") ? -1 : next(file, text, moved(size));
}

int fsync(int file)
{
    static int (*next)(int);
    if (!next)
        next = (int (*)(int))dlsym(RTLD_NEXT, "fsync");
    if (!getenv("FAIL_SYNC"))
        return next(file);
    errno = (int)number_in("FAIL_ERROR");
    return -1;
}
