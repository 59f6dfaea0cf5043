// Loaded before the C library. It counts the growths of memory. The one with the number REFUSE_AT, from 1, finds no memory, and with
// REFUSE_ON neither do all after it; with REFUSE_IN only in the program of that path. At the program's end the file REFUSE_NOTE says how
// many growths there were, how many were refused, and how many blocks were not given back. If the program wrote the line `want of memory`
// more often than growths were refused, by this library or by the system, its words are added to the file REFUSE_TOLD.
#define _GNU_SOURCE
#include <dlfcn.h>
#include <errno.h>
#include <fcntl.h>
#include <malloc.h>
#include <stdio.h>
#include <stdlib.h>
#include <string.h>
#include <sys/syscall.h>
#include <unistd.h>

// What the C library rounds sizes to, and the room of its smallest block, in bytes.
enum { SPARE = 16, SMALLEST = 24 };

static const char WANT[] = "want of memory\n";

static long growths, refused, live, at, told;
static int is_read, goes_on;

static int is_program(const char *path)
{
    char name[4096];
    ssize_t size = path ? readlink("/proc/self/exe", name, sizeof name) : 0;
    return !path || (size == (ssize_t)strlen(path) && memcmp(name, path, size) == 0);
}

static void read_words(void)
{
    const char *number = getenv("REFUSE_AT");
    is_read = 1;
    at = number && is_program(getenv("REFUSE_IN")) ? atol(number) : 0;
    goes_on = getenv("REFUSE_ON") != NULL;
}

static int is_refused(void)
{
    if (!is_read)
        read_words();
    growths++;
    if (at == 0 || growths < at || (growths > at && !goes_on))
        return 0;
    refused++;
    errno = ENOMEM;
    return 1;
}

void *malloc(size_t size)
{
    static void *(*next)(size_t);
    if (!next)
        next = (void *(*)(size_t))dlsym(RTLD_NEXT, "malloc");
    if (is_refused())
        return NULL;
    void *block = next(size);
    live += block != NULL;
    refused += block == NULL;
    return block;
}

void *realloc(void *old, size_t size)
{
    static void *(*next)(void *, size_t);
    if (!next)
        next = (void *(*)(void *, size_t))dlsym(RTLD_NEXT, "realloc");
    // A block has less than SPARE bytes more than were asked for, and the smallest may be any size: what is this much less is no growth.
    size_t room = old ? malloc_usable_size(old) : 0;
    if (room > SMALLEST && size + SPARE <= room)
        return next(old, size);
    if (is_refused())
        return NULL;
    void *block = next(old, size);
    live += old == NULL && block != NULL;
    refused += block == NULL;
    return block;
}

void free(void *old)
{
    static void (*next)(void *);
    if (!next)
        next = (void (*)(void *))dlsym(RTLD_NEXT, "free");
    live -= old != NULL;
    next(old);
}

// How often the line stands in what is written.
static long wants_in(const char *text, size_t size)
{
    long count = 0;
    for (const char *from = text, *found; (found = memmem(from, text + size - from, WANT, sizeof WANT - 1)); from = found + 1)
        count += found == text || found[-1] == '\n';
    return count;
}

ssize_t write(int file, const void *text, size_t size)
{
    static ssize_t (*next)(int, const void *, size_t);
    if (!next)
        next = (ssize_t (*)(int, const void *, size_t))dlsym(RTLD_NEXT, "write");
    told += wants_in(text, size);
    return next(file, text, size);
}

// Adds the program's words to the file of those that told a want of memory without cause.
static void note_told(void)
{
    const char *path = told > refused ? getenv("REFUSE_TOLD") : NULL;
    char words[4096];
    int from = path ? open("/proc/self/cmdline", O_RDONLY) : -1;
    ssize_t size = from < 0 ? 0 : read(from, words, sizeof words);
    if (size <= 0)
        return;
    for (ssize_t i = 0; i < size; i++)
        words[i] = words[i] ? words[i] : ' ';
    words[size - 1] = '\n';
    int file = open(path, O_WRONLY | O_CREAT | O_APPEND, 0600);
    if (write(file, words, size) != size)
        abort();
    close(file);
    close(from);
}

__attribute__((destructor)) static void note(void)
{
    note_told();
    const char *path = getenv("REFUSE_NOTE");
    char text[80];
    int file = path ? open(path, O_WRONLY | O_CREAT | O_TRUNC, 0600) : -1;
    if (file < 0)
        return;
    int size = snprintf(text, sizeof text, "%ld %ld %ld\n", growths, refused, live);
    if (write(file, text, size) != size)
        abort();
    close(file);
}

// A program that may start threads ends here, and is not torn down.
void _exit(int status)
{
    note();
    syscall(SYS_exit_group, status);
    abort();
}
