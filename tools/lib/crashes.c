/* Writes down each call that the program into which this is loaded makes of the file that it keeps, and each write of its output, one
   after the other, on the descriptor CRASH_TELL: a letter, a place or length and a count in eight bytes each, and the bytes. If
   CRASH_AT is set, the call of the file of this number, counted from 1, fails, and all after it if CRASH_EVER is set.
   tools/check/check_crashes compiles it. */
#define _GNU_SOURCE
#include <dlfcn.h>
#include <errno.h>
#include <fcntl.h>
#include <stdarg.h>
#include <stdint.h>
#include <stdlib.h>
#include <string.h>
#include <sys/file.h>
#include <sys/stat.h>
#include <sys/types.h>
#include <unistd.h>

static long calls, at, ever;
static int tell = -1;

static void *next(const char *name) { return dlsym(RTLD_NEXT, name); }
static long number(const char *name) { const char *text = getenv(name); return text ? atol(text) : 0; }

static ssize_t put(const void *bytes, size_t size)
{
    static ssize_t (*real)(int, const void *, size_t);
    if (!real)
        real = (ssize_t (*)(int, const void *, size_t))next("write");
    return real(tell, bytes, size);
}

static void note(char kind, uint64_t place, uint64_t count, const void *bytes)
{
    char head[17] = {kind};
    if (tell <= 2)
        return;
    for (int k = 0; k < 8; k++)
        head[1 + k] = (char)(place >> (56 - 8 * k)), head[9 + k] = (char)(count >> (56 - 8 * k));
    if (put(head, sizeof head) != sizeof head || (bytes && put(bytes, count) != (ssize_t)count))
        _exit(99);
}

static int fails(void)
{
    calls++;
    if (!at || (calls != at && !(ever && calls > at)))
        return 0;
    errno = EIO;
    return 1;
}

ssize_t pread(int from, void *into, size_t size, off_t place)
{
    static ssize_t (*real)(int, void *, size_t, off_t);
    if (!real)
        real = (ssize_t (*)(int, void *, size_t, off_t))next("pread");
    note('r', (uint64_t)place, size, NULL);
    return fails() ? -1 : real(from, into, size, place);
}

ssize_t pwrite(int to, const void *bytes, size_t size, off_t place)
{
    static ssize_t (*real)(int, const void *, size_t, off_t);
    if (!real)
        real = (ssize_t (*)(int, const void *, size_t, off_t))next("pwrite");
    note('w', (uint64_t)place, size, bytes);
    return fails() ? -1 : real(to, bytes, size, place);
}

int open(const char *path, int flags, ...)
{
    static int (*real)(const char *, int, ...);
    mode_t mode = 0;
    if (!real)
        real = (int (*)(const char *, int, ...))next("open");
    if (flags & O_CREAT) {
        va_list more;
        va_start(more, flags);
        mode = va_arg(more, mode_t);
        va_end(more);
    }
    /* (at its start the program opens the root, where a failure changes nothing) */
    return strcmp(path, "/") && fails() ? -1 : real(path, flags, mode);
}

int ftruncate(int of, off_t length)
{
    static int (*real)(int, off_t);
    if (!real)
        real = (int (*)(int, off_t))next("ftruncate");
    note('c', (uint64_t)length, 0, NULL);
    return fails() ? -1 : real(of, length);
}

int fdatasync(int of)
{
    static int (*real)(int);
    if (!real)
        real = (int (*)(int))next("fdatasync");
    note('s', 0, 0, NULL);
    if (fails())
        return -1;
    int done = real(of);
    note('d', 0, 0, NULL);
    return done;
}

int fsync(int of)
{
    static int (*real)(int);
    if (!real)
        real = (int (*)(int))next("fsync");
    return fails() ? -1 : real(of);
}

int flock(int of, int how)
{
    static int (*real)(int, int);
    if (!real)
        real = (int (*)(int, int))next("flock");
    return fails() ? -1 : real(of, how);
}

int statx(int at_folder, const char *path, int flags, unsigned fields, struct statx *into)
{
    static int (*real)(int, const char *, int, unsigned, struct statx *);
    if (!real)
        real = (int (*)(int, const char *, int, unsigned, struct statx *))next("statx");
    return at_folder > 2 && fails() ? -1 : real(at_folder, path, flags, fields, into);
}

ssize_t write(int to, const void *bytes, size_t size)
{
    static ssize_t (*real)(int, const void *, size_t);
    if (!real)
        real = (ssize_t (*)(int, const void *, size_t))next("write");
    ssize_t done = real(to, bytes, size);
    if (to == 1 && done > 0)
        note('o', 0, (uint64_t)done, bytes);
    return done;
}

__attribute__((constructor)) static void begin(void)
{
    at = number("CRASH_AT"), ever = number("CRASH_EVER"), tell = (int)number("CRASH_TELL");
}

__attribute__((destructor)) static void end(void) { note('e', 0, (uint64_t)calls, NULL); }
