/* Makes a call of the program fail into which this is loaded: of the kind that FAULT_KIND names, the one of the number FAULT_AT,
   counted from 1, and all after it if FAULT_EVER is set. A read gives at most FAULT_PIECE bytes. At the end it writes, on the
   descriptor FAULT_TELL, how many calls of the kind there were, and how many bytes of the input were read. tools/check/check_faults compiles it and says what the kinds are. */
#define _GNU_SOURCE
#include <dlfcn.h>
#include <errno.h>
#include <stdlib.h>
#include <sys/types.h>
#include <unistd.h>

static char kind;
static long calls, at, ever, most, taken;
static int tell = -1;

static void *next(const char *name) { return dlsym(RTLD_NEXT, name); }
static long number(const char *name) { const char *text = getenv(name); return text ? atol(text) : 0; }

static int fails(char of, int error)
{
    if (of != kind)
        return 0;
    calls++;
    if (calls != at && !(ever && at && calls > at))
        return 0;
    errno = error;
    return 1;
}

void *malloc(size_t size)
{
    static void *(*real)(size_t);
    if (!real)
        real = (void *(*)(size_t))next("malloc");
    return fails('a', ENOMEM) ? NULL : real(size);
}

void *realloc(void *block, size_t size)
{
    static void *(*real)(void *, size_t);
    if (!real)
        real = (void *(*)(void *, size_t))next("realloc");
    return fails('a', ENOMEM) ? NULL : real(block, size);
}

ssize_t read(int from, void *into, size_t size)
{
    static ssize_t (*real)(int, void *, size_t);
    if (!real)
        real = (ssize_t (*)(int, void *, size_t))next("read");
    if (from == 0 && fails('r', EIO))
        return -1;
    ssize_t count = real(from, into, from == 0 && most && size > (size_t)most ? (size_t)most : size);
    taken += from == 0 && count > 0 ? count : 0;
    return count;
}

ssize_t pread(int from, void *into, size_t size, off_t place)
{
    static ssize_t (*real)(int, void *, size_t, off_t);
    if (!real)
        real = (ssize_t (*)(int, void *, size_t, off_t))next("pread");
    return fails('d', EIO) ? -1 : real(from, into, size, place);
}

ssize_t write(int to, const void *bytes, size_t size)
{
    static ssize_t (*real)(int, const void *, size_t);
    if (!real)
        real = (ssize_t (*)(int, const void *, size_t))next("write");
    if ((to == 1 && fails('w', ENOSPC)) || (to == 2 && fails('n', EIO)))
        return -1;
    if (to == 1 && kind == 'p') {                   /* a write that takes a part: half of the bytes, and nothing after it */
        calls++;
        if (at && calls > at) { errno = ENOSPC; return -1; }
        if (calls == at) return real(to, bytes, (size + 1) / 2);
    }
    if (to == 1 && kind == 's') {                   /* short writes, which aren't faults: a byte each */
        calls++;
        if (calls == at || (ever && at && calls > at)) return real(to, bytes, size ? 1 : 0);
    }
    return real(to, bytes, size);
}

__attribute__((constructor)) static void begin(void)
{
    const char *named = getenv("FAULT_KIND");
    at = number("FAULT_AT"), ever = number("FAULT_EVER"), most = number("FAULT_PIECE"), tell = (int)number("FAULT_TELL");
    kind = named ? *named : 0;
}

__attribute__((destructor)) static void end(void)
{
    ssize_t (*real)(int, const void *, size_t) = (ssize_t (*)(int, const void *, size_t))next("write");
    long told[] = {calls, taken};
    if (tell > 2 && real(tell, told, sizeof told) < 0)
        _exit(99);
}
