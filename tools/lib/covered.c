/* Shares the marks of the edges that were taken with the file MARKS, so that they are in it however the program ends. The program is
   linked with it by tools/dev/coverage, which marks an edge by a byte of `covered`, an array of whole pages. */
#define _GNU_SOURCE
#include <fcntl.h>
#include <sys/mman.h>
#include <sys/syscall.h>
#include <unistd.h>

extern unsigned char covered[];

__attribute__((constructor)) static void begin(void)
{
    /* (by calls of the system alone: those of the C library may be made to fail) */
    long file = syscall(SYS_openat, AT_FDCWD, MARKS, O_RDWR);
    if (file < 0 || syscall(SYS_mmap, covered, (long)SIZE, PROT_READ | PROT_WRITE, MAP_SHARED | MAP_FIXED, file, 0L) != (long)covered)
        _exit(125);
    syscall(SYS_close, file);
}

/* (the compiler asks for it, to number marks of its own, which tools/dev/coverage takes out) */
void __sanitizer_cov_trace_pc_guard_init(unsigned *first, unsigned *end)
{
    (void)first, (void)end;
}
