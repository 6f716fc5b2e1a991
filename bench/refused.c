/* A library to be loaded before the C library: the allocation of number REFUSED, from 1, fails. With REFUSED=0 none fails, and
 * the number of allocations is told on standard error at the end. */
#define _GNU_SOURCE
#include <dlfcn.h>
#include <errno.h>
#include <stdio.h>
#include <stdlib.h>
#include <sys/syscall.h>
#include <unistd.h>

static unsigned long made, refused = -1UL;
static void *(*real_malloc)(size_t), *(*real_realloc)(void *, size_t), *(*real_aligned)(size_t, size_t);
static int (*real_posix)(void **, size_t, size_t);

__attribute__((constructor)) static void begin(void)
{
    const char *said = getenv("REFUSED");
    real_malloc = dlsym(RTLD_NEXT, "malloc");
    real_realloc = dlsym(RTLD_NEXT, "realloc");
    real_aligned = dlsym(RTLD_NEXT, "aligned_alloc");
    real_posix = dlsym(RTLD_NEXT, "posix_memalign");
    made = 0;
    refused = said ? strtoul(said, 0, 10) : 0;
}

static int fails(void) { return __atomic_add_fetch(&made, 1, __ATOMIC_SEQ_CST) == refused; }

void *malloc(size_t size)
{
    if (!real_malloc)
        begin();
    if (fails())
        return errno = ENOMEM, (void *)0;
    return real_malloc(size);
}

void *realloc(void *old, size_t size)
{
    if (!real_realloc)
        begin();
    if (fails())
        return errno = ENOMEM, (void *)0;
    return real_realloc(old, size);
}

void *aligned_alloc(size_t to, size_t size)
{
    if (!real_aligned)
        begin();
    if (fails())
        return errno = ENOMEM, (void *)0;
    return real_aligned(to, size);
}

int posix_memalign(void **out, size_t to, size_t size)
{
    if (!real_posix)
        begin();
    return fails() ? ENOMEM : real_posix(out, to, size);
}

/* A program of this repository ends by this call, and so runs no destructors. */
void _exit(int status)
{
    if (refused == 0)
        dprintf(2, "allocations %lu\n", made);
    syscall(SYS_exit_group, status);
    __builtin_unreachable();
}
