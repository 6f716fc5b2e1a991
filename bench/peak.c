/* A library to be loaded before the C library: how many bytes a program has allocated at once.
 * At the end it writes one line to the file that PEAK names: the most bytes that were live at one moment.
 * cc -O2 -shared -fPIC -o peak.so peak.c -ldl
 */
#define _GNU_SOURCE
#include <dlfcn.h>
#include <malloc.h>
#include <stdio.h>
#include <stdlib.h>
#include <string.h>
#include <sys/syscall.h>
#include <unistd.h>

static long live, peak;
static void *(*real_malloc)(size_t), *(*real_realloc)(void *, size_t);
static void (*real_free)(void *);
static int (*real_posix)(void **, size_t, size_t);

static void *next(const char *name) { return dlsym(RTLD_NEXT, name); }

static void *gained(void *at)
{
    long now = __atomic_add_fetch(&live, at ? (long)malloc_usable_size(at) : 0, __ATOMIC_SEQ_CST);
    long seen = __atomic_load_n(&peak, __ATOMIC_SEQ_CST);
    while (now > seen && !__atomic_compare_exchange_n(&peak, &seen, now, 0, __ATOMIC_SEQ_CST, __ATOMIC_SEQ_CST))
        ;
    return at;
}

static void lost(void *at)
{
    if (at)
        __atomic_sub_fetch(&live, (long)malloc_usable_size(at), __ATOMIC_SEQ_CST);
}

void *malloc(size_t size)
{
    if (!real_malloc)
        real_malloc = next("malloc");
    return gained(real_malloc(size));
}

void free(void *at)
{
    if (!real_free)
        real_free = next("free");
    lost(at);
    real_free(at);
}

void *realloc(void *old, size_t size)
{
    if (!real_realloc)
        real_realloc = next("realloc");
    lost(old);
    void *at = real_realloc(old, size);
    gained(at ? at : old);
    return at;
}

int posix_memalign(void **out, size_t to, size_t size)
{
    if (!real_posix)
        real_posix = next("posix_memalign");
    int status = real_posix(out, to, size);
    if (!status)
        gained(*out);
    return status;
}

static void tell(void)
{
    const char *name = getenv("PEAK");
    FILE *file = name ? fopen(name, "w") : 0;
    if (file) {
        fprintf(file, "%ld\n", peak);
        fclose(file);
    }
}

void _exit(int status)
{
    tell();
    syscall(SYS_exit_group, status);
    __builtin_unreachable();
}

__attribute__((destructor)) static void at_end(void) { tell(); }
