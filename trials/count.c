/* Counts what a program asks of the system, loaded before the C library's (LD_PRELOAD).

   When the program ends by _exit, one line is written to the file that is open under the number COUNT_TELL: the starts of
   threads, the bytes that were asked for as memory in all, and the most KiB of memory that the process had at once. */
#define _GNU_SOURCE
#include <dlfcn.h>
#include <pthread.h>
#include <stdatomic.h>
#include <stdio.h>
#include <stdlib.h>
#include <unistd.h>

static atomic_long threads, bytes;

#define REAL(name, type, ...) \
    static type (*real)(__VA_ARGS__); \
    if (!real) \
        real = (type (*)(__VA_ARGS__))dlsym(RTLD_NEXT, name)

/* The most KiB of memory that the process had at once: what the system says of it since its program was loaded. */
static long peak(void)
{
    char line[256];
    long most = 0;
    FILE *status = fopen("/proc/self/status", "r");
    while (status && fgets(line, sizeof line, status))
        if (sscanf(line, "VmHWM: %ld", &most) == 1)
            break;
    if (status)
        fclose(status);
    return most;
}

static void tell(void)
{
    const char *open = getenv("COUNT_TELL");
    long started = atomic_load(&threads), asked = atomic_load(&bytes);
    if (open)
        dprintf(atoi(open), "%ld %ld %ld\n", started, asked, peak());
}

void _exit(int status)
{
    REAL("_exit", void, int);
    tell();
    real(status);
    __builtin_unreachable();
}

static void add(size_t size)
{
    atomic_fetch_add(&bytes, (long)size);
}

void *malloc(size_t size)
{
    REAL("malloc", void *, size_t);
    add(size);
    return real(size);
}

void *realloc(void *old, size_t size)
{
    REAL("realloc", void *, void *, size_t);
    add(size);
    return real(old, size);
}

void *aligned_alloc(size_t alignment, size_t size)
{
    REAL("aligned_alloc", void *, size_t, size_t);
    add(size);
    return real(alignment, size);
}

int posix_memalign(void **place, size_t alignment, size_t size)
{
    REAL("posix_memalign", int, void **, size_t, size_t);
    add(size);
    return real(place, alignment, size);
}

int pthread_create(pthread_t *thread, const pthread_attr_t *how, void *(*start)(void *), void *given)
{
    REAL("pthread_create", int, pthread_t *, const pthread_attr_t *, void *(*)(void *), void *);
    atomic_fetch_add(&threads, 1);
    return real(thread, how, start, given);
}
