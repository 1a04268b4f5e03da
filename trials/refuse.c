/* An allocator and a starter of threads that refuse, loaded before the C library's (LD_PRELOAD).

   REFUSE is "memory" or "thread", REFUSE_AT the number of the call that is refused, counted from 1 over all threads from
   the start of the program on, and REFUSE_ALL is set where all calls after it are refused too. The memory that a new thread
   takes of the C library is memory too. Where REFUSE_WITHIN is set, only what is asked for behind the first write to
   standard output and before the second counts.

   Where REFUSE_TELL is set, lines are written to the file that is open under this number. The first refusal is told at once:
   "first N" or "other N", of the program's first thread or of another, where it was the Nth call of this thread. Where
   memory is refused, each start of a thread by the first one is told too: "start N M". The first thread had made N calls for
   memory when the start was called, and M when it came back. */
#define _GNU_SOURCE
#include <dlfcn.h>
#include <errno.h>
#include <pthread.h>
#include <stdatomic.h>
#include <stdio.h>
#include <stdlib.h>
#include <string.h>
#include <sys/syscall.h>
#include <unistd.h>

enum { NOTHING, MEMORY, THREAD };

static int what = NOTHING, all, within, tell = -1;
static long at;
static atomic_long count;
static atomic_int writes;
static atomic_flag told = ATOMIC_FLAG_INIT;
/* How many calls this thread made. A thread has it from its beginning, so that a look at it asks for no memory. */
static __thread long own __attribute__((tls_model("initial-exec")));

__attribute__((constructor)) static void begin(void)
{
    const char *said = getenv("REFUSE"), *number = getenv("REFUSE_AT"), *open = getenv("REFUSE_TELL");
    all = getenv("REFUSE_ALL") != NULL;
    within = getenv("REFUSE_WITHIN") != NULL;
    at = number ? atol(number) : 0;
    tell = open ? atoi(open) : -1;
    what = !said ? NOTHING : !strcmp(said, "memory") ? MEMORY : !strcmp(said, "thread") ? THREAD : NOTHING;
}

static int is_first_thread(void)
{
    return syscall(SYS_gettid) == getpid();
}

static void say(const char *word, long first, long last)
{
    char line[64];
    int length = last < 0 ? snprintf(line, sizeof line, "%s %ld\n", word, first)
                          : snprintf(line, sizeof line, "%s %ld %ld\n", word, first, last);
    if (write(tell, line, (size_t)length) != length)
        _exit(99);
}

static int refuses(int called)
{
    if (called != what || (within && atomic_load(&writes) != 1))
        return 0;
    long number = atomic_fetch_add(&count, 1) + 1;
    own++;
    if (number != at && !(all && number > at))
        return 0;
    if (tell >= 0 && !atomic_flag_test_and_set(&told))
        say(is_first_thread() ? "first" : "other", own, -1);
    errno = ENOMEM;
    return 1;
}

#define REAL(name, type, ...) \
    static type (*real)(__VA_ARGS__); \
    if (!real) \
        real = (type (*)(__VA_ARGS__))dlsym(RTLD_NEXT, name)

ssize_t write(int file, const void *bytes, size_t count)
{
    REAL("write", ssize_t, int, const void *, size_t);
    ssize_t written = real(file, bytes, count);
    if (file == STDOUT_FILENO && what != NOTHING)
        atomic_fetch_add(&writes, 1);
    return written;
}

void *malloc(size_t size)
{
    REAL("malloc", void *, size_t);
    return refuses(MEMORY) ? NULL : real(size);
}

void *realloc(void *old, size_t size)
{
    REAL("realloc", void *, void *, size_t);
    return refuses(MEMORY) ? NULL : real(old, size);
}

void *aligned_alloc(size_t alignment, size_t size)
{
    REAL("aligned_alloc", void *, size_t, size_t);
    return refuses(MEMORY) ? NULL : real(alignment, size);
}

int posix_memalign(void **place, size_t alignment, size_t size)
{
    REAL("posix_memalign", int, void **, size_t, size_t);
    return refuses(MEMORY) ? ENOMEM : real(place, alignment, size);
}

int pthread_create(pthread_t *thread, const pthread_attr_t *how, void *(*start)(void *), void *given)
{
    REAL("pthread_create", int, pthread_t *, const pthread_attr_t *, void *(*)(void *), void *);
    long before = own;
    int answer = refuses(THREAD) ? EAGAIN : real(thread, how, start, given);
    if (tell >= 0 && what == MEMORY && is_first_thread())
        say("start", before, own);
    return answer;
}
