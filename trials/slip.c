/* A standard input and a standard output of which one call slips, loaded before the C library's (LD_PRELOAD).

   SLIP is "read" or "write", and SLIP_AT the number of the call that slips, counted from 1. SLIP_AS says how: "fails" (EIO),
   "interrupted" (EINTR), "short" (one byte is moved at most) or "nothing" (none is moved, and the call answers 0). No call moves
   more bytes than SLIP_READS or SLIP_WRITES says. To the file that is open under the number SLIP_TELL two lines are written, each
   once: `slipped N` when a call slips, where N bytes were moved before, and `written` when standard output is written to. */
#define _GNU_SOURCE
#include <dlfcn.h>
#include <errno.h>
#include <stdatomic.h>
#include <stdio.h>
#include <stdlib.h>
#include <string.h>
#include <unistd.h>

enum { WORKS = -2 };

/* The calls of one kind. */
struct calls {
    const char *name;
    long most;
    atomic_long count, moved;
};

static struct calls reads = {.name = "read"}, writes = {.name = "write"};
static const char *slip = "", *as = "";
static long at;
static int tell = -1;
static atomic_flag was_written = ATOMIC_FLAG_INIT;

#define REAL(name, type, ...) \
    static type (*real)(__VA_ARGS__); \
    if (!real) \
        real = (type (*)(__VA_ARGS__))dlsym(RTLD_NEXT, name)

static const char *text_of(const char *name)
{
    const char *said = getenv(name);
    return said ? said : "";
}

__attribute__((constructor)) static void begin(void)
{
    slip = text_of("SLIP");
    as = text_of("SLIP_AS");
    at = atol(text_of("SLIP_AT"));
    reads.most = atol(text_of("SLIP_READS"));
    writes.most = atol(text_of("SLIP_WRITES"));
    tell = *text_of("SLIP_TELL") ? atoi(text_of("SLIP_TELL")) : -1;
}

static ssize_t put(int file, const void *bytes, size_t count)
{
    REAL("write", ssize_t, int, const void *, size_t);
    return real(file, bytes, count);
}

static void say(const char *line)
{
    size_t length = strlen(line);
    if (tell >= 0 && put(tell, line, length) != (ssize_t)length)
        _exit(99);
}

/* What the next call answers in place of its work; or WORKS, and then it moves *count bytes at most. */
static ssize_t next(struct calls *calls, size_t *count)
{
    char line[64];
    if (calls->most && *count > (size_t)calls->most)
        *count = (size_t)calls->most;
    if (atomic_fetch_add(&calls->count, 1) + 1 != at || strcmp(slip, calls->name))
        return WORKS;
    snprintf(line, sizeof line, "slipped %ld\n", atomic_load(&calls->moved));
    say(line);
    if (!strcmp(as, "short")) {
        *count = *count > 1 ? 1 : *count;
        return WORKS;
    }
    if (!strcmp(as, "nothing"))
        return 0;
    errno = !strcmp(as, "interrupted") ? EINTR : EIO;
    return -1;
}

/* What a call has moved is added up. */
static ssize_t moved(struct calls *calls, ssize_t count)
{
    if (count > 0)
        atomic_fetch_add(&calls->moved, (long)count);
    return count;
}

ssize_t read(int file, void *bytes, size_t count)
{
    REAL("read", ssize_t, int, void *, size_t);
    if (file != STDIN_FILENO)
        return real(file, bytes, count);
    ssize_t answer = next(&reads, &count);
    return answer == WORKS ? moved(&reads, real(file, bytes, count)) : answer;
}

ssize_t write(int file, const void *bytes, size_t count)
{
    if (file != STDOUT_FILENO)
        return put(file, bytes, count);
    if (!atomic_flag_test_and_set(&was_written))
        say("written\n");
    ssize_t answer = next(&writes, &count);
    return answer == WORKS ? moved(&writes, put(file, bytes, count)) : answer;
}
