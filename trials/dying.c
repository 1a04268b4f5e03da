/* Preloaded into a process, this kills the process at a call that puts something on the disk or sends a datagram.

   The calls are open, write, fsync, rename, unlink, bind and sendto, counted from 1. DIE_AT is the number of the call,
   and DIE is `before` it, `within` it (of a write half of the bytes are written), or `after` it. The file that CALLS_TO
   names gets a line for each call that was done, with the name of the file in its folder: `open 0.log`, `write
   0.log.new 100`, `fsync 0.log`, `rename 0.log.new 0.log`, `unlink 0`, `bind`, `send`. The folder with the file that
   CALLS_TO names has the name `.`, as in `fsync .`, the folder above it the name `..`, and another one its own. */
#define _GNU_SOURCE
#include <dlfcn.h>
#include <fcntl.h>
#include <signal.h>
#include <stdarg.h>
#include <stdio.h>
#include <stdlib.h>
#include <string.h>
#include <sys/socket.h>
#include <sys/stat.h>
#include <unistd.h>

typedef int open_call(const char *, int, ...);
typedef ssize_t write_call(int, const void *, size_t);

static int count;

/* The call of the C library. */
static void *real(const char *name) { return dlsym(RTLD_NEXT, name); }

/* The name of a path in its folder. */
static const char *last(const char *path) {
    const char *cut = strrchr(path, '/');
    return cut == NULL ? path : cut + 1;
}

/* Whether an open folder is the one at a place beside the file that CALLS_TO names. */
static int is_beside(const char *to, const char *place, const struct stat *state) {
    char path[4096];
    struct stat own;
    snprintf(path, sizeof path, "%.*s%s", (int)(last(to) - to), to, place);
    if (stat(path, &own) != 0) _exit(99);
    return own.st_dev == state->st_dev && own.st_ino == state->st_ino;
}

/* The name of an open folder, by its path. */
static const char *folder_name(const char *path, const struct stat *state) {
    const char *to = getenv("CALLS_TO");
    if (to == NULL) return "..";
    if (is_beside(to, ".", state)) return ".";
    return is_beside(to, "..", state) ? ".." : last(path);
}

/* The name of an open file in its folder, or of an open folder. */
static const char *name_of(int file) {
    static char path[4096];
    char link[40];
    struct stat state;
    snprintf(link, sizeof link, "/proc/self/fd/%d", file);
    ssize_t length = readlink(link, path, sizeof path - 1);
    if (length < 0 || fstat(file, &state) != 0) _exit(99);
    path[length] = '\0';
    return S_ISDIR(state.st_mode) ? folder_name(path, &state) : last(path);
}

/* Whether the process dies so at the call whose number was counted last. */
static int dies(const char *how) {
    const char *at = getenv("DIE_AT"), *so = getenv("DIE");
    return at != NULL && so != NULL && atoi(at) == count && strcmp(so, how) == 0;
}

static void die_if(const char *how) {
    if (dies(how)) kill(getpid(), SIGKILL);
}

static void begin(void) {
    count++;
    die_if("before");
}

/* Appends a line about a call that was done. */
static void done(const char *call, const char *name, const char *more) {
    char line[9000];
    const char *to = getenv("CALLS_TO");
    int length = snprintf(line, sizeof line, "%s %s %s\n", call, name, more);
    int file = to == NULL ? -1 : ((open_call *)real("open"))(to, O_WRONLY | O_CREAT | O_APPEND | O_CLOEXEC, 0666);
    if (file < 0 || ((write_call *)real("write"))(file, line, (size_t)length) != length) _exit(99);
    close(file);
    die_if("within");
    die_if("after");
}

/* Opens a file by this mode, and counts it if the file may be made. */
static int opened(const char *path, int flags, mode_t mode) {
    if (!(flags & O_CREAT)) return ((open_call *)real("open"))(path, flags);
    begin();
    int file = ((open_call *)real("open"))(path, flags, mode);
    if (file >= 0) done("open", last(path), "");
    return file;
}

int open(const char *path, int flags, ...) {
    va_list rest;
    va_start(rest, flags);
    mode_t mode = flags & O_CREAT ? va_arg(rest, mode_t) : 0;
    va_end(rest);
    return opened(path, flags, mode);
}

/* The same call, by the name that Python and Rust have for it. */
int open64(const char *path, int flags, ...) {
    va_list rest;
    va_start(rest, flags);
    mode_t mode = flags & O_CREAT ? va_arg(rest, mode_t) : 0;
    va_end(rest);
    return opened(path, flags, mode);
}

ssize_t write(int file, const void *bytes, size_t length) {
    char number[30];
    begin();
    ssize_t written = ((write_call *)real("write"))(file, bytes, dies("within") ? length / 2 : length);
    snprintf(number, sizeof number, "%zd", written);
    done("write", name_of(file), number);
    return written;
}

int fsync(int file) {
    begin();
    int status = ((int (*)(int))real("fsync"))(file);
    done("fsync", name_of(file), "");
    return status;
}

int rename(const char *from, const char *to) {
    begin();
    int status = ((int (*)(const char *, const char *))real("rename"))(from, to);
    done("rename", last(from), last(to));
    return status;
}

int unlink(const char *path) {
    begin();
    int status = ((int (*)(const char *))real("unlink"))(path);
    done("unlink", last(path), "");
    return status;
}

int bind(int socket, const struct sockaddr *at, socklen_t size) {
    begin();
    int status = ((int (*)(int, const struct sockaddr *, socklen_t))real("bind"))(socket, at, size);
    done("bind", "", "");
    return status;
}

ssize_t sendto(int socket, const void *bytes, size_t length, int flags, const struct sockaddr *to, socklen_t size) {
    begin();
    ssize_t sent = ((ssize_t(*)(int, const void *, size_t, int, const struct sockaddr *, socklen_t))real("sendto"))(
        socket, bytes, length, flags, to, size);
    done("send", "", "");
    return sent;
}
