/* A device: it opens a valve if and only if more than m nodes of a system show the value (order) that opens it, in a
   new run. It knows the id of the system and its timetable alone. It asks the doors of nodes for decisions, one after
   another, and believes none of them: receipts are what counts. docs/EMBED.md says when a decision is obeyed.

       cc -std=c11 -DSM_POOL_BYTES=1048576 examples/device/valve.c embed/pool.c out/libsm_node.a -I embed -o valve
       valve FILE SYSTEM START PERIOD ORDER ADDRESS..

   FILE stands for the valve: it has the word `open` or `closed`. SYSTEM is the id in 64 hexadecimal digits of lower
   case. Run 0 begins at START, in milliseconds since 1970, and from one run to the next it is PERIOD milliseconds.
   ORDER is the number of the value that opens. An ADDRESS is that of a node's door: 192.0.2.1:4800 or
   [2001:db8::1]:4800.

   A run is new if it is above the last one that was obeyed, and began at most OLDEST periods ago by the clock of this
   machine. If no new decision is shown for three periods the valve closes, and so it does at the end by SIGTERM or
   SIGINT. The next address is tried when a node sends no whole message for two periods, three decisions running that
   are not obeyed, or none that is obeyed for OLDEST + 2 periods. The status is 2 for wrong words, and 5 if the valve
   cannot be set.

   No memory is asked of the system: the program has the buffers here and in pool.c. It has no TLS, and needs none for
   what it believes. Where a node's door wants TLS take obey.py, or a proxy on this machine. */
#define _POSIX_C_SOURCE 200809L
#include "sm_node.h"
#include <arpa/inet.h>
#include <errno.h>
#include <fcntl.h>
#include <poll.h>
#include <signal.h>
#include <stdbool.h>
#include <string.h>
#include <sys/socket.h>
#include <time.h>
#include <unistd.h>

/* So many periods ago a run may have begun. A run that takes longer than a period needs as many more. */
#ifndef OLDEST
#define OLDEST 3
#endif

/* After so many periods without a decision the valve closes, and without a message a node is left. So many decisions
   running that are not obeyed are borne. More than a decision of 16 nodes has, whatever the header. */
enum { CLOSES = 3, SILENT = 2, BORNE = 3, ADDRESSES = 16, MOST_BYTES = 12 * 1024 + 16 * 18000 };
/* The bytes of the length of a message, of what is wanted, and of what stands before the admission of a decision. */
enum { LENGTH = 4, WANTED = 1 + 32 + 4, FRONT = 1 + 4 + 1 + 1 + 4 };

/* What the device knows, what it obeyed last and when, and its valve. */
static struct {
    uint8_t system[32];
    int64_t start, period, obeyed;
    uint32_t opens, newest;
    int valve;
    bool is_open;
} device = {.newest = SM_NO_RUN};

/* The doors of nodes, and the one that is asked: what came of it, and since when it sent nothing or nothing good. */
static struct {
    struct sockaddr_storage address[ADDRESSES];
    size_t count, at, bytes;
    int socket, borne;
    bool is_connected;
    int64_t heard, good, again;
    uint8_t room[LENGTH + MOST_BYTES];
} door = {.socket = -1};

static volatile sig_atomic_t is_ended;

static void end(int signal) {
    (void)signal;
    is_ended = 1;
}

/* The time in milliseconds: since 1970, or by the clock that nobody sets. */
static int64_t time_by(clockid_t clock) {
    struct timespec now;
    clock_gettime(clock, &now);
    return (int64_t)now.tv_sec * 1000 + now.tv_nsec / 1000000;
}

static int64_t now_ms(void) { return time_by(CLOCK_MONOTONIC); }

/* Writes a line to standard error. */
static void say(const char *line) {
    ssize_t written = write(STDERR_FILENO, line, strlen(line));
    (void)written;
}

/* Sets the valve. A valve that cannot be set ends the program. */
static void set_valve(bool is_open) {
    const char *word = is_open ? "open  \n" : "closed\n";
    if (pwrite(device.valve, word, 7, 0) != 7) {
        say("the valve cannot be set\n");
        _exit(5);
    }
    if (is_open != device.is_open) say(word);
    device.is_open = is_open;
}

/* ---- what is obeyed */

static uint32_t number_at(const uint8_t *at) {
    return (uint32_t)at[0] << 24 | (uint32_t)at[1] << 16 | (uint32_t)at[2] << 8 | at[3];
}

/* Whether a run is above the last one that was obeyed, and began at most OLDEST periods ago. */
static bool is_new(uint32_t run) {
    int64_t begins, since = time_by(CLOCK_REALTIME) - OLDEST * device.period;
    uint32_t first;
    if (device.newest != SM_NO_RUN && run <= device.newest) return false;
    if (sm_node_next_run(since, device.start, (uint64_t)device.period, SM_NO_RUN, &first, &begins) != SM_OK)
        return false;
    return run >= first;
}

/* The order that a decision shows, if it is obeyed; otherwise SM_NO_ORDER. */
static uint32_t order_of(const uint8_t *message, size_t bytes) {
    sm_admitted admitted;
    uint32_t order, fault;
    if (bytes < FRONT) return SM_NO_ORDER;
    const uint8_t *admission = message + FRONT;
    size_t rest = bytes - FRONT, admission_bytes = number_at(admission - 4);
    uint32_t run = number_at(message + 1);
    if (admission_bytes > rest || !is_new(run)) return SM_NO_ORDER;
    if (sm_node_admit(device.system, run, admission, admission_bytes, &admitted, &fault) != SM_OK) return SM_NO_ORDER;
    const uint8_t *receipts = admission + admission_bytes;
    if (sm_node_shown(admitted.run_id, receipts, rest - admission_bytes, &order, &fault) != SM_OK) return SM_NO_ORDER;
    device.newest = run;
    return order;
}

/* Takes a message. What is no decision says only that the node is there. */
static void take(const uint8_t *message, size_t bytes) {
    door.heard = now_ms();
    if (message[0] != 'D') return;
    uint32_t order = order_of(message, bytes);
    door.borne++;
    if (order == SM_NO_ORDER) return;
    door.borne = 0;
    door.good = device.obeyed = now_ms();
    set_valve(order == device.opens);
}

/* ---- nodes */

/* Leaves a node. The next one is asked after an eighth of a period. */
static void leave(const char *why) {
    say(why);
    if (door.socket >= 0) close(door.socket);
    door.socket = -1;
    door.at = (door.at + 1) % door.count;
    door.again = now_ms() + device.period / 8;
}

/* Begins a connection to the node whose turn it is. */
static void begin(void) {
    const struct sockaddr_storage *to = &door.address[door.at];
    bool is_four = to->ss_family == AF_INET;
    socklen_t bytes = is_four ? sizeof(struct sockaddr_in) : sizeof(struct sockaddr_in6);
    door.heard = door.good = now_ms();
    door.bytes = 0;
    door.borne = 0;
    door.is_connected = false;
    door.socket = socket(to->ss_family, SOCK_STREAM, 0);
    if (door.socket < 0 || fcntl(door.socket, F_SETFL, O_NONBLOCK) != 0)
        leave("no socket\n");
    else if (connect(door.socket, (const struct sockaddr *)to, bytes) != 0 && errno != EINPROGRESS)
        leave("no connection\n");
}

/* Asks for the decisions from now on, once the connection stands. Returns false if it does not. */
static bool greet(void) {
    uint8_t wanted[LENGTH + WANTED] = {0, 0, 0, WANTED, 'W'};
    int error = 0;
    socklen_t bytes = sizeof error;
    memcpy(wanted + LENGTH + 1, device.system, 32);
    memset(wanted + LENGTH + 1 + 32, 0xff, 4);
    if (getsockopt(door.socket, SOL_SOCKET, SO_ERROR, &error, &bytes) != 0 || error != 0) return false;
    door.is_connected = true;
    return write(door.socket, wanted, sizeof wanted) == (ssize_t)sizeof wanted;
}

/* Reads what came, and takes the whole messages of it. Returns false if the node is to be left. */
static bool hear(void) {
    size_t at = 0;
    ssize_t more = read(door.socket, door.room + door.bytes, sizeof door.room - door.bytes);
    if (more <= 0) return more < 0 && (errno == EAGAIN || errno == EINTR);
    door.bytes += (size_t)more;
    while (door.bytes - at >= LENGTH) {
        size_t bytes = number_at(door.room + at);
        if (bytes == 0 || bytes > MOST_BYTES) return false;
        if (door.bytes - at - LENGTH < bytes) break;
        take(door.room + at + LENGTH, bytes);
        if (door.borne == BORNE) return false;
        at += LENGTH + bytes;
    }
    door.bytes -= at;
    memmove(door.room, door.room + at, door.bytes);
    return true;
}

/* Waits for a node for a moment at most, and acts on what it sends, or on its silence. */
static void step(void) {
    if (device.is_open && now_ms() - device.obeyed > CLOSES * device.period) set_valve(false);
    if (door.socket < 0 && now_ms() >= door.again) begin();
    struct pollfd waits = {door.socket, door.is_connected ? POLLIN : POLLOUT, 0};
    int moment = device.period < 800 ? (int)device.period / 8 + 1 : 100;
    bool is_ready = poll(&waits, 1, moment) == 1;
    if (door.socket < 0) return;
    if (is_ready && !(door.is_connected ? hear() : greet()))
        leave("a node is left for what it sent\n");
    else if (now_ms() - door.heard > SILENT * device.period)
        leave("a node is left for its silence\n");
    else if (now_ms() - door.good > (OLDEST + 2) * device.period)
        leave("a node is left, as it shows nothing new\n");
}

/* ---- words */

static uint8_t digit_of(char digit) {
    if (digit >= '0' && digit <= '9') return (uint8_t)(digit - '0');
    return digit >= 'a' && digit <= 'f' ? (uint8_t)(digit - 'a' + 10) : 16;
}

/* Whether a word is an id, which is read. */
static bool is_id(const char *word, uint8_t id[32]) {
    if (strlen(word) != 64) return false;
    for (size_t at = 0; at < 32; at++) {
        uint8_t high = digit_of(word[2 * at]), low = digit_of(word[2 * at + 1]);
        if (high > 15 || low > 15) return false;
        id[at] = (uint8_t)(high << 4 | low);
    }
    return true;
}

/* Whether a word is a number within bounds, which is read. */
static bool is_number(const char *word, int64_t least, int64_t most, int64_t *number) {
    size_t digits = strspn(word, "0123456789");
    if (digits == 0 || digits > 15 || word[digits] != '\0') return false;
    *number = 0;
    for (size_t at = 0; at < digits; at++) *number = 10 * *number + (word[at] - '0');
    return *number >= least && *number <= most;
}

/* Whether a word is an address with a port, which is read. */
static bool is_address(const char *word, struct sockaddr_storage *address) {
    struct sockaddr_in *four = (struct sockaddr_in *)address;
    struct sockaddr_in6 *six = (struct sockaddr_in6 *)address;
    char host[64] = {0};
    int64_t port;
    const char *colon = strrchr(word, ':');
    bool is_six = word[0] == '[' && colon != NULL && colon[-1] == ']';
    size_t from = is_six ? 1 : 0, length = colon == NULL ? 0 : (size_t)(colon - word) - 2 * from;
    if (colon == NULL || length >= sizeof host || !is_number(colon + 1, 1, 65535, &port)) return false;
    memcpy(host, word + from, length);
    if (is_six) {
        *six = (struct sockaddr_in6){.sin6_family = AF_INET6, .sin6_port = htons((uint16_t)port)};
        return inet_pton(AF_INET6, host, &six->sin6_addr) == 1;
    }
    *four = (struct sockaddr_in){.sin_family = AF_INET, .sin_port = htons((uint16_t)port)};
    return inet_pton(AF_INET, host, &four->sin_addr) == 1;
}

/* Whether the words are those of the head. Times are such that no sum of them wraps. */
static bool are_read(int words, char **word) {
    int64_t opens;
    if (words < 7 || words - 6 > ADDRESSES || !is_id(word[2], device.system)) return false;
    if (!is_number(word[3], 0, INT64_MAX, &device.start)) return false;
    if (!is_number(word[4], 1, 1000000000, &device.period)) return false;
    if (!is_number(word[5], 0, SM_ORDERS_MOST - 1, &opens)) return false;
    device.opens = (uint32_t)opens;
    for (door.count = 0; door.count < (size_t)words - 6; door.count++)
        if (!is_address(word[6 + door.count], &door.address[door.count])) return false;
    return true;
}

int main(int words, char **word) {
    if (!are_read(words, word)) {
        say("valve FILE SYSTEM START PERIOD ORDER ADDRESS..\n");
        return 2;
    }
    device.valve = open(word[1], O_WRONLY | O_CREAT | O_TRUNC, 0644);
    struct sigaction ends = {.sa_handler = end}, ignored = {.sa_handler = SIG_IGN};
    sigaction(SIGTERM, &ends, NULL);
    sigaction(SIGINT, &ends, NULL);
    sigaction(SIGPIPE, &ignored, NULL);
    set_valve(false);
    while (!is_ended) step();
    set_valve(false);
    return 0;
}
