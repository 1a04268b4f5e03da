/* One node (general) of one run, as a process that talks over UDP.

       node FOLDER NODE MILLISECONDS [VALUE]

   FOLDER is of one run alone. It has the file header, NODE.seed with the 32 secret bytes of the node, of mode 600, and
   the file addresses with a line for each node, all of one family:

       NODE ADDRESS PORT        as `0 192.0.2.1 4000` or `0 2001:db8::1 4000`

   A round takes MILLISECONDS, the same at all nodes. Node 0 has a VALUE (order). The process says `ready`, and reads when
   round 1 begins, in milliseconds of the system's clock since 1970. Two clocks may differ by nearly a quarter of a round.
   It says `round R` when it has sent its frames of a round, `heard 0,2` or `heard nobody` when the round has ended, and
   at last `decides V`. The status is 3 if it could not keep to the clock, and 1 if it cannot go on.

   NODE.log must not be there before. It is made, and is on the disk with its name, before the node is made: a node that
   has begun never begins again, also after a loss of power. It is empty until the process has decided.

   A frame goes in pieces, a datagram each. All are sent SENDINGS times in the first half of a round, and taken until its
   last quarter ends. A datagram is of the neighbour whose address it comes from. UDP does not protect this: whoever can
   send with a false address can end a run, but not sign. So the network has to be closed, or IPsec or WireGuard stands
   below. A datagram is

       SMD1 | run id, 32 bytes | round | sender | receiver | length, 4 bytes | place, 4 bytes | piece

   where the length is that of the frame, and the place that of the piece in it, big-endian. docs/NODES.md has how long a
   round has to be, and the program `vamuretu` for a node that goes on from run to run. */
#include "sm_node.h"
#include <errno.h>
#include <fcntl.h>
#include <netdb.h>
#include <poll.h>
#include <stdbool.h>
#include <stdio.h>
#include <stdlib.h>
#include <string.h>
#include <sys/socket.h>
#include <sys/stat.h>
#include <time.h>
#include <unistd.h>

/* A datagram of MOST bytes goes over each way of IPv6 in one packet. */
enum { NODES = SM_GENERALS_MOST, SENDINGS = 4, FRONT = 47, MOST = 1232, PIECE = MOST - FRONT, LATE = 3 };

/* What has come of a neighbour's frame: the pieces that are there, of a frame of this length and round. */
struct part {
    uint8_t *frame, *has;
    size_t length, missing;
    int round;
};

/* What the process knows of its run. Bit g of a set stands for node g. */
static struct {
    const char *folder;
    uint32_t me, neighbours, heard, rounds;
    uint8_t header[SM_HEADER_MOST + 1], run_id[SM_RUN_ID_BYTES], *out[NODES];
    size_t header_bytes, longest, lengths[NODES];
    sm_numbers numbers;
    struct part parts[NODES];
    struct sockaddr_storage places[NODES];
    socklen_t sizes[NODES];
    int own, round;
    int64_t begins, length;
    sm_node node;
} self;

/* Says what is wrong with what was given, and ends. */
static void refuse(const char *what, const char *given) {
    fprintf(stderr, "%s: %s\n", given, what);
    exit(1);
}

/* Says what the system refuses, and ends. */
static void give_up(const char *what) {
    perror(what);
    exit(1);
}

/* Ends unless a call of the library was done. */
static void must(const char *call, uint32_t status, uint32_t fault) {
    if (status == SM_OK) return;
    fprintf(stderr, "%s: %s: %s\n", call, sm_status_text(status), fault == 0 ? "" : sm_node_fault_text(fault));
    exit(1);
}

static uint8_t *room_of(size_t length) {
    uint8_t *at = calloc(length + 1, 1);
    if (at == NULL) give_up("memory");
    return at;
}

/* The number that a word is. */
static uint32_t number_of(const char *word, uint32_t most) {
    char *end;
    unsigned long number = strtoul(word, &end, 10);
    if (*word < '0' || *word > '9' || *end != '\0' || number > most) refuse("no number that fits", word);
    return (uint32_t)number;
}

/* ---- files */

static void path_of(char path[200], const char *name) {
    if (snprintf(path, 200, "%s/%s", self.folder, name) >= 200) refuse("its path is too long", self.folder);
}

static FILE *open_file(const char *name) {
    char path[200];
    path_of(path, name);
    FILE *file = fopen(path, "r");
    if (file == NULL) give_up(path);
    return file;
}

/* Waits until the names in a folder are on the disk. */
static void sync_names(const char *name) {
    char path[200];
    path_of(path, name);
    int names = open(path, O_RDONLY | O_DIRECTORY);
    if (names < 0 || fsync(names) != 0 || close(names) != 0) give_up(path);
}

/* Writes a file, and waits until it is on the disk. */
static void write_file(const char *path, int flags, const uint8_t *bytes, size_t length) {
    int file = open(path, O_WRONLY | O_CREAT | O_CLOEXEC | flags, 0666);
    if (file < 0) give_up(path);
    for (size_t done = 0; done < length;) {
        ssize_t count = write(file, bytes + done, length - done);
        if (count < 0 && errno != EINTR) give_up(path);
        if (count > 0) done += (size_t)count;
    }
    if (fsync(file) != 0 || close(file) != 0) give_up(path);
}

/* Makes the empty log, which tells that the seed is used. It is on the disk then with its name, and the folder with its. */
static void make_log(void) {
    char name[20], path[200];
    snprintf(name, sizeof name, "%u.log", self.me);
    path_of(path, name);
    sync_names("..");
    write_file(path, O_EXCL, NULL, 0);
    sync_names(".");
}

/* Takes the empty log away where nothing was signed. The disk is not waited for: if power fails now, it may come back, and
   the node is refused. */
static void take_log_back(void) {
    char name[20], path[200];
    snprintf(name, sizeof name, "%u.log", self.me);
    path_of(path, name);
    unlink(path);
}

/* Puts the whole log into the place of the empty one. A loss of power leaves one of the two. */
static void keep_log(const uint8_t *log, size_t length) {
    char name[20], path[200], fresh[220];
    snprintf(name, sizeof name, "%u.log", self.me);
    path_of(path, name);
    snprintf(fresh, sizeof fresh, "%s.new", path);
    write_file(fresh, O_TRUNC, log, length);
    if (rename(fresh, path) != 0) give_up(path);
    sync_names(".");
}

static void read_seed(uint8_t seed[SM_SEED_BYTES]) {
    char name[20];
    struct stat told;
    snprintf(name, sizeof name, "%u.seed", self.me);
    FILE *file = open_file(name);
    if (fstat(fileno(file), &told) != 0) give_up(name);
    if ((told.st_mode & 077) != 0) refuse("others may use it: its mode has to be 600", name);
    if (fread(seed, 1, SM_SEED_BYTES, file) != SM_SEED_BYTES || fgetc(file) != EOF) refuse("not 32 bytes", name);
    fclose(file);
}

/* ---- the clock */

static int64_t time_of(clockid_t clock) {
    struct timespec time;
    if (clock_gettime(clock, &time) != 0) give_up("clock");
    return (int64_t)time.tv_sec * 1000 + time.tv_nsec / 1000000;
}

/* A clock that is set meanwhile changes nothing. */
static int64_t now(void) { return time_of(CLOCK_MONOTONIC); }

static void be_in_time(int64_t moment) {
    if (now() < moment) return;
    fprintf(stderr, "late\n");
    exit(LATE);
}

static void say(const char *line) {
    if (puts(line) < 0 || fflush(stdout) != 0) give_up("standard output");
}

/* Reads when round 1 begins. A node that is too late for it has signed nothing, and may be started again. */
static void await_beginning(void) {
    char line[40], *end;
    if (fgets(line, sizeof line, stdin) == NULL) refuse("no beginning is told", "standard input");
    int64_t moment = strtoll(line, &end, 10);
    if (end == line || strcmp(end, "\n") != 0) refuse("not a moment", line);
    self.begins = moment - time_of(CLOCK_REALTIME) + now();
    if (now() >= self.begins + self.length / 2) take_log_back();
    be_in_time(self.begins + self.length / 2);
}

/* ---- datagrams */

static size_t number_at(const uint8_t *at) {
    return (size_t)at[0] << 24 | (size_t)at[1] << 16 | (size_t)at[2] << 8 | (size_t)at[3];
}

static void put_number(uint8_t *at, size_t number) {
    for (int byte = 0; byte < 4; byte++) at[byte] = (uint8_t)(number >> (24 - 8 * byte));
}

static bool is_in(uint32_t set, uint32_t node) { return set >> node & 1; }

/* The node that has an address, or NODES. */
static uint32_t whose(const struct sockaddr_storage *place, socklen_t size) {
    uint32_t node = 0;
    while (node < NODES && !(self.sizes[node] == size && memcmp(&self.places[node], place, size) == 0)) node++;
    return node;
}

static void read_addresses(void) {
    char line[200], address[80], port[8];
    struct addrinfo wanted = {.ai_flags = AI_NUMERICHOST | AI_NUMERICSERV, .ai_socktype = SOCK_DGRAM}, *found;
    unsigned node;
    FILE *file = open_file("addresses");
    while (fgets(line, sizeof line, file) != NULL) {
        int end = 0;
        if (sscanf(line, "%2u %79s %7[0-9]%n", &node, address, port, &end) != 3 || strcmp(line + end, "\n") != 0 ||
            node >= NODES || self.sizes[node] != 0)
            refuse("not NODE ADDRESS PORT, or a node that has an address", line);
        if (getaddrinfo(address, port, &wanted, &found) != 0) refuse("no address and port of numbers", line);
        memcpy(&self.places[node], found->ai_addr, found->ai_addrlen);
        if (whose(&self.places[node], found->ai_addrlen) != NODES) refuse("the address of another node", line);
        self.sizes[node] = found->ai_addrlen;
        freeaddrinfo(found);
    }
    fclose(file);
}

/* Opens the socket. Linux gives it no more room than net.core.rmem_max, and does not say so. */
static void open_socket(void) {
    int room = 1 << 22;
    sa_family_t family = self.places[self.me].ss_family;
    for (uint32_t node = 0; node < NODES; node++)
        if (is_in(self.neighbours | 1u << self.me, node) &&
            (self.sizes[node] == 0 || self.places[node].ss_family != family))
            refuse("a node or a neighbour has no address in it, or one of another family", "addresses");
    self.own = socket(family, SOCK_DGRAM | SOCK_CLOEXEC, 0);
    if (self.own < 0 || setsockopt(self.own, SOL_SOCKET, SO_RCVBUF, &room, sizeof room) != 0) give_up("socket");
    if (bind(self.own, (struct sockaddr *)&self.places[self.me], self.sizes[self.me]) != 0) give_up("its own address");
}

/* The length that a datagram says the frame has, or 0 if it is no piece of the sender's frame of this round. */
static size_t length_of(uint32_t from, const uint8_t *at, size_t count) {
    if (count <= FRONT || memcmp(at, "SMD1", 4) != 0 || memcmp(at + 4, self.run_id, SM_RUN_ID_BYTES) != 0) return 0;
    if (at[36] != self.round || at[37] != from || at[38] != self.me) return 0;
    size_t length = number_at(at + 39), place = number_at(at + 43);
    if (length > self.longest || place >= length || place % PIECE != 0) return 0;
    size_t left = length - place;
    return count - FRONT == (left < PIECE ? left : PIECE) ? length : 0;
}

/* Puts a piece to its place, and hands a frame that is whole to the node. A piece of a frame of another length begins the
   frame anew, so a neighbour has one frame here. One that the node refuses may come again. */
static void join(uint32_t from, const uint8_t *at, size_t count) {
    uint32_t fault;
    struct part *part = &self.parts[from];
    size_t length = length_of(from, at, count), place = length == 0 ? 0 : number_at(at + 43);
    if (length == 0) return;
    if (part->round != self.round || part->length != length) {
        *part = (struct part){part->frame, part->has, length, (length + PIECE - 1) / PIECE, self.round};
        memset(part->has, 0, part->missing);
    }
    if (part->has[place / PIECE]) return;
    memcpy(part->frame + place, at + FRONT, count - FRONT);
    part->has[place / PIECE] = 1;
    if (--part->missing > 0) return;
    part->round = 0;
    uint32_t status = sm_node_hear(&self.node, from, part->frame, length, &fault);
    if (status == SM_OK) self.heard |= 1u << from;
    else if (status != SM_FAULT) must("sm_node_hear", status, 0);
}

/* Takes one datagram, if one is there. */
static bool take(void) {
    uint8_t at[MOST];
    struct sockaddr_storage place = {0};
    socklen_t size = sizeof place;
    ssize_t count =
        recvfrom(self.own, at, sizeof at, MSG_DONTWAIT | MSG_TRUNC, (struct sockaddr *)&place, &size);
    if (count < 0 && errno == ECONNREFUSED) return true;
    if (count < 0 && errno != EAGAIN && errno != EINTR) give_up("recvfrom");
    if (count < 0) return false;
    uint32_t from = whose(&place, size);
    if (from < NODES && count <= MOST && is_in(self.neighbours & ~self.heard, from)) join(from, at, (size_t)count);
    return true;
}

/* Waits until something has come, or for so many milliseconds. */
static bool has_come(int64_t most) {
    struct pollfd waiting = {self.own, POLLIN, 0};
    return poll(&waiting, 1, most < 1000 ? (int)most : 1000) > 0;
}

/* Takes what comes until a moment, and then what has come by then, but nothing after the end. */
static void take_until(int64_t moment, int64_t end) {
    for (int64_t left = moment - now(); left > 0; left = moment - now())
        if (has_come(left)) take();
    while (now() < end && take()) continue;
}

/* Sends a neighbour the piece of its frame at a place. Where the system takes no more, the node takes what has come. */
static void send_piece(uint32_t to, size_t place, int64_t moment) {
    uint8_t at[MOST];
    size_t left = self.lengths[to] - place, count = left < PIECE ? left : PIECE;
    memcpy(at, "SMD1", 4);
    memcpy(at + 4, self.run_id, SM_RUN_ID_BYTES);
    at[36] = (uint8_t)self.round;
    at[37] = (uint8_t)self.me;
    at[38] = (uint8_t)to;
    put_number(at + 39, self.lengths[to]);
    put_number(at + 43, place);
    memcpy(at + FRONT, self.out[to] + place, count);
    while (sendto(self.own, at, FRONT + count, MSG_DONTWAIT, (struct sockaddr *)&self.places[to], self.sizes[to]) < 0) {
        if (errno != EAGAIN && errno != ENOBUFS && errno != EINTR) return;
        be_in_time(moment);
        if (has_come(1)) take();
    }
}

/* Sends all pieces once, those of all neighbours by turns. */
static void send_all(int64_t moment) {
    for (size_t place = 0; place < self.longest; place += PIECE)
        for (uint32_t to = 0; to < NODES; to++) {
            if (!is_in(self.neighbours, to) || place >= self.lengths[to]) continue;
            send_piece(to, place, moment);
            for (int count = 0; count < NODES && take(); count++) continue;
        }
}

/* ---- the run */

/* Learns of the header what a transport has to know, and makes room for frames. */
static void know(void) {
    uint32_t fault;
    const uint8_t *at = self.header;
    FILE *file = open_file("header");
    size_t length = self.header_bytes = fread(self.header, 1, sizeof self.header, file);
    fclose(file);
    must("header", sm_node_header_numbers(at, length, &self.numbers, &fault), fault);
    must("header", sm_node_run_id(at, length, self.run_id, &fault), fault);
    must("header", sm_node_rounds(at, length, &self.rounds, &fault), fault);
    must("header", sm_node_neighbours(at, length, self.me, &self.neighbours, &fault), fault);
    must("header", sm_node_frame_most(at, length, &self.longest, &fault), fault);
    for (uint32_t of = 0; of < NODES; of++)
        if (is_in(self.neighbours, of)) {
            self.out[of] = room_of(self.longest);
            self.parts[of] = (struct part){room_of(self.longest), room_of(self.longest / PIECE + 1), 0, 0, 0};
        }
}

/* Makes the node. That its seed is used is on the disk before. */
static void make_node(uint32_t value) {
    uint8_t seed[SM_SEED_BYTES], root[SM_ROOT_BYTES];
    uint32_t fault, status;
    sm_node keys = {0};
    read_seed(seed);
    must("sm_node_keys", sm_node_keys(&keys, seed, self.numbers.version, root), 0);
    explicit_bzero(seed, sizeof seed);
    make_log();
    status = sm_node_new(&self.node, self.header, self.header_bytes, self.me, &keys, value, &fault);
    if (status != SM_OK) take_log_back();
    must("sm_node_new", status, fault);
    sm_node_free(&keys);
}

/* Says whose frames of the round were taken. */
static void tell_heard(void) {
    char line[60] = "heard";
    size_t length = strlen(line);
    for (uint32_t from = 0; from < NODES; from++)
        if (is_in(self.heard, from))
            length += (size_t)sprintf(line + length, "%c%u", line[length - 1] == 'd' ? ' ' : ',', from);
    say(self.heard == 0 ? "heard nobody" : line);
}

/* One round by the clock. It is open for frames before it begins, since the clocks of others may be ahead. */
static void run_round(int round) {
    char line[20];
    int64_t begin = self.begins + (round - 1) * self.length, half = begin + self.length / 2, end = begin + self.length;
    must("sm_node_begin_round", sm_node_begin_round(&self.node), 0);
    self.round = round;
    self.heard = 0;
    for (uint32_t to = 0; to < NODES; to++)
        if (is_in(self.neighbours, to))
            must("sm_node_send", sm_node_send(&self.node, to, self.out[to], self.longest, &self.lengths[to]), 0);
    for (int sending = 0; sending < SENDINGS; sending++) {
        int64_t next = begin + sending * (half - begin) / SENDINGS;
        take_until(next, next);
        send_all(half);
        be_in_time(half);
    }
    snprintf(line, sizeof line, "round %d", round);
    say(line);
    take_until(end - self.length / 4, end - self.length / 8);
    be_in_time(end);
    must("sm_node_end_round", sm_node_end_round(&self.node), 0);
    tell_heard();
}

/* Keeps the log, and says what the node decides. */
static void end(void) {
    char line[20];
    uint32_t value;
    size_t length;
    uint8_t none = 0;
    must("sm_node_finish", sm_node_finish(&self.node), 0);
    must("sm_node_order", sm_node_order(&self.node, &value), 0);
    uint32_t status = sm_node_log(&self.node, &none, 0, &length);
    if (status != SM_LENGTH) must("sm_node_log", status, 0);
    uint8_t *log = room_of(length);
    must("sm_node_log", sm_node_log(&self.node, log, length, &length), 0);
    keep_log(log, length);
    snprintf(line, sizeof line, "decides %u", value);
    say(line);
    sm_node_free(&self.node);
    free(log);
    for (uint32_t of = 0; of < NODES; of++) {
        free(self.out[of]);
        free(self.parts[of].frame);
        free(self.parts[of].has);
    }
}

int main(int count, char **words) {
    if (count < 4 || count > 5) {
        fprintf(stderr, "node FOLDER NODE MILLISECONDS [VALUE]\n");
        return 2;
    }
    self.folder = words[1];
    self.me = number_of(words[2], NODES - 1);
    self.length = number_of(words[3], 1000000);
    uint32_t value = count == 5 ? number_of(words[4], UINT8_MAX) : SM_NO_ORDER;
    know();
    read_addresses();
    open_socket();
    make_node(value);
    say("ready");
    await_beginning();
    for (uint32_t round = 1; round <= self.rounds; round++) run_round((int)round);
    end();
    return 0;
}
