/* Times of one node of 16 generals who are all neighbours, in one process, and the memory that it takes.

       nodes TRAITORS

   The commander's order goes round in TRAITORS + 1 rounds, and nobody is a traitor. For general 1 it prints the
   nanoseconds that his calls take by kind, those of one sm_node_keys, the bytes of his frames in and out and of his log,
   and
   the most bytes that he held at once. In place of embed/heap.c stands a heap that counts for whom it is. */
#include "sm_heap.h"
#include "sm_node.h"
#include <stdio.h>
#include <stdlib.h>
#include <string.h>
#include <time.h>

enum { GENERALS = 16, WATCHED = 1, MOST_BYTES = 4000000 };

/* Whose call runs, and what the watched one holds and held at most. A block has its length and its owner before it. */
static uint32_t caller;
static size_t held, most;

struct front {
    size_t bytes, owner;
};

static void count(struct front *front, bool takes) {
    if (front->owner != WATCHED) return;
    held = takes ? held + front->bytes : held - front->bytes;
    if (held > most) most = held;
}

static struct sm_block counted(struct front *front, size_t bytes, size_t owner) {
    if (front == NULL) exit(4);
    *front = (struct front){bytes, owner};
    count(front, true);
    return (struct sm_block){true, (uint8_t *)(front + 1)};
}

struct sm_block rattle_alloc(size_t bytes, size_t align) {
    (void)align;
    return counted(malloc(sizeof(struct front) + bytes), bytes, caller);
}

struct sm_block rattle_realloc(uint8_t *at, size_t kept, size_t bytes, size_t align) {
    struct front *front = (struct front *)at - 1;
    size_t owner = front->owner;
    (void)kept, (void)align;
    count(front, false);
    return counted(realloc(front, sizeof(struct front) + bytes), bytes, owner);
}

void rattle_dealloc(uint8_t *at) {
    count((struct front *)at - 1, false);
    free((struct front *)at - 1);
}

/* The times of the watched one's calls. */
enum kind { NEW, BEGIN, SEND, HEAR, END, FINISH, KINDS };
static const char *const names[KINDS] = {"new", "begin", "send", "hear", "end", "finish"};
static int64_t times[KINDS];
static size_t bytes_in, bytes_out;

static int64_t now(void) {
    struct timespec time;
    clock_gettime(CLOCK_MONOTONIC, &time);
    return (int64_t)time.tv_sec * 1000000000 + time.tv_nsec;
}

/* One call of a general, which has to be done. */
#define CALL(kind, general, call)                        \
    do {                                                 \
        caller = (general);                              \
        int64_t since = now();                           \
        uint32_t status = (call);                        \
        if ((general) == WATCHED) times[kind] += now() - since; \
        if (status != SM_OK) exit(3);                  \
    } while (0)

static sm_node nodes[GENERALS], keys[GENERALS];
static uint8_t seeds[GENERALS][32], header[2000], room[MOST_BYTES];
static size_t header_bytes;

/* The keys and the header of all, and the time of one tree of keys. */
static void make_header(uint8_t traitors) {
    uint8_t roots[GENERALS * 32], edges[240];
    size_t edge = 0;
    uint32_t fault;
    sm_pair equal;
    for (int a = 0; a < GENERALS; a++) {
        seeds[a][0] = (uint8_t)a;
        int64_t since = now();
        if (sm_node_keys(&keys[a], seeds[a], 1, roots + 32 * a) != SM_OK) exit(3);
        if (a == 0) printf("root %lld\n", (long long)(now() - since));
        for (int b = a + 1; b < GENERALS; b++) edges[edge++] = (uint8_t)a, edges[edge++] = (uint8_t)b;
    }
    sm_numbers numbers = {1, 0, GENERALS, traitors, 1, 2, 0};
    if (sm_node_header(&numbers, edges, edge / 2, roots, GENERALS, header, sizeof header, &header_bytes, &fault, &equal))
        exit(3);
}

/* All frames of a round. */
static void exchange(void) {
    for (uint32_t from = 0; from < GENERALS; from++)
        for (uint32_t to = 0; to < GENERALS; to++) {
            size_t length;
            uint32_t fault;
            if (from == to) continue;
            CALL(SEND, from, sm_node_send(&nodes[from], to, room, MOST_BYTES, &length));
            CALL(HEAR, to, sm_node_hear(&nodes[to], from, room, length, &fault));
            bytes_out += from == WATCHED ? length : 0;
            bytes_in += to == WATCHED ? length : 0;
        }
}

int main(int words_count, char **words) {
    uint8_t traitors = words_count == 2 ? (uint8_t)atoi(words[1]) : 1;
    uint32_t fault;
    size_t log;
    caller = GENERALS;
    make_header(traitors);
    for (uint32_t g = 0; g < GENERALS; g++)
        CALL(NEW, g, sm_node_new(&nodes[g], header, header_bytes, g, &keys[g], g == 0 ? 1 : SM_NO_ORDER, &fault));
    for (int round = 1; round <= traitors + 1; round++) {
        for (uint32_t g = 0; g < GENERALS; g++) CALL(BEGIN, g, sm_node_begin_round(&nodes[g]));
        exchange();
        for (uint32_t g = 0; g < GENERALS; g++) CALL(END, g, sm_node_end_round(&nodes[g]));
    }
    for (uint32_t g = 0; g < GENERALS; g++) CALL(FINISH, g, sm_node_finish(&nodes[g]));
    if (sm_node_log(&nodes[WATCHED], room, MOST_BYTES, &log) != SM_OK) exit(3);
    for (int kind = 0; kind < KINDS; kind++) printf("%s %lld\n", names[kind], (long long)times[kind]);
    printf("in %zu\nout %zu\nlog %zu\nmost %zu\n", bytes_in, bytes_out, log, most);
    for (uint32_t g = 0; g < GENERALS; g++) sm_node_free(&nodes[g]), sm_node_free(&keys[g]);
    return 0;
}
