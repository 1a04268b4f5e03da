/* All calls of the library of nodes at the limits of a plan, each between two marks that a simulator sees.

       exports make FOLDER     writes what the neighbours of the measured node send, and the receipts of all nodes, to the folder
       exports run FOLDER      makes each call, and prints the most bytes of the heap that the node took in its run

   All NODES nodes are neighbours, and the measured one has the greatest number. Each of the others sends it, in each round from FIRST
   on in which a chain can count, a chain of every value, as faulty nodes can: node 0 made as many nodes of its seed as there are
   values, and each other node was made anew for each frame. FOLDER/admission and FOLDER/system have an admission and the
   id of its system. A mark is the system's call `close` of a number that no file has: -1000 less twice the number of the function
   before a call, and one less behind it. bench/exports.py counts the instructions between. */
#include "sm_heap.h"
#include "sm_node.h"
#include <fcntl.h>
#include <malloc.h>
#include <stdio.h>
#include <stdlib.h>
#include <string.h>
#include <sys/stat.h>
#include <unistd.h>

enum { VERSION = 2, EDGES = NODES * (NODES - 1) / 2, ME = NODES - 1, ROUNDS = TRAITORS + DIAMETER, HEAD = 41, SETS = 1 << 20 };
enum { CHAINS_LAST = ROUNDS < NODES - 1 ? ROUNDS : NODES - 1, RECEIPT_ROOM = 20000, COUNT_AT = 40 };
enum { LOGS = NODES < 16 ? NODES : 16 };

/* The heap, which counts. */
static size_t taken, most;
static uint8_t no_block;
static struct sm_block block_at(uint8_t *at) {
    if (at != NULL) taken += malloc_usable_size(at);
    if (taken > most) most = taken;
    return (struct sm_block){at != NULL, at != NULL ? at : &no_block};
}
struct sm_block rattle_alloc(size_t bytes, size_t align) { return block_at(malloc(bytes != 0 ? bytes : align)); }
struct sm_block rattle_realloc(uint8_t *at, size_t kept, size_t bytes, size_t align) {
    /* Both blocks are there at once, as over a pool. */
    struct sm_block block = rattle_alloc(bytes, align);
    if (block.ok) {
        memcpy(block.at, at, kept < bytes ? kept : bytes);
        rattle_dealloc(at);
    }
    return block;
}
void rattle_dealloc(uint8_t *at) {
    taken -= malloc_usable_size(at);
    free(at);
}

static void must(const char *what, uint32_t status) {
    if (status == SM_OK) return;
    fprintf(stderr, "%s: %s\n", what, sm_status_text(status));
    exit(1);
}

static uint8_t header[SM_HEADER_MOST], edges[2 * EDGES], roots[NODES * SM_ROOT_BYTES];
static size_t header_bytes, frame_most;
static const sm_numbers numbers = {VERSION, 0, NODES, TRAITORS, DIAMETER, ORDERS, 0};

static void seed_of(uint32_t node, uint8_t seed[SM_SEED_BYTES]) { memset(seed, (int)node + 1, SM_SEED_BYTES); }

static void *room_of(size_t bytes) {
    void *room = malloc(bytes);
    if (room == NULL) must("malloc", SM_MEMORY);
    return room;
}

/* The header of the run, whose roots are those of the seeds. */
static void make_header(void) {
    uint8_t seed[SM_SEED_BYTES], *edge = edges;
    uint32_t fault;
    sm_pair equal;
    for (uint32_t node = 0; node < NODES; node++) {
        sm_node keys = {0};
        seed_of(node, seed);
        must("keys", sm_node_keys(&keys, seed, VERSION, roots + node * SM_ROOT_BYTES));
        sm_node_free(&keys);
        for (uint32_t other = 0; other < node; other++) *edge++ = (uint8_t)other, *edge++ = (uint8_t)node;
    }
    must("header", sm_node_header(&numbers, edges, EDGES, roots, NODES, header, sizeof header, &header_bytes, &fault, &equal));
    must("frame_most", sm_node_frame_most(header, header_bytes, &frame_most, &fault));
}

static sm_node node_of(uint32_t node, uint32_t order) {
    uint8_t seed[SM_SEED_BYTES], root[SM_ROOT_BYTES];
    sm_node keys = {0}, made = {0};
    uint32_t fault;
    seed_of(node, seed);
    must("keys", sm_node_keys(&keys, seed, VERSION, root));
    must("new", sm_node_new(&made, header, header_bytes, node, &keys, order, &fault));
    sm_node_free(&keys);
    return made;
}

/* The frame that node 0 sends in round 1 if it sends every value: those of as many nodes as there are values. */
static size_t frame_of_all(uint32_t to, uint8_t *frame) {
    uint8_t *one = room_of(frame_most);
    size_t bytes = HEAD;
    for (uint32_t order = 0; order < ORDERS; order++) {
        sm_node node = node_of(0, order);
        size_t count;
        must("begin", sm_node_begin_round(&node));
        must("send", sm_node_send(&node, to, one, frame_most, &count));
        memcpy(frame, one, HEAD);
        memcpy(frame + bytes, one + HEAD, count - HEAD);
        bytes += count - HEAD;
        sm_node_free(&node);
    }
    frame[COUNT_AT] = ORDERS;
    free(one);
    return bytes;
}

/* The frame that the last node of a path sends to another if the nodes before it passed every value on, and nobody else did. */
static size_t frame_by(const uint32_t *path, uint32_t length, uint32_t to, uint8_t *frame) {
    if (length == 1) return frame_of_all(to, frame);
    uint32_t me = path[length - 1], fault;
    uint8_t *heard = room_of(frame_most);
    size_t count = frame_by(path, length - 1, me, heard);
    sm_node node = node_of(me, SM_NO_ORDER);
    for (uint32_t round = 1; round < length; round++) {
        must("begin", sm_node_begin_round(&node));
        if (round == length - 1) must("hear", sm_node_hear(&node, path[length - 2], heard, count, &fault));
        must("end", sm_node_end_round(&node));
    }
    must("begin", sm_node_begin_round(&node));
    must("send", sm_node_send(&node, to, frame, frame_most, &count));
    sm_node_free(&node);
    free(heard);
    return count;
}

/* The path of a chain that a node sends in a round: node 0, the least others, and the node itself. */
static void make_path(uint32_t round, uint32_t sender, uint32_t path[NODES]) {
    uint32_t other = 1;
    path[0] = 0;
    for (uint32_t at = 1; at + 1 < round; other++)
        if (other != sender) path[at++] = other;
    path[round - 1] = sender;
}

static FILE *opened(const char *folder, const char *name, const char *mode) {
    char path[4096];
    snprintf(path, sizeof path, "%s/%s", folder, name);
    FILE *file = fopen(path, mode);
    if (file == NULL) must(path, SM_FAULT);
    return file;
}

static void make_frames(FILE *out) {
    uint8_t *frame = room_of(frame_most);
    uint32_t path[NODES];
    for (uint32_t round = FIRST; round <= CHAINS_LAST; round++)
        for (uint32_t sender = round == 1 ? 0 : 1; sender < (round == 1 ? 1 : ME); sender++) {
            make_path(round, sender, path);
            size_t count = frame_by(path, round, ME, frame);
            if (fwrite(&count, sizeof count, 1, out) != 1 || fwrite(frame, 1, count, out) != count) must("write", SM_FAULT);
        }
    free(frame);
}

/* The receipts of all nodes, of which each heard nothing but the last of its frames of node 0. */
static void make_receipts(FILE *out) {
    uint8_t *receipt = room_of(RECEIPT_ROOM), *frame = room_of(frame_most);
    for (uint32_t me = 0; me < NODES; me++) {
        sm_node node = node_of(me, me == 0 ? 1 : SM_NO_ORDER), first = node_of(0, 1);
        size_t count;
        uint32_t fault;
        for (uint32_t round = 1; round <= ROUNDS; round++) {
            must("begin", sm_node_begin_round(&node));
            if (round == 1 && me != 0) {
                must("begin", sm_node_begin_round(&first));
                must("send", sm_node_send(&first, me, frame, frame_most, &count));
                must("hear", sm_node_hear(&node, 0, frame, count, &fault));
            }
            must("end", sm_node_end_round(&node));
        }
        must("finish", sm_node_finish(&node));
        must("receipt", sm_node_receipt(&node, receipt, RECEIPT_ROOM, &count));
        if (fwrite(receipt, 1, count, out) != count) must("write", SM_FAULT);
        sm_node_free(&node);
        sm_node_free(&first);
    }
    free(receipt);
    free(frame);
}

/* The functions, by the numbers of their marks: the order in which bench/exports.py has them. */
enum function { KEYS, HEADER, NEW, BEGIN_ROUND, SEND, HEAR, END_ROUND, FINISH, LOG, RECEIPT, ORDER, FREE, SHOWN, ADMIT, BUNDLE,
    COMBINE, NUMBERS, ROUND_COUNT, NEIGHBOURS, FRAME_MOST, RUN_ID, FRAME_HEAD, ROUND, AWAITS, LACKS, MAY_END, IS_OVER, STATE,
    STATE_SET, STATE_SEED, STATE_ADVANCE, NEXT_RUN, THE_VERSION };

static void mark(int number) { (void)!close(number); }
#define MARKED(function, call) (mark(-1000 - 2 * (function)), must(#call, (call)), mark(-1001 - 2 * (function)))

static void hear_frame(sm_node *node, FILE *in, uint32_t sender, uint8_t *frame, int is_lost) {
    size_t count;
    uint32_t fault;
    if (fread(&count, sizeof count, 1, in) != 1 || fread(frame, 1, count, in) != count) must("read", SM_FAULT);
    if (is_lost) return;
    MARKED(HEAR, sm_node_hear(node, sender, frame, count, &fault));
    sm_frame_head head;
    MARKED(FRAME_HEAD, sm_node_frame_head(frame, count, &head, &fault));
}

/* The calls of a node in a run, in which every chain counts that can, from a round on. If that is a late one, the node passes on
   the longest chains. */
static void run_node(FILE *in, uint32_t first) {
    uint8_t seed[SM_SEED_BYTES], root[SM_ROOT_BYTES], *frame = room_of(frame_most);
    sm_node keys = {0}, node = {0};
    uint32_t told, fault;
    size_t count;
    rewind(in);
    seed_of(ME, seed);
    MARKED(KEYS, sm_node_keys(&keys, seed, VERSION, root));
    MARKED(NEW, sm_node_new(&node, header, header_bytes, ME, &keys, SM_NO_ORDER, &fault));
    sm_node_free(&keys);
    for (uint32_t round = 1; round <= ROUNDS; round++) {
        MARKED(BEGIN_ROUND, sm_node_begin_round(&node));
        MARKED(ROUND, sm_node_round(&node, &told));
        for (uint32_t other = 0; other < ME; other++) {
            MARKED(AWAITS, sm_node_awaits(&node, other, &told));
            MARKED(SEND, sm_node_send(&node, other, frame, frame_most, &count));
            if (round >= FIRST && round <= CHAINS_LAST && (round == 1) == (other == 0))
                hear_frame(&node, in, other, frame, round < first);
            MARKED(LACKS, sm_node_lacks(&node, other, &told));
        }
        MARKED(MAY_END, sm_node_may_end(&node, &told));
        MARKED(END_ROUND, sm_node_end_round(&node));
        MARKED(IS_OVER, sm_node_is_over(&node, &told));
    }
    MARKED(FINISH, sm_node_finish(&node));
    if (sm_node_log(&node, NULL, 0, &count) != SM_LENGTH) must("log", SM_FAULT);
    uint8_t *log = room_of(count), receipt[RECEIPT_ROOM];
    MARKED(LOG, sm_node_log(&node, log, count, &count));
    printf("frame %zu\nlog %zu\n", frame_most, count);
    MARKED(RECEIPT, sm_node_receipt(&node, receipt, RECEIPT_ROOM, &count));
    MARKED(ORDER, sm_node_order(&node, &told));
    printf("heap %zu\n", most);
    mark(-1000 - 2 * FREE);
    sm_node_free(&node);
    mark(-1001 - 2 * FREE);
    free(log);
    free(frame);
}

static uint8_t *file_of(const char *folder, const char *name, size_t *bytes) {
    FILE *file = opened(folder, name, "rb");
    fseek(file, 0, SEEK_END);
    *bytes = (size_t)ftell(file);
    rewind(file);
    uint8_t *data = room_of(*bytes + 1);
    if (fread(data, 1, *bytes, file) != *bytes) must(name, SM_FAULT);
    fclose(file);
    return data;
}

/* The calls of a device, and of who makes bundles of the logs of a run whose nodes are correct. */
static void run_device(const char *folder) {
    uint8_t run_id[SM_RUN_ID_BYTES], orders[NODES];
    size_t receipt_bytes, admission_bytes, system_bytes, log_bytes = HEAD + (NODES * 2) * 17000u, count;
    uint8_t *receipts = file_of(folder, "receipts", &receipt_bytes), *admission = file_of(folder, "admission", &admission_bytes);
    uint8_t *system = file_of(folder, "system", &system_bytes), *logs = calloc(LOGS, log_bytes), *room = room_of(LOGS * log_bytes + 10000);
    sm_log log[LOGS];
    sm_admitted admitted;
    sm_pair apart;
    uint32_t told, fault;
    MARKED(RUN_ID, sm_node_run_id(header, header_bytes, run_id, &fault));
    MARKED(SHOWN, sm_node_shown(run_id, receipts, receipt_bytes, &told, &fault));
    MARKED(ADMIT, sm_node_admit(system, 0, admission, admission_bytes, &admitted, &fault));
    for (uint32_t at = 0; at < LOGS; at++) log[at] = (sm_log){at, log_bytes};
    MARKED(BUNDLE, sm_node_bundle(header, header_bytes, 0, 0, log, LOGS, logs, LOGS * log_bytes, room, LOGS * log_bytes + 10000,
                                  &count, &fault, &apart));
    memset(orders, 1, sizeof orders);
    MARKED(COMBINE, sm_node_combine(SM_MEDIAN, orders, NODES, &told));
    free(receipts), free(admission), free(system), free(logs), free(room);
}

/* The calls that plan. */
static void run_plans(void) {
    uint8_t room[SM_HEADER_MOST];
    sm_numbers read;
    sm_pair equal;
    uint32_t told, fault;
    size_t count;
    MARKED(HEADER, sm_node_header(&numbers, edges, EDGES, roots, NODES, room, sizeof room, &count, &fault, &equal));
    MARKED(NUMBERS, sm_node_header_numbers(header, header_bytes, &read, &fault));
    MARKED(ROUND_COUNT, sm_node_rounds(header, header_bytes, &told, &fault));
    MARKED(NEIGHBOURS, sm_node_neighbours(header, header_bytes, ME, &told, &fault));
    MARKED(FRAME_MOST, sm_node_frame_most(header, header_bytes, &count, &fault));
}

/* The calls of a system that goes on: a state that is advanced by all sets that a system has. */
static void run_states(void) {
    uint8_t secret[SM_SECRET_BYTES] = {1}, system[SM_SYSTEM_ID_BYTES] = {2}, state[SM_STATE_BYTES], seed[SM_SEED_BYTES];
    uint32_t told;
    int64_t begins;
    MARKED(STATE, sm_node_state(secret, system, state));
    MARKED(STATE_SET, sm_node_state_set(state, &told));
    MARKED(STATE_SEED, sm_node_state_seed(state, system, seed));
    MARKED(STATE_ADVANCE, sm_node_state_advance(state, SETS - 1));
    MARKED(NEXT_RUN, sm_node_next_run(INT64_MAX / 2, 0, UINT64_MAX / 4, 0, &told, &begins));
    mark(-1000 - 2 * THE_VERSION);
    told = sm_node_version();
    mark(-1001 - 2 * THE_VERSION);
}

int main(int count, char **words) {
    if (count != 3) return 2;
    make_header();
    if (strcmp(words[1], "make") == 0) {
        FILE *frames = opened(words[2], "frames", "wb"), *receipts = opened(words[2], "receipts", "wb");
        make_frames(frames);
        make_receipts(receipts);
        return fclose(frames) != 0 || fclose(receipts) != 0;
    }
    taken = most = 0;
    FILE *frames = opened(words[2], "frames", "rb");
    run_node(frames, FIRST);
    if (FIRST < CHAINS_LAST - 1) run_node(frames, CHAINS_LAST - 1);
    fclose(frames);
    run_plans();
    run_device(words[2]);
    run_states();
    return 0;
}
