/* Both libraries called from C: four nodes (generals) in one process agree on a value (order), and their logs are
   judged. It prints the verdict.

       cc embed/agree.c embed/heap.c out/libsm_embed.a out/libsm_node.a -I embed

   The exit status is 0 if the verdict is `agreed`, and 1 if it is another or if a call failed. */
#include "sm_embed.h"
#include "sm_node.h"
#include <stdio.h>
#include <stdlib.h>
#include <string.h>
#include <sys/random.h>

/* No frame of this run is longer than FRAME_ROOM, which sm_node_frame_most tells of any header. */
enum { NODES = 4, EDGES = 6, VALUE = 2, FRAME_ROOM = 100000 };

/* What the four nodes share. Their logs stand one after another, on the heap. */
struct run {
    uint8_t header[SM_HEADER_MOST], *logs;
    size_t header_bytes, log_bytes;
    sm_log log[NODES];
    sm_node node[NODES];
};

/* Ends the program if a call was not done, and says why. The fault is 0 if the call tells none. */
static void must(const char *call, uint32_t status, uint32_t fault) {
    if (status == SM_OK) return;
    fprintf(stderr, "%s: %s", call, sm_status_text(status));
    if (fault != 0) fprintf(stderr, ": %s", sm_node_fault_text(fault));
    fprintf(stderr, "\n");
    exit(1);
}

/* Room for so many bytes that a call asked for, instead of an old one whose bytes are kept. */
static uint8_t *room_for(const char *call, uint32_t status, uint32_t fault, uint8_t *old, size_t length) {
    if (status != SM_LENGTH) must(call, status, fault);
    uint8_t *room = realloc(old, length);
    if (room == NULL) must(call, SM_MEMORY, 0);
    return room;
}

/* Makes a header of four nodes, all of which are neighbours, and the nodes. */
static void make_nodes(struct run *run) {
    static const sm_numbers numbers = {.version = 1, .generals = NODES, .traitors = 1, .diameter = 1, .orders = 3};
    static const uint8_t edges[2 * EDGES] = {0, 1, 0, 2, 0, 3, 1, 2, 1, 3, 2, 3};
    uint8_t seeds[NODES][SM_SEED_BYTES], roots[NODES * SM_ROOT_BYTES];
    uint32_t fault = 0, status;
    sm_node keys[NODES] = {{0}};
    sm_pair equal;
    /* A seed serves one run, so put on the disk that it is used. */
    if (getrandom(seeds, sizeof seeds, 0) != (ssize_t)sizeof seeds) must("getrandom", SM_MEMORY, 0);
    for (uint32_t me = 0; me < NODES; me++) {
        status = sm_node_keys(&keys[me], seeds[me], numbers.version, roots + me * SM_ROOT_BYTES);
        must("sm_node_keys", status, 0);
    }
    explicit_bzero(seeds, sizeof seeds);
    status = sm_node_header(&numbers, edges, EDGES, roots, NODES, run->header, SM_HEADER_MOST, &run->header_bytes,
                            &fault, &equal);
    must("sm_node_header", status, fault);
    for (uint32_t me = 0; me < NODES; me++) {
        uint32_t order = me == 0 ? VALUE : SM_NO_ORDER;
        status = sm_node_new(&run->node[me], run->header, run->header_bytes, me, &keys[me], order, &fault);
        must("sm_node_new", status, fault);
        sm_node_free(&keys[me]);
    }
}

/* Hands the frame of one node to another: here stands your transport. */
static void hand_over(struct run *run, uint32_t from, uint32_t to) {
    static uint8_t frame[FRAME_ROOM];
    uint32_t awaited, fault = 0;
    size_t count;
    must("sm_node_awaits", sm_node_awaits(&run->node[from], to, &awaited), 0);
    if (!awaited) return;
    must("sm_node_send", sm_node_send(&run->node[from], to, frame, sizeof frame, &count), 0);
    /* At SM_MEMORY a transport of your own keeps the frame, at SM_FAULT only one that is early: docs/NODES.md. */
    uint32_t status = sm_node_hear(&run->node[to], from, frame, count, &fault);
    must("sm_node_hear", status, fault);
}

/* Ends a node, and keeps its log behind the others. The length of a log is asked for by a room of 0 bytes. */
static void keep_log(struct run *run, uint32_t me) {
    sm_node *node = &run->node[me];
    size_t length, count;
    must("sm_node_finish", sm_node_finish(node), 0);
    uint32_t status = sm_node_log(node, NULL, 0, &length);
    run->logs = room_for("sm_node_log", status, 0, run->logs, run->log_bytes + length);
    must("sm_node_log", sm_node_log(node, run->logs + run->log_bytes, length, &count), 0);
    run->log[me] = (sm_log){me, count};
    run->log_bytes += count;
    sm_node_free(node);
}

/* All rounds, and the logs of the nodes. */
static void play(struct run *run) {
    uint32_t rounds, fault = 0;
    uint32_t status = sm_node_rounds(run->header, run->header_bytes, &rounds, &fault);
    must("sm_node_rounds", status, fault);
    for (; rounds != 0; rounds--) {
        for (uint32_t me = 0; me < NODES; me++) must("sm_node_begin_round", sm_node_begin_round(&run->node[me]), 0);
        for (uint32_t pair = 0; pair < NODES * NODES; pair++) hand_over(run, pair / NODES, pair % NODES);
        for (uint32_t me = 0; me < NODES; me++) must("sm_node_end_round", sm_node_end_round(&run->node[me]), 0);
    }
    for (uint32_t me = 0; me < NODES; me++) keep_log(run, me);
}

/* The bundle of the logs on the heap, with no node listed as faulty. */
static uint8_t *make_bundle(const struct run *run, size_t *bundle_bytes) {
    size_t length;
    uint32_t fault = 0;
    sm_pair apart;
    uint32_t status = sm_node_bundle(run->header, run->header_bytes, 0, 0, run->log, NODES, run->logs, run->log_bytes,
                                     NULL, 0, &length, &fault, &apart);
    uint8_t *bundle = room_for("sm_node_bundle", status, fault, NULL, length);
    status = sm_node_bundle(run->header, run->header_bytes, 0, 0, run->log, NODES, run->logs, run->log_bytes, bundle,
                            length, bundle_bytes, &fault, &apart);
    must("sm_node_bundle", status, fault);
    return bundle;
}

/* Prints what an answer holds, and frees it. Returns whether all was printed. */
static int print_answer(sm_answer *answer) {
    size_t length, count;
    uint32_t status = sm_answer_text(answer, NULL, 0, &length);
    uint8_t *text = room_for("sm_answer_text", status, 0, NULL, length);
    must("sm_answer_text", sm_answer_text(answer, text, length, &count), 0);
    sm_answer_free(answer);
    int is_printed = fwrite(text, 1, count, stdout) == count && fflush(stdout) == 0;
    free(text);
    return is_printed;
}

/* Prints the verdict on the bundle of the logs. Returns whether it is `agreed`. */
static int judge(const struct run *run) {
    uint8_t id[SM_RUN_ID_BYTES];
    uint32_t fault = 0;
    size_t bundle_bytes;
    const sm_options asked = {.runs = id, .run_count = 1, .strict = 1};
    sm_answer answer = {0};
    uint8_t *bundle = make_bundle(run, &bundle_bytes);
    must("sm_node_run_id", sm_node_run_id(run->header, run->header_bytes, id, &fault), fault);
    uint32_t status = sm_audit(bundle, bundle_bytes, &asked, &answer);
    if (status != SM_NO) must("sm_audit", status, 0);
    free(bundle);
    return print_answer(&answer) && status == SM_OK;
}

int main(void) {
    static struct run run;
    make_nodes(&run);
    play(&run);
    int is_agreed = judge(&run);
    free(run.logs);
    return is_agreed ? 0 : 1;
}
