/* The library of nodes without a C library: four nodes (generals) agree on a value (order), and a device obeys what their receipts
   show. Nothing is linked but these files and the archive, whose memory is the buffer of pool.c:

       cc -std=c11 -O2 -ffreestanding -nostdlib -static -fno-stack-protector -DSM_POOL_BYTES=2097152 -I embed \
           embed/bare.c embed/bytes.c embed/pool.c out/libsm_node.a -o bare

   With GCC for aarch64 add -mno-outline-atomics, since pool.c has a lock. The program prints `open` and ends with status 0, or with
   the number of the step that failed, and prints nothing.

   Of Linux it asks three things by the processor's own instruction: random bytes, to write a line, and to end. A device has its own
   in the place of the first part. What stands behind it is the same on any processor of 64 bits. */
#include "sm_node.h"
#include <stdbool.h>

/* The system: here Linux on x86-64 and on aarch64. */
#if defined(__x86_64__)
enum { WRITE = 1, RANDOM = 318, END = 231 };
__asm__(".globl _start\n_start:\n    xorl %ebp, %ebp\n    andq $-16, %rsp\n    call begin\n");
static intptr_t ask(intptr_t what, intptr_t one, intptr_t two, intptr_t three) {
    intptr_t told;
    __asm__ volatile("syscall" : "=a"(told) : "a"(what), "D"(one), "S"(two), "d"(three) : "rcx", "r11", "memory");
    return told;
}
#elif defined(__aarch64__)
enum { WRITE = 64, RANDOM = 278, END = 94 };
__asm__(".globl _start\n_start:\n    mov x29, xzr\n    bl begin\n");
static intptr_t ask(intptr_t what, intptr_t one, intptr_t two, intptr_t three) {
    register intptr_t number __asm__("x8") = what, first __asm__("x0") = one, second __asm__("x1") = two, third __asm__("x2") = three;
    __asm__ volatile("svc 0" : "+r"(first) : "r"(number), "r"(second), "r"(third) : "memory");
    return first;
}
#else
#error "this processor's way to ask the system is not here"
#endif

_Noreturn void begin(void);

/* Fills a seed with random bytes. */
static bool is_drawn(uint8_t seed[SM_SEED_BYTES]) { return ask(RANDOM, (intptr_t)seed, SM_SEED_BYTES, 0) == SM_SEED_BYTES; }
static bool is_written(const char *line, intptr_t bytes) { return ask(WRITE, 1, (intptr_t)line, bytes) == bytes; }

/* Ends the program. */
static _Noreturn void end(int status) {
    for (;;) ask(END, status, 0, 0);
}

/* The nodes, which one program has here. No frame of this run is longer than FRAME_ROOM, as sm_node_frame_most tells, and no receipt
   is longer than RECEIPT_ROOM. */
enum { NODES = 4, EDGES = 6, VALUE = 2, FRAME_ROOM = 100000, RECEIPT_ROOM = 17000 };

static struct {
    uint8_t header[SM_HEADER_MOST], frame[FRAME_ROOM], receipts[NODES * RECEIPT_ROOM];
    size_t header_bytes, receipt_bytes;
    sm_node node[NODES];
} run;

/* Makes the keys of each node, and the header that has all roots. */
static bool is_planned(sm_node keys[NODES]) {
    static const sm_numbers numbers = {.version = 1, .generals = NODES, .traitors = 1, .diameter = 1, .orders = 3};
    static const uint8_t edges[2 * EDGES] = {0, 1, 0, 2, 0, 3, 1, 2, 1, 3, 2, 3};
    uint8_t seed[SM_SEED_BYTES], roots[NODES * SM_ROOT_BYTES];
    uint32_t fault;
    sm_pair equal;
    for (uint32_t me = 0; me < NODES; me++) {
        if (!is_drawn(seed)) return false;
        if (sm_node_keys(&keys[me], seed, numbers.version, roots + me * SM_ROOT_BYTES) != SM_OK) return false;
    }
    return sm_node_header(&numbers, edges, EDGES, roots, NODES, run.header, SM_HEADER_MOST, &run.header_bytes, &fault,
                          &equal) == SM_OK;
}

/* Makes the nodes of the keys, which are then freed. */
static bool are_made(sm_node keys[NODES]) {
    uint32_t fault;
    for (uint32_t me = 0; me < NODES; me++) {
        uint32_t order = me == 0 ? VALUE : SM_NO_ORDER;
        if (sm_node_new(&run.node[me], run.header, run.header_bytes, me, &keys[me], order, &fault) != SM_OK) return false;
        sm_node_free(&keys[me]);
    }
    return true;
}

/* Hands the frame of one node to another: here stands the transport. */
static bool is_handed_over(uint32_t from, uint32_t to) {
    uint32_t awaited, fault;
    size_t count;
    if (sm_node_awaits(&run.node[from], to, &awaited) != SM_OK) return false;
    if (!awaited) return true;
    return sm_node_send(&run.node[from], to, run.frame, FRAME_ROOM, &count) == SM_OK &&
           sm_node_hear(&run.node[to], from, run.frame, count, &fault) == SM_OK;
}

static bool is_round_done(void) {
    for (uint32_t me = 0; me < NODES; me++)
        if (sm_node_begin_round(&run.node[me]) != SM_OK) return false;
    for (uint32_t pair = 0; pair < NODES * NODES; pair++)
        if (!is_handed_over(pair / NODES, pair % NODES)) return false;
    for (uint32_t me = 0; me < NODES; me++)
        if (sm_node_end_round(&run.node[me]) != SM_OK) return false;
    return true;
}

/* Ends each node, and puts its receipt behind the others. */
static bool are_ended(void) {
    for (uint32_t me = 0; me < NODES; me++) {
        size_t count;
        if (sm_node_finish(&run.node[me]) != SM_OK) return false;
        if (sm_node_receipt(&run.node[me], run.receipts + run.receipt_bytes, RECEIPT_ROOM, &count) != SM_OK) return false;
        run.receipt_bytes += count;
        sm_node_free(&run.node[me]);
    }
    return true;
}

/* Whether receipts of this run show this value, and no other one: what a device asks. */
static bool is_shown(const uint8_t run_id[SM_RUN_ID_BYTES], uint32_t value) {
    uint32_t shown, fault;
    return sm_node_shown(run_id, run.receipts, run.receipt_bytes, &shown, &fault) == SM_OK && shown == value;
}

_Noreturn void begin(void) {
    sm_node keys[NODES] = {{0}};
    uint8_t run_id[SM_RUN_ID_BYTES];
    uint32_t fault;
    if (!is_planned(keys)) end(1);
    if (!are_made(keys)) end(2);
    if (sm_node_run_id(run.header, run.header_bytes, run_id, &fault) != SM_OK) end(3);
    for (int round = 1; round <= 2; round++)
        if (!is_round_done()) end(4);
    if (!are_ended()) end(5);
    if (!is_shown(run_id, VALUE) || is_shown(run_id, VALUE - 1)) end(6);
    run_id[0] ^= 1;
    if (is_shown(run_id, VALUE)) end(7);
    end(is_written("open\n", 5) ? 0 : 8);
}
