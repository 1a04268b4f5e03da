/* The time, the stack and the memory of one sm_node_shown on a file of receipts.

       receipts RUNID FILE

   It prints the status, the order that is shown, the nanoseconds of the quickest of some calls, the most bytes of stack
   that one call wrote to, and the most bytes that it took of the buffer of embed/arena.c. The call runs on a stack of
   its own, which is painted before. */
#include "sm_node.h"
#include <stdio.h>
#include <stdlib.h>
#include <string.h>
#include <time.h>
#include <ucontext.h>

enum { CALLS = 200, STACK = 1 << 18, PAINT = 0xa5, MOST_BYTES = 1 << 20 };

size_t sm_arena_most(void);

static uint8_t stack[STACK], run_id[32], receipts[MOST_BYTES];
static size_t bytes;
static uint32_t status, order, fault;
static ucontext_t outside, inside;

static void call(void) { status = sm_node_shown(run_id, receipts, bytes, &order, &fault); }

static int64_t now(void) {
    struct timespec time;
    clock_gettime(CLOCK_MONOTONIC, &time);
    return (int64_t)time.tv_sec * 1000000000 + time.tv_nsec;
}

/* The nanoseconds of the quickest call. */
static int64_t quickest(void) {
    int64_t least = INT64_MAX;
    for (int at = 0; at < CALLS; at++) {
        int64_t since = now();
        call();
        int64_t took = now() - since;
        if (took < least) least = took;
    }
    return least;
}

/* The bytes of stack from the deepest that a call wrote to. */
static size_t deepest(void) {
    size_t left = 0;
    memset(stack, PAINT, STACK);
    getcontext(&inside);
    inside.uc_stack.ss_sp = stack;
    inside.uc_stack.ss_size = STACK;
    inside.uc_link = &outside;
    makecontext(&inside, call, 0);
    swapcontext(&outside, &inside);
    while (left < STACK && stack[left] == PAINT) left++;
    return STACK - left;
}

int main(int count, char **words) {
    FILE *file = count == 3 && strlen(words[1]) == 64 ? fopen(words[2], "rb") : NULL;
    if (file == NULL) return 2;
    bytes = fread(receipts, 1, MOST_BYTES, file);
    for (int at = 0; at < 32; at++) {
        unsigned value = 0;
        if (sscanf(words[1] + 2 * at, "%2x", &value) != 1) return 2;
        run_id[at] = (uint8_t)value;
    }
    size_t depth = deepest();
    printf("status %u\norder %u\ntime %lld\n", (unsigned)status, (unsigned)order, (long long)quickest());
    printf("stack %zu\nmemory %zu\n", depth, sm_arena_most());
    return 0;
}
