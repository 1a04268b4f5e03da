/* A heap over a pool of fixed size, in place of heap.c, for a program that may not take more memory than it has
   planned. It keeps the rules of sm_heap.h. If the pool is used up, memory is refused: a call of the
   library is SM_MEMORY then, and may be made again.

   SM_POOL_BYTES is the size. sm_pool_most tells the most bytes that were taken at one time, with 16 bytes for each
   block. A run of correct nodes takes less than faulty neighbours can cause. So run a program once with a large pool, in
   which faulty neighbours send every value in every round in which it can count, as bench/pools.py does. Add what
   docs/NODES.md says of signatures that do not count. Free memory may lie in pieces: take a quarter more. */
#include "sm_heap.h"
#include <stdalign.h>
#include <stdatomic.h>
#if __STDC_HOSTED__
#include <string.h>
#else
void *memcpy(void *restrict to, const void *restrict from, size_t bytes);
#endif

#ifndef SM_POOL_BYTES
#define SM_POOL_BYTES (8 << 20)
#endif

/* What stands before each block of the pool. Blocks stand one behind another, from the beginning of the pool to its
 * end. */
struct block {
    alignas(16) size_t bytes;
    bool is_taken;
};

size_t sm_pool_most(void);

enum { UNIT = sizeof(struct block), POOL = SM_POOL_BYTES / UNIT * UNIT };

static union {
    struct block first;
    uint8_t bytes[POOL];
} pool = {.first = {POOL - UNIT, false}};

static size_t taken, most;
static atomic_flag is_locked = ATOMIC_FLAG_INIT;

static void lock(void) {
    while (atomic_flag_test_and_set(&is_locked)) continue;
}

static void unlock(void) { atomic_flag_clear(&is_locked); }

/* The block behind one, or null behind the last. */
static struct block *behind(struct block *block) {
    uint8_t *at = (uint8_t *)(block + 1) + block->bytes;
    return at == pool.bytes + POOL ? NULL : (struct block *)at;
}

/* Makes one block of a block and of the free ones behind it. */
static void join(struct block *block) {
    for (struct block *next = behind(block); next != NULL && !next->is_taken; next = behind(block))
        block->bytes += UNIT + next->bytes;
}

/* Leaves what a block does not need behind it, as a free block. */
static void cut(struct block *block, size_t bytes) {
    if (block->bytes - bytes < 2 * UNIT) return;
    struct block *rest = (struct block *)((uint8_t *)(block + 1) + bytes);
    *rest = (struct block){block->bytes - bytes - UNIT, false};
    block->bytes = bytes;
}

/* Takes the first free block that is long enough, or null. */
static struct block *take(size_t bytes) {
    struct block *block = &pool.first;
    for (; block != NULL; block = behind(block)) {
        if (block->is_taken) continue;
        join(block);
        if (block->bytes >= bytes) break;
    }
    if (block == NULL) return NULL;
    cut(block, bytes);
    block->is_taken = true;
    taken += UNIT + block->bytes;
    if (taken > most) most = taken;
    return block;
}

static void give_back(struct block *block) {
    block->is_taken = false;
    taken -= UNIT + block->bytes;
}

/* So many bytes in whole units, or more than the pool has. */
static size_t in_units(size_t bytes) { return bytes > POOL ? POOL : (bytes + UNIT - 1) / UNIT * UNIT; }

static struct sm_block told(struct block *block) {
    return (struct sm_block){block != NULL, block != NULL ? (uint8_t *)(block + 1) : pool.bytes};
}

struct sm_block rattle_alloc(size_t bytes, size_t align) {
    (void)align;
    lock();
    struct sm_block block = told(take(in_units(bytes)));
    unlock();
    return block;
}

struct sm_block rattle_realloc(uint8_t *at, size_t kept, size_t bytes, size_t align) {
    (void)align;
    struct block *old = (struct block *)at - 1, *new = old;
    lock();
    if (in_units(bytes) > old->bytes) new = take(in_units(bytes));
    if (new != NULL &&new != old) {
        memcpy(new + 1, at, kept < bytes ? kept : bytes);
        give_back(old);
    }
    struct sm_block block = told(new);
    unlock();
    return block;
}

void rattle_dealloc(uint8_t *at) {
    lock();
    give_back((struct block *)at - 1);
    unlock();
}

size_t sm_pool_most(void) {
    lock();
    size_t bytes = most;
    unlock();
    return bytes;
}
