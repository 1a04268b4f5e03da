/* A heap for an actuator, in place of heap.c: one buffer of fixed size, without malloc. It keeps the rules of sm_heap.h,
   but for one: a single thread makes all calls. If the buffer is used up, memory is refused.

   Blocks stand one behind another. The last block grows in its place. The room of a freed block comes back when all
   blocks behind it are freed. So the buffer is empty when no block is left. This fits a call that frees what it takes,
   as sm_node_shown. It does not fit a node, which frees in another order: pool.c is for nodes.

   SM_ARENA_BYTES is the size. Without it the buffer is enough for 16 receipts of any header. sm_arena_most tells the
   most bytes that were taken at one time. */
#include "sm_heap.h"
#include <stdalign.h>
#if __STDC_HOSTED__
#include <string.h>
#else
void *memcpy(void *restrict to, const void *restrict from, size_t bytes);
#endif

#ifndef SM_ARENA_BYTES
#define SM_ARENA_BYTES (16 * 20 * 1024)
#endif

/* What stands before a block, in one unit: where the block before it begins, how many units the block has, and whether
   it is freed. */
struct front {
    uint32_t before, units;
    bool is_free;
};

union unit {
    struct front front;
    alignas(16) uint8_t bytes[16];
};

size_t sm_arena_most(void);

enum { UNIT = sizeof(union unit), UNITS = SM_ARENA_BYTES / UNIT };

/* The buffer, where its last block begins, where that ends, and the most that this was. */
static union unit arena[UNITS];
static uint32_t last, end, most;

/* How many units so many bytes take. */
static size_t units_of(size_t bytes) { return bytes / UNIT + (bytes % UNIT != 0); }

/* Whether a block of so many units may begin at a unit. */
static bool has_room(uint32_t at, size_t units) { return at < UNITS && units < UNITS - at; }

static struct sm_block refused(void) { return (struct sm_block){false, arena[0].bytes}; }
static struct sm_block block_at(uint32_t at) { return (struct sm_block){true, arena[at].bytes + UNIT}; }

/* Gives the last block so many units. */
static struct sm_block make_last(size_t units) {
    arena[last].front.units = (uint32_t)units;
    end = last + 1 + (uint32_t)units;
    if (end > most) most = end;
    return block_at(last);
}

struct sm_block rattle_alloc(size_t bytes, size_t align) {
    (void)align;
    if (!has_room(end, units_of(bytes))) return refused();
    arena[end].front = (struct front){last, 0, false};
    last = end;
    return make_last(units_of(bytes));
}

struct sm_block rattle_realloc(uint8_t *at, size_t kept, size_t bytes, size_t align) {
    uint32_t own = (uint32_t)((union unit *)at - arena) - 1;
    if (units_of(bytes) <= arena[own].front.units) return block_at(own);
    if (own == last) return has_room(own, units_of(bytes)) ? make_last(units_of(bytes)) : refused();
    struct sm_block block = rattle_alloc(bytes, align);
    if (!block.ok) return block;
    memcpy(block.at, at, kept < bytes ? kept : bytes);
    rattle_dealloc(at);
    return block;
}

void rattle_dealloc(uint8_t *at) {
    ((union unit *)at - 1)->front.is_free = true;
    for (; end != 0 && arena[last].front.is_free; last = arena[last].front.before) end = last;
}

size_t sm_arena_most(void) { return (size_t)most * UNIT; }
