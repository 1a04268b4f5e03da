/* A heap for the library of nodes that refuses: in place of embed/heap.c.

   Where `left` is not negative, so many blocks are still had, and each after them is refused. `blocks` is how many are
   held. */
#include "../embed/sm_heap.h"
#include <stdlib.h>

long left = -1, blocks = 0;
static uint8_t no_block;

static bool refuses(void) {
    if (left > 0) left--;
    else if (left == 0) return true;
    return false;
}

static struct sm_block block_at(uint8_t *at) { return (struct sm_block){at != NULL, at != NULL ? at : &no_block}; }

struct sm_block rattle_alloc(size_t bytes, size_t align) {
    if (refuses()) return block_at(NULL);
    blocks++;
    return block_at(malloc(bytes != 0 ? bytes : align));
}

struct sm_block rattle_realloc(uint8_t *at, size_t kept, size_t bytes, size_t align) {
    (void)kept;
    return block_at(refuses() ? NULL : realloc(at, bytes != 0 ? bytes : align));
}

void rattle_dealloc(uint8_t *at) {
    blocks--;
    free(at);
}
