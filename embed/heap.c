/* The library takes its memory from malloc, realloc and free of C. These align each block to 16 bytes, or to the greatest
   power of two that divides its size. The library asks for no more. The rules that other functions in their place must
   keep stand in sm_heap.h. */
#include "sm_heap.h"
#include <stdlib.h>

/* What `at` points to where there is no block. */
static uint8_t no_block;

static struct sm_block block_at(uint8_t *at) {
    return (struct sm_block){at != NULL, at != NULL ? at : &no_block};
}

struct sm_block rattle_alloc(size_t bytes, size_t align) { return block_at(malloc(bytes != 0 ? bytes : align)); }

struct sm_block rattle_realloc(uint8_t *at, size_t kept, size_t bytes, size_t align) {
    (void)kept;
    return block_at(realloc(at, bytes != 0 ? bytes : align));
}

void rattle_dealloc(uint8_t *at) { free(at); }
