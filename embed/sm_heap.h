/* The heap of the libraries: three functions, of heap.c or of a file in its place, that keep these rules.

   All three are of one allocator. A block is aligned to `align`, which divides 16. `bytes` may be 0: the block is then
   one like any other. rattle_realloc keeps the first `kept` bytes of a block. `ok` is false if and only if memory is
   refused; a block that could not be made longer is kept then. `at` is never null; nothing is read or written at it
   where `ok` is false. Several threads may call them at once. */
#ifndef SM_HEAP_H
#define SM_HEAP_H

#include <stdbool.h>
#include <stddef.h>
#include <stdint.h>

struct sm_block {
    bool ok;
    uint8_t *at;
};

struct sm_block rattle_alloc(size_t bytes, size_t align);
struct sm_block rattle_realloc(uint8_t *at, size_t kept, size_t bytes, size_t align);
void rattle_dealloc(uint8_t *at);

#endif
