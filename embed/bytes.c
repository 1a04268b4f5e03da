/* memcpy, memmove and memset, the three functions of the C library that the archives call, for a program without that library. A
   processor's own vendor mostly has faster ones.

   Each loop has a barrier that no compiler sees through. Without it a compiler takes the loop for a call of the very function. */
#include <stddef.h>
#include <stdint.h>

#define BARRIER() __asm__ volatile("" ::: "memory")

void *memcpy(void *restrict to, const void *restrict from, size_t bytes);
void *memmove(void *to, const void *from, size_t bytes);
void *memset(void *to, int value, size_t bytes);

void *memcpy(void *restrict to, const void *restrict from, size_t bytes) { return memmove(to, from, bytes); }

void *memmove(void *to, const void *from, size_t bytes) {
    uint8_t *into = to;
    const uint8_t *of = from;
    if ((uintptr_t)into <= (uintptr_t)of) {
        for (size_t at = 0; at < bytes; at++) {
            into[at] = of[at];
            BARRIER();
        }
    } else {
        for (size_t left = bytes; left != 0; left--) {
            into[left - 1] = of[left - 1];
            BARRIER();
        }
    }
    return to;
}

void *memset(void *to, int value, size_t bytes) {
    uint8_t *into = to;
    for (size_t at = 0; at < bytes; at++) {
        into[at] = (uint8_t)value;
        BARRIER();
    }
    return to;
}
