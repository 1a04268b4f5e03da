/* What the program sm_tool asks of its process: the words of the command line, and the number of the last error of the system.

   The toolchain has these functions as compiled C for x86-64 alone. So this file stands in their place where the program is linked
   for another processor, beside embed/heap.c. Nothing proves it, and docs/ASSURANCE.md names it. The C library hands the words to
   each function of .init_array. */
#include <errno.h>
#include <stddef.h>
#include <stdint.h>

size_t rattle_arg_count(void);
intptr_t rattle_arg(size_t number, uint8_t *room, size_t room_bytes);
int32_t rattle_errno(void);
void rattle_set_errno(int32_t number);

enum { NO_WORD = -1, TOO_LONG = -2 };

static size_t word_count;
static char **words;

static void keep_words(int count, char **given) { word_count = (size_t)count, words = given; }
__attribute__((section(".init_array"), used)) static void (*const keeps_words)(int, char **) = keep_words;

/* How many words there are, the program's own name among them. */
size_t rattle_arg_count(void) { return word_count; }

/* Copies a word without its end. Returns its length, or that there is no such word, or that the room is too short. */
intptr_t rattle_arg(size_t number, uint8_t *room, size_t room_bytes) {
    if (number >= word_count) return NO_WORD;
    size_t at = 0;
    for (; words[number][at] != '\0'; at++) {
        if (at == room_bytes) return TOO_LONG;
        room[at] = (uint8_t)words[number][at];
    }
    return (intptr_t)at;
}

int32_t rattle_errno(void) { return errno; }
void rattle_set_errno(int32_t number) { errno = number; }
