/* What the examples in C share: standard input, the text of an answer, and the line of what failed. */
#ifndef ANSWERS_H
#define ANSWERS_H

#include "sm_embed.h"
#include <stdio.h>
#include <stdlib.h>

/* The exit status for a stream that failed. */
enum { STREAM_FAILED = 5 };

/* Some bytes on the heap. */
struct bytes {
    uint8_t *at;
    size_t length;
};

/* Says in a line on standard error what failed, and returns the exit status for it. */
static inline int failed(int status, const char *line) {
    fprintf(stderr, "%s\n", line);
    return status;
}

/* All of standard input; null where memory was refused. A read that failed has ended it, as ferror then tells. */
static inline struct bytes read_all(void) {
    struct bytes read = {malloc(4096), 0};
    for (size_t room = 4096; read.at != NULL;) {
        size_t more = fread(read.at + read.length, 1, room - read.length, stdin);
        read.length += more;
        if (more == 0) return read;
        if (read.length < room) continue;
        room *= 2;
        uint8_t *longer = realloc(read.at, room);
        if (longer == NULL) free(read.at);
        read.at = longer;
    }
    return read;
}

/* The text that an answer holds; null where memory was refused. */
static inline struct bytes text_of(sm_answer *answer) {
    struct bytes text = {NULL, 0};
    uint32_t status = sm_answer_text(answer, NULL, 0, &text.length);
    text.at = malloc(text.length != 0 ? text.length : 1);
    if (text.at != NULL && status == SM_LENGTH) status = sm_answer_text(answer, text.at, text.length, &text.length);
    return text;
}

/* Writes what a call made where sm_tool writes it, and frees it; returns the exit status. Of a general that is none of
   the run's sm_tool has no evidence, which is a no. */
static inline int tell(uint32_t status, sm_answer *answer) {
    if (status == SM_MISUSE) return failed(SM_MISUSE, "usage: see the first lines of the example");
    if (status == SM_NOBODY) return SM_NO;
    struct bytes text = status != SM_MEMORY ? text_of(answer) : (struct bytes){NULL, 0};
    sm_answer_free(answer);
    if (text.at == NULL) return failed(SM_MEMORY, "memory");
    int is_line = status == SM_FAULT || status == SM_OTHER;
    int is_written = fwrite(text.at, 1, text.length, is_line ? stderr : stdout) == text.length && fflush(stdout) == 0;
    free(text.at);
    if (is_line) return failed(SM_FAULT, "");
    return is_written ? (int)status : failed(STREAM_FAILED, "write failed");
}

#endif
